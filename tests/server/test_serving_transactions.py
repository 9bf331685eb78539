"""Transactions of clients of `minired serve`: each stands on its link, and is done as a whole or not at all."""

import threading
import unittest

from tests.support.program import request
from tests.support.replies import ABORTED, EXEC_ALONE, NESTED, NIL, OK, QUEUED, READONLY, STARTED, UNKNOWN, array, array_of, bulk, number, read
from tests.support.replicas import said_in
from tests.support.requests import EXEC, GET, LEAD, MULTI, PAIR, PING, SET, SET_A, SET_B, SET_W
from tests.support.serving import Serving

FOLLOW = request("REPLICAOF", "127.0.0.1", "1")
# how many clients move amounts between how many accounts at a time, and how often each
CLIENTS, ACCOUNTS, MOVES = 4, 5, 100


class Transactions(Serving):
    def begins(self, client, *requests):
        """Each of the requests waits."""
        for asked, told in ((MULTI, OK), *((it, QUEUED) for it in requests)):
            client.send(asked)
            self.assertEqual(client.reply(), told)

    def ends(self, client, *replies):
        client.send(EXEC)
        self.assertEqual(client.reply(), array_of(*replies))

    def offset(self, client):
        return said_in(client.asks("INFO", "replication")).offset

    def test_a_group_of_83_bytes(self):
        it = self.serve(aof=self.path)
        client = self.client(it)
        self.begins(client, SET_A, SET_B)
        self.assertEqual((self.bytes(), self.offset(self.client(it))), (b"", 0))
        self.ends(client, OK, OK)
        self.assertEqual((self.bytes(), self.offset(client)), (PAIR, 83))
        self.begins(client, SET, SET, GET)
        self.ends(client, OK, OK, bulk("v"))
        self.assertEqual((self.bytes(), self.offset(client)), (PAIR + SET, 83 + 27))

    def test_all_at_once_and_one_byte_at_a_time(self):
        it = self.serve()
        asked, told = MULTI + SET_A + SET_B + EXEC + PING, OK + QUEUED + QUEUED + array_of(OK, OK) + b"+PONG\r\n"
        client = self.client(it)
        client.send(asked)
        self.assertEqual(client.receive(len(told)), told)
        for at in range(len(asked)):
            client.send_and_wait(asked[at : at + 1])
        self.assertEqual(client.receive(len(told)), told)

    def test_others_see_all_of_it_or_nothing(self):
        it = self.serve()
        client, other = self.client(it), self.client(it)
        self.begins(client, SET_A, SET_B)
        self.assertEqual(other.asks("DBSIZE"), number(0))
        self.begins(other, request("MGET", "a", "b"))
        self.ends(client, OK, OK)
        self.assertEqual(self.client(it).asks("MGET", "a", "b"), array("1", "2"))
        self.ends(other, array("1", "2"))

    def test_a_link_that_ends_takes_what_waits_along(self):
        it = self.serve(aof=self.path)
        for ends in ("close", "reset", "send_no_more", "quit"):
            with self.subTest(ends=ends):
                client = self.client(it)
                self.begins(client, SET_A, SET_B)
                if ends == "quit":
                    self.assertEqual(client.asks("QUIT"), OK)
                    client.send_what_goes(EXEC)
                else:
                    getattr(client, ends)()
                if ends in ("send_no_more", "quit"):
                    self.assertEqual(client.rest(), b"")
                other = self.client(it)
                self.assertEqual((other.asks("DBSIZE"), other.asks("EXEC")), (number(0), EXEC_ALONE))
        self.assertEqual((self.bytes(), self.offset(other)), (b"", 0))

    def test_a_fault_marks_it_and_the_link_goes_on(self):
        client = self.client(self.serve())
        self.begins(client, SET)
        for asked, told in ((b"NOPE\r\n", UNKNOWN), (MULTI, NESTED), (SET_W, QUEUED), (EXEC, ABORTED), (GET, NIL), (EXEC, EXEC_ALONE), (SET, OK), (GET, bulk("v"))):
            client.send(asked)
            self.assertEqual(client.reply(), told, asked)

    def test_a_master_that_obeys_before_the_end(self):
        """What was to be written is refused at the end, what is read is answered."""
        it = self.serve(aof=self.path)
        client, other = self.client(it), self.client(it)
        self.assertEqual(client.asks("SET", "k", "v"), OK)
        self.begins(client, SET_W, GET, SET_A)
        other.send(FOLLOW)
        self.assertEqual(other.reply(), OK)
        self.ends(client, READONLY, bulk("v"), READONLY)
        # and now at once
        self.begins(client, GET)
        self.assertEqual((client.asks("SET", "k", "w"), client.asks("EXEC")), (READONLY, ABORTED))
        self.begins(client, GET)
        other.send(LEAD)
        self.assertEqual(other.reply(), OK)
        client.send(SET_W)
        self.assertEqual(client.reply(), QUEUED)
        self.ends(client, bulk("v"), OK)
        self.assertEqual(self.bytes(), SET + SET_W)

    def test_a_server_that_is_shut_down_before_the_end(self):
        it = self.serve(aof=self.path)
        client, other = self.client(it), self.client(it)
        self.assertEqual(client.asks("SET", "k", "v"), OK)
        self.begins(client, SET_W, SET_A)
        other.send(request("SHUTDOWN"))
        self.assertEqual(it.ended().returncode, 0)
        self.assertEqual((client.rest(), self.bytes()), (b"", SET))

    def test_a_file_that_is_written_anew_before_the_end(self):
        it = self.serve(aof=self.path)
        client, other = self.client(it), self.client(it)
        for value in "vw":
            self.assertEqual(client.asks("SET", "k", value), OK)
        self.begins(client, SET_A, SET_B)
        self.assertEqual((other.asks("BGREWRITEAOF"), self.bytes()), (STARTED, SET_W))
        self.ends(client, OK, OK)
        self.assertEqual(self.bytes(), SET_W + PAIR)
        it.kill()
        self.assertEqual(self.client(self.serve(aof=self.path)).asks("MGET", "a", "b", "k"), array("1", "2", "w"))

    def test_time_stands_still_within_one(self):
        """A deadline is as far away at the end as at its setting, and has come for others once it has."""
        client = self.client(self.serve())
        ask, set_ = request("PTTL", "k"), request("SET", "k", "v", "PX", "20")
        self.begins(client, *(500 * [set_, ask]))
        client.send(EXEC)
        self.assertEqual(read(client.reply())[0], 500 * [b"+OK", b":20"])
        self.comes(lambda: client.asks("GET", "k") == NIL)
        self.assertEqual(client.asks("DBSIZE"), number(0))

    def test_amounts_that_are_moved(self):
        """Clients move amounts between accounts, and others look at all accounts: the sum is always the same."""
        it = self.serve()
        accounts, wrong = ["account%d" % at for at in range(ACCOUNTS)], []
        client = self.client(it)
        self.assertEqual(client.asks("MSET", *(word for name in accounts for word in (name, "100"))), OK)

        def move(number_, client):
            for at in range(MOVES):
                source, target = accounts[(at + number_) % ACCOUNTS], accounts[(2 * at + number_ + 1) % ACCOUNTS]
                client.send(MULTI + request("DECRBY", source, str(at)) + request("INCRBY", target, str(at)) + request("MGET", *accounts) + EXEC)
                replies = [client.reply() for _ in range(5)]
                seen = read(replies[-1])[0][2]
                client.send(request("MGET", *accounts))
                for found in (seen, read(client.reply())[0]):
                    if sum(map(int, found)) != 100 * ACCOUNTS:
                        wrong.append(found)

        movers = [threading.Thread(target=move, args=(at, self.client(it))) for at in range(CLIENTS)]
        for mover in movers:
            mover.start()
        for mover in movers:
            mover.join()
        self.assertEqual(wrong, [])


if __name__ == "__main__":
    unittest.main()
