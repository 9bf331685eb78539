"""Transactions of a master's clients, its replicas, and kills: a group is there as a whole or not at all."""

import random
import threading
import unittest

from tests.support.handshake import GREETED, PART, announces
from tests.support.program import request
from tests.support.replicas import Played
from tests.support.replicating import Replicating
from tests.support.replies import ABORTED, OK, QUEUED, READONLY, array_of, bulk, number, read
from tests.support.requests import EXEC, MULTI, PAIR, SET, SET_A, SET_B, framed
from tests.support.server import free_port

# how far an offset may go, and what a command is told that would carry it further
MOST, LIMIT = 2**62, b"-ERR offset limit\r\n"
# transactions that a client sends at once, how many keys each sets to its number, and how often a master is killed within them
SENT, KEYS, KILLS = 10_000, ["key%d" % at for at in range(10)], 6


def transacted(*texts):
    return MULTI + b"".join(texts) + EXEC


class Groups(Replicating):
    def does(self, master, *texts):
        """A client of the master has these SETs done as one."""
        master.asked.send(transacted(*texts))
        self.assertEqual([master.asked.reply() for _ in range(len(texts) + 2)], [OK, *(len(texts) * [QUEUED]), array_of(*(len(texts) * [OK]))])

    def test_a_replica_is_sent_the_group(self):
        master, replica = self.node(), self.node(aof=self.path)
        proxy = self.proxy(master)
        self.assertTrue(replica.follow(proxy.port))
        self.caught_up(master, replica)
        before, heard = master.said().offset, len(proxy.heard()[0])
        self.does(master, SET_A, SET_B)
        self.assertEqual(self.caught_up(master, replica).shows[1], before + 83)
        self.does(master, SET)
        self.assertEqual(self.caught_up(master, replica).shows[1], before + 83 + 27)
        self.assertEqual(proxy.heard()[0][heard:], PAIR + SET)
        self.assertEqual(self.bytes(), PAIR + SET)

    def test_writes_on_a_replica(self):
        master, replica = self.node(), self.node()
        self.assertEqual(master.asks("SET", "k", "v"), OK)
        self.assertTrue(replica.follow(master.port))
        self.caught_up(master, replica)
        told = [replica.asks(*line.split()) for line in ("MULTI", "GET k", "SET k w", "EXEC", "MULTI", "GET k", "DBSIZE", "EXEC")]
        self.assertEqual(told, [OK, QUEUED, READONLY, ABORTED, OK, QUEUED, QUEUED, array_of(bulk("v"), number(1))])

    def test_each_byte_of_a_group(self):
        """Links that are cut behind each byte in turn of a group: before its last one the replica shows what it showed, and it is sent all of it again."""
        master = self.node()
        nodes = [self.node() for _ in range(6)]
        proxies = [self.proxy(master) for _ in nodes]
        for node, proxy in zip(nodes, proxies):
            self.assertTrue(node.follow(proxy.port))
        for first in range(0, 84, len(nodes)):
            before = self.caught_up(master, *nodes)
            group = [request("SET", key, "%02d" % first) for key in "ab"]
            size = len(framed(*group))
            for cut, proxy in enumerate(proxies, first):
                proxy.free = len(proxy.links)
                proxy.lets_go.clear()
                proxy.links[-1].cut_after(cut)
            self.does(master, *group)
            for cut, (proxy, node) in enumerate(zip(proxies, nodes), first):
                self.comes(lambda: len(proxy.links) > proxy.free)
                self.assertEqual(node.said().shows, (before.shows[0], before.shows[1] + (size if cut >= size else 0)))
                proxy.lets_go.set()
            self.caught_up(master, *nodes)
            for cut, proxy in enumerate(proxies, first):
                wanted = before.shows[1] + (size if cut >= size else 0) + 1
                self.assertIn(request("PSYNC", before.shows[0], "%d" % wanted), bytes(proxy.links[-1].told))
                rest = b"" if cut >= size else framed(*group)
                self.assertEqual(proxy.heard()[-1], GREETED + PART + before.shows[0].encode() + b"\r\n" + rest)

    def test_who_asks_for_a_part(self):
        """A master tells what is asked for from any offset on, and a group is no unit to it."""
        master = self.node()
        self.does(master, SET_A, SET_B)
        id = master.said().id
        for first in (1, 16, 43, 83, 84):
            client, wanted = self.client(master), PART + id.encode() + b"\r\n" + PAIR[first - 1 :]
            client.send(request("PSYNC", id, str(first)))
            self.assertEqual(client.receive(len(wanted)), wanted)

    def test_nodes_never_differ_in_silence(self):
        """Random transactions, and promotions between them."""
        master, *others = self.followed(2)
        for at in range(6):
            for _ in range(10):
                commands = self.writes.commands(self.writes.chance.randint(0, 12))
                master.asked.send(transacted(*(request(*it) for it in commands)))
                self.assertEqual([master.asked.reply()[:1] for _ in range(len(commands) + 2)], [b"+", *(len(commands) * [b"+"]), b"*"])
                self.writes.note()
                self.looks(master, *others)
            self.caught_up(master, *others)
            if at % 2:
                old, (master, other) = master, others
                self.promoted(master)
                for it in (old, other):
                    self.assertTrue(it.follow(master.port))
                others = [old, other]


class AtTheLimit(Replicating):
    """A node that came so far by its master's stream that the offset's limit is near."""

    def leads(self, room):
        """A master with so many bytes left before the limit, which holds one key."""
        node = self.node(follows=self.fake(Played(announces("a", MOST - room, SET))).port)
        self.comes(lambda: node.said().offset == MOST - room)
        self.promoted(node)
        return node

    def does(self, room, rows, grown):
        """A transaction of these commands with these replies, where so many bytes are left; and how many it takes."""
        node = self.leads(room)
        for line in ("MULTI", *(line for line, _ in rows)):
            self.assertEqual(node.asks(*line.split()), OK if line == "MULTI" else QUEUED)
        self.assertEqual(node.asks("EXEC"), array_of(*(reply for _, reply in rows)))
        self.assertEqual(node.said().offset, MOST - room + grown)

    def test_a_group_that_fits(self):
        self.does(83, [("SET a 1", OK), ("SET b 2", OK), ("GET b", bulk("2")), ("SET c 3", LIMIT)], 83)
        self.does(27, [("GET k", bulk("v")), ("SET k w", OK), ("DEL k", LIMIT), ("GET k", bulk("w"))], 27)

    def test_the_frame_counts(self):
        """The second effect doesn't fit with it, a shorter one does, and where one stands alone there is none."""
        self.does(82, [("SET a 1", OK), ("SET b 2", LIMIT), ("EXISTS a b", number(1))], 27)
        self.does(82, [("SET a 1", OK), ("SET b 2", LIMIT), ("DEL a", number(1)), ("EXISTS a b", number(0))], 76)
        self.does(68, [("DEL k none", number(1)), ("SET k v", LIMIT)], 20)
        self.does(26, [("SET a 1", LIMIT), ("SET k w", LIMIT), ("GET k", bulk("v")), ("DEL k", number(1)), ("EXISTS k", number(0))], 20)
        self.does(0, [("SET a 1", LIMIT), ("DEL k", LIMIT), ("GET k", bulk("v"))], 0)


class Killing(Replicating):
    """A client sends thousands of transactions at once, each of which sets ten keys to its number, and the master is killed within them."""

    def sent(self, master, first, until_told):
        """Sends the transactions from this one on, and kills the master once so many were answered: the number of the last one that was."""
        data = b"".join(transacted(*(request("SET", key, "%d" % at) for key in KEYS)) for at in range(first, first + SENT))
        told = OK + len(KEYS) * QUEUED + array_of(*(len(KEYS) * [OK]))
        client = self.client(master)
        sender = threading.Thread(target=client.send_what_goes, args=(data,))
        sender.start()
        try:
            heard = client.receive(until_told * len(told))
        finally:
            master.process.kill()
            sender.join()
        heard += client.rest()
        master.ended()
        self.assertEqual(heard, (told * (len(heard) // len(told) + 1))[: len(heard)])
        return first + len(heard) // len(told) - 1

    def agreed(self, node):
        """The number that all keys hold, which is 0 where there are none."""
        held, _ = read(node.asks("MGET", *KEYS))
        self.assertEqual(len(set(held)), 1, held)
        return 0 if held[0] == b"$-1" else int(held[0])

    def test_ten_keys_agree_after_a_kill(self):
        """After a start with the file, with all that was answered; and on the replica that is promoted then."""
        chance, last, port = random.Random(13), 0, free_port()
        for _ in range(KILLS):
            master = self.node(aof=self.path, port=port)
            replica = self.node(follows=port)
            self.caught_up(master, replica)
            answered = self.sent(master, last + 1, chance.randint(1, SENT))
            self.comes(lambda: replica.asks("ROLE").count(b"connect\r\n"))
            self.promoted(replica)
            followed = self.agreed(replica)
            again = self.node(aof=self.path, port=port)
            kept = self.agreed(again)
            self.assertTrue(answered <= kept <= last + SENT, (answered, kept))
            self.assertTrue(last <= followed <= last + SENT, (last, followed))
            self.assertEqual(again.asks("DBSIZE"), number(len(KEYS)))
            self.assertTrue(replica.follow(port))
            self.caught_up(again, replica)
            self.assertEqual(self.agreed(replica), kept)
            again.kill()
            replica.kill()
            last = kept
        self.assertGreater(last, KILLS)


if __name__ == "__main__":
    unittest.main()
