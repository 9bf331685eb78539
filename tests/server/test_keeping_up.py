"""How turns of `minired serve` keep up: with expired keys, with clients whose replies are large, and with those that never read."""

import os
import random
import re
import tempfile
import time
import unittest

from tests.support import server
from tests.support.program import request, shim
from tests.support.replicas import Node
from tests.support.replies import OK, PONG, bulk, number
from tests.support.requests import GET, PING, SET
from tests.support.server import MIB, UNREAD, free_port
from tests.support.serving import Serving

# short-lived keys, so many a second
SHORT_LIVED, A_SECOND = 200_000, 20_000
# keys that expire all at once
AT_ONCE = 1_000_000
# expired keys that a replica keeps, and how often it is asked for the number of the others
FEW, MANY, COUNTS = 5_000, 500_000, 500
# how much memory a level may rise, and an idle server has so many seconds to delete
LEVEL, SECONDS = 12 * MIB, 20
# a large value: four replies of it are as much as a client may leave unread
LARGE = 16 * MIB
DEAF = re.compile(rb"clients closed that left more than 64 MiB unread: (\d+)")


def offset(client):
    """How many bytes of effects there were so far."""
    return int(re.search(rb"master_repl_offset:(\d+)", client.asks("INFO", "replication"))[1])


def deaf_clients(told):
    """How many clients each notice says were closed."""
    return [int(found[1]) for found in map(DEAF.fullmatch, told) if found]


class KeepingUp(Serving):
    """Expired keys go as fast as they come."""

    def sets(self, client, first, count, *until):
        client.send(b"".join(request("SET", "key:%08d" % at, "v", *until) for at in range(first, first + count)))
        self.assertTrue(client.receive(count * len(OK)) == count * OK)

    def test_memory_is_level_over_short_lived_keys(self):
        it = self.serve()
        client, level, began = self.client(it), 0, time.monotonic()
        for at in range(0, SHORT_LIVED, 1000):
            self.sets(client, at, 1000, "PX", "1000")
            if at < 3 * A_SECOND:
                level = it.memory()
            time.sleep(max(0, began + at / A_SECOND - time.monotonic()))
        self.assertLess(it.memory(), level + LEVEL)

    def test_memory_is_level_over_keys_that_come_as_fast_as_they_are_served(self):
        it = self.serve()
        client, level = self.client(it), 0
        for at in range(0, 2 * SHORT_LIVED, 10_000):
            self.sets(client, at, 10_000, "PX", "1")
            if at < SHORT_LIVED // 2:
                level = it.memory()
        self.assertLess(it.memory(), level + LEVEL)

    def test_an_idle_server_deletes_a_million_expired_keys_in_seconds(self):
        self.write(b"".join(request("SET", "key:%08d" % at, "v", "PXAT", "1000") for at in range(AT_ONCE)))
        it, gone = self.serve(aof=self.path, sync="no"), AT_ONCE * len(request("DEL", "key:%08d" % 0))
        client, began = self.client(it), time.monotonic()
        while offset(client) < gone:
            self.assertLess(time.monotonic() - began, SECONDS)
            # nothing is asked meanwhile
            time.sleep(0.5)
        self.assertEqual(offset(client), gone)
        self.assertEqual(client.asks("DBSIZE"), number(0))
        self.assertEqual(self.bytes().count(b"$3\r\nDEL\r\n"), AT_ONCE)

    def test_a_replica_counts_its_keys_at_the_same_cost_however_many_have_expired(self):
        """One that can't reach its master deletes none of them."""
        used = []
        for expired in (FEW, MANY):
            self.write(SET + b"".join(request("SET", "key:%08d" % at, "v", "PXAT", "1000") for at in range(expired)))
            it = Node(follows=free_port(), aof=self.path, sync="no")
            self.addCleanup(it.stop)
            self.assertEqual(it.asks("DBSIZE"), number(1))
            before = it.used()
            for _ in range(COUNTS):
                it.asks("DBSIZE")
            used.append(it.used() - before)
            self.assertIn(b"%d keys" % (expired + 1), it.ready)
            it.stop()
        # going over the expired ones takes a hundred times as long
        self.assertLess(used[1], 8 * used[0])

    def test_others_are_served_while_many_keys_expire(self):
        it = self.serve()
        client = self.client(it)
        self.sets(client, 0, 100_000, "PX", "300")
        time.sleep(0.3)
        for at in range(1000):
            self.assertEqual(client.asks("INCR", "n"), number(at + 1))
        self.comes(lambda: client.asks("DBSIZE") == number(1))


class LargeReplies(Serving):
    """A client that reads gets all its replies, however large they are and however slowly it reads."""

    def setUp(self):
        super().setUp()
        self.it, self.chance = self.serve(), random.Random(38)
        self.other = self.client(self.it)

    def slowly(self, client, wanted):
        """The client takes this in pieces, while another is served between any two."""
        taken, at = 0, int(self.other.asks("INCR", "n")[1:])
        while taken < len(wanted):
            piece = client.receive(min(MIB, len(wanted) - taken))
            self.assertTrue(piece == wanted[taken : taken + len(piece)] and piece)
            taken += len(piece)
            at += 1
            self.assertEqual(self.other.asks("INCR", "n"), number(at))

    def test_one_reply_of_a_hundred_megabytes(self):
        values = [self.chance.randbytes(LARGE) for _ in range(6)]
        for value in values:
            self.other.asks("RPUSH", "l", value)
        slow = self.client(self.it, room=65_536)
        slow.send(request("LPOP", "l", "6"))
        self.slowly(slow, b"*6\r\n" + b"".join(map(bulk, values)))
        self.assertEqual(slow.asks("EXISTS", "l"), number(0))

    def test_many_keys_at_once(self):
        values = [self.chance.randbytes(LARGE) for _ in range(5)]
        for at, value in enumerate(values):
            self.other.asks("SET", "k%d" % at, value)
        slow = self.client(self.it, room=65_536)
        slow.send(request("MGET", *("k%d" % at for at in range(5))))
        self.slowly(slow, b"*5\r\n" + b"".join(map(bulk, values)))
        self.assertEqual(slow.asks("PING"), PONG)

    def test_requests_behind_a_large_reply_wait_for_it(self):
        value = self.chance.randbytes(LARGE)
        self.other.asks("SET", "k", value)
        slow = self.client(self.it, room=65_536)
        slow.send(GET)
        self.comes(lambda: not slow.unread())
        for at in range(10):
            slow.send(request("INCR", "m") + GET)
        self.slowly(slow, bulk(value) + b"".join(number(at + 1) + bulk(value) for at in range(10)))

    def test_a_pipeline_of_ten_thousand(self):
        values = [self.chance.randbytes(10_240) for _ in range(100)]
        for at, value in enumerate(values):
            self.other.asks("SET", "key:%d" % at, value)
        client = self.client(self.it)
        client.send(b"".join(request("GET", "key:%d" % (at % 100)) for at in range(10_000)))
        self.slowly(client, 100 * b"".join(map(bulk, values)))
        self.assertEqual(client.asks("PING"), PONG)

    def test_a_pipeline_that_is_sent_whole_before_it_is_read(self):
        value = self.chance.randbytes(100)
        self.other.asks("SET", "key", value)
        client = self.client(self.it)
        client.send(300_000 * request("GET", "key"))
        self.assertTrue(client.receive(300_000 * len(bulk(value))) == 300_000 * bulk(value))

    def test_a_pipeline_of_large_values_on_a_new_link(self):
        value = self.chance.randbytes(MIB)
        self.other.asks("SET", "k", value)
        client = self.client(self.it)
        client.send(200 * GET + request("INCR", "m"))
        self.slowly(client, 200 * bulk(value))
        self.assertEqual(client.reply(), number(1))

    def test_a_link_that_had_small_replies_gets_large_ones(self):
        value = self.chance.randbytes(20_480)
        self.other.asks("SET", "k", value)
        client = self.client(self.it)
        for _ in range(3):
            client.send(5000 * PING)
            self.assertTrue(client.receive(5000 * len(PONG)) == 5000 * PONG)
            client.send(2000 * GET)
            self.slowly(client, 2000 * bulk(value))

    def test_who_reads_nothing_is_read_no_more_and_may_still_read_all(self):
        value = self.chance.randbytes(MIB)
        self.other.asks("SET", "k", value)
        links = self.it.descriptors()
        late = self.client(self.it, room=4096)
        late.send(300 * GET)
        for at in range(200):
            self.assertEqual(self.other.asks("INCR", "n"), number(at + 1))
        self.assertEqual(self.it.descriptors(), links + 1)
        # of 300 MiB; a buffer that grows is there twice for a moment
        self.assertLess(self.it.peak(), UNREAD + LEVEL)
        wanted = bulk(value)
        for _ in range(300):
            self.assertTrue(late.receive(len(wanted)) == wanted)
        self.assertEqual(late.asks("PING"), PONG)


class Deaf(Serving):
    """Who never reads, and has asked for so much that it was answered nevertheless, is closed."""

    @classmethod
    def setUpClass(cls):
        cls.room = tempfile.TemporaryDirectory()
        cls.addClassCleanup(cls.room.cleanup)
        cls.shim = shim("refusing_send", cls.room.name)

    def test_it_is_closed_and_others_are_served(self):
        it = self.serve()
        other, value = self.client(it), random.Random(11).randbytes(LARGE)
        self.assertEqual(other.asks("SET", "k", value), OK)
        deaf = self.client(it, room=4096)
        # what it sends comes in one piece, since its replies were small so far
        self.assertEqual(deaf.asks("SET", "j", value), OK)
        links = it.descriptors()
        deaf.send(10 * GET)
        self.comes(lambda: it.descriptors() == links - 1)
        self.assertEqual(other.asks("INCR", "n"), number(1))
        self.assertTrue((10 * bulk(value)).startswith(deaf.rest()))
        self.goes_on(it)
        self.assertIn(1, deaf_clients(it.told()))

    def left(self, size):
        """A client that takes nothing sets a value of so many bytes, asks for it four times, and then for a write. What the file has then."""
        self.write(b"")
        it = server.BareServer(aof=self.path, env={**os.environ, "LD_PRELOAD": self.shim})
        self.addCleanup(it.stop)
        deaf = self.client(it)
        deaf.send(request("SET", "k", size * b"x"))
        self.comes(lambda: os.path.getsize(self.path) > size)
        time.sleep(0.1)
        deaf.send(4 * GET + request("RPUSH", "l", "x"))
        closed = size == LARGE
        if closed:
            self.assertEqual(deaf.rest(), b"")
            # it is told once the turn has ended, and here nobody else is answered
            time.sleep(0.5)
        else:
            self.comes(lambda: self.bytes().endswith(request("RPUSH", "l", "x")))
        self.assertEqual(deaf_clients(it.kill().notices), [1] if closed else [])
        return self.bytes()[-len(request("RPUSH", "l", "x")) :]

    def test_it_is_closed_in_place_of_its_next_step(self):
        # 5 bytes and four times 16,777,229 wait: 57 more than may
        self.assertEqual(5 + 4 * len(bulk(LARGE * b"x")), UNREAD + 57)
        self.assertNotEqual(self.left(LARGE), request("RPUSH", "l", "x"))
        # 3 fewer than may
        self.assertEqual(self.left(LARGE - 15), request("RPUSH", "l", "x"))

    def test_who_is_closed_is_told_once_a_second(self):
        it = self.serve()
        other, value = self.client(it), random.Random(11).randbytes(LARGE)
        self.assertEqual(other.asks("SET", "k", value), OK)
        links = it.descriptors()
        for _ in range(3):
            deaf = self.client(it, room=4096)
            self.assertEqual(deaf.asks("SET", "j", value), OK)
            deaf.send(10 * GET)
            self.comes(lambda: it.descriptors() == links)
        time.sleep(1.1)
        self.assertEqual(other.asks("PING"), PONG)
        told = deaf_clients(it.told())
        self.assertEqual(sum(told), 3)
        self.assertLess(len(told), 4)


if __name__ == "__main__":
    unittest.main()
