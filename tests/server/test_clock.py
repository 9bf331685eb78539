"""`minired serve` where a step takes long, and where the system's clock is set while it serves."""

import mmap
import os
import struct
import tempfile
import time

from tests.support import server
from tests.support.program import request, shim
from tests.support.replies import NIL, OK, STARTED, number
from tests.support.serving import Serving

HOUR = 3_600_000


class Clocks(Serving):
    """The clock is as many milliseconds off as a file says that the program shares with the test."""

    @classmethod
    def setUpClass(cls):
        cls.room = tempfile.TemporaryDirectory()
        cls.addClassCleanup(cls.room.cleanup)
        cls.shim = shim("moving_clock", cls.room.name)

    def serve_by(self, millis=0, rename_takes=0, **how):
        """A server whose clock is so far off, and for which a file's rename takes so long."""
        name = os.path.join(self.room.name, "clock")
        with open(name, "wb") as file:
            file.write(bytes(8))
        with open(name, "r+b") as file:
            self.clock = mmap.mmap(file.fileno(), 8)
        self.addCleanup(self.clock.close)
        self.set(millis)
        it = server.BareServer(env={**os.environ, "LD_PRELOAD": self.shim, "CLOCK": name, "RENAME_TAKES": str(rename_takes)}, **how)
        self.addCleanup(it.stop)
        return it

    def set(self, millis):
        """From now on the clock is so many milliseconds off."""
        self.clock[:] = struct.pack("<q", millis)

    def off(self):
        return struct.unpack("<q", self.clock[:])[0]

    def now(self):
        """What the clock says, in milliseconds."""
        return time.time_ns() // 1_000_000 + self.off()


class LongSteps(Clocks):
    def test_a_lock_is_held_that_is_taken_behind_a_long_step(self):
        """A rewrite takes a second, and in the same turn a lock is taken for less. It isn't let go before its time."""
        self.write(b"")
        client = self.client(self.serve_by(rename_takes=1000, aof=self.path))
        client.send(request("BGREWRITEAOF") + request("SET", "lock", "mine", "NX", "PX", "697"))
        self.assertEqual([client.reply(), client.reply()], [STARTED, OK])
        self.assertEqual(self.off(), 1000)
        self.assertTrue(500 < int(client.asks("PTTL", "lock")[1:]) <= 697)
        self.assertEqual(client.asks("SET", "lock", "other", "NX", "PX", "697"), NIL)

    def test_each_request_of_a_turn_has_its_own_time(self):
        self.write(b"")
        client = self.client(self.serve_by(rename_takes=1000, aof=self.path))
        asks = [request("SET", "k", "v", "PX", "100000"), request("PEXPIRETIME", "k")]
        client.send(b"".join([*asks, request("BGREWRITEAOF"), *asks]))
        replies = [client.reply() for _ in range(5)]
        self.assertTrue(1000 <= int(replies[4][1:]) - int(replies[1][1:]) < 2000, replies)


class SetClocks(Clocks):
    def passes(self, client, key, least, most):
        """A key goes, in no less and no more than so many seconds."""
        began = time.monotonic()
        self.comes(lambda: client.asks("EXISTS", key) == number(0))
        self.assertTrue(least <= time.monotonic() - began <= most, time.monotonic() - began)

    def moment(self, client):
        """The node's moment, as a key's deadline and what is left of it tell."""
        client.send(request("SET", "m", "v", "PX", str(HOUR)) + request("PEXPIRETIME", "m"))
        client.reply()
        return int(client.reply()[1:]) - HOUR

    def test_a_clock_that_is_set_forward_is_gone_with(self):
        client = self.client(self.serve_by())
        self.assertEqual(client.asks("SET", "k", "v", "PX", str(HOUR)), OK)
        self.set(HOUR)
        self.assertEqual(client.asks("GET", "k"), NIL)
        self.assertTrue(abs(self.moment(client) - self.now()) < 1000)

    def test_a_clock_that_is_set_back_lets_deadlines_pass_at_half_the_pace(self):
        client = self.client(self.serve_by())
        before = self.moment(client)
        self.assertEqual(client.asks("SET", "k", "v", "PX", "500"), OK)
        self.set(-HOUR)
        self.passes(client, "k", 0.5, 5)
        # a lock that is taken now is held for its time at least
        self.assertEqual(client.asks("SET", "lock", "mine", "NX", "PX", "500"), OK)
        self.passes(client, "lock", 0.95, 5)
        self.assertLess(before, self.moment(client))

    def test_it_is_gone_with_again_once_it_has_caught_up(self):
        client = self.client(self.serve_by())
        before = self.moment(client)
        self.set(-200)
        moments = [self.moment(client) for _ in range(20)]
        self.assertEqual(moments, sorted([before, *moments])[1:])
        self.comes(lambda: abs(self.moment(client) - self.now()) < 50)

    def test_before_1970_is_as_far_back_as_that(self):
        """It counts as 0, so that deadlines pass at half the pace too."""
        client = self.client(self.serve_by())
        before = self.moment(client)
        self.assertEqual(client.asks("SET", "k", "v", "PX", "500"), OK)
        self.set(-self.now() - HOUR)
        self.passes(client, "k", 0.5, 5)
        self.assertLess(before, self.moment(client))

    def test_a_start_before_1970_is_at_0(self):
        client = self.client(self.serve_by(-time.time_ns() // 1_000_000 - HOUR))
        self.assertEqual(self.moment(client), 0)
