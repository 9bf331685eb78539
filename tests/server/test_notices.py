"""What a server says of itself on standard error: to whoever doesn't read it, of what others sent, and of memory that lacks."""

import contextlib
import fcntl
import os
import pty
import re
import resource
import select
import subprocess
import termios
import time
import unittest

from tests.support.program import notices, request
from tests.support.replicating import Replicating
from tests.support.replies import OK, PONG
from tests.support.server import HOST, MIB

DROPPED = re.compile(rb"(\d+) lines were dropped since nobody read them")
LACKED = re.compile(rb"links closed for want of memory: (\d+), the last for (.*)")
# more lines than a pipe holds
PAIRS = 1000
# how much memory a server has that lacks some, and a value that takes a part of it, in bytes
MEMORY, VALUE = 256 * MIB, 24 * MIB
# in so many seconds a replica dials again and again
SOME_DIALS = 3


def waits_in(end):
    """The bytes that come at an end of a pipe or a terminal, until nothing more does for a second."""
    found = b""
    while select.select([end], [], [], 1)[0]:
        try:
            piece = os.read(end, 65_536)
        except OSError:
            # nobody has the other end of the terminal any more
            break
        if not piece:
            break
        found += piece
    return found


def within(limit):
    """What has a process begin with so much memory."""
    return lambda: resource.setrlimit(resource.RLIMIT_AS, (limit, limit))


class Unread(Replicating):
    def says_much(self, it):
        """Each request of a client has the server say a line, and is answered."""
        for _ in range(PAIRS):
            self.assertEqual(it.asks("REPLICAOF", "nowhere", "1"), OK)
            self.assertEqual(it.asks("REPLICAOF", "NO", "ONE"), OK)
        self.assertEqual(it.asks("PING"), PONG)

    def counted(self, said):
        """How many lines were dropped and how many are there, of those that tell of a role. Each line is whole."""
        told, rest = notices(said)
        self.assertEqual(rest, b"")
        dropped = sum(int(found[1]) for found in map(DROPPED.fullmatch, told) if found)
        return dropped, len([line for line in told if line.startswith((b"a master, ", b"replica of nowhere:1, not in"))])

    def test_a_pipe_that_nobody_reads(self):
        """Everybody is served while it is full; once it is read, how many lines were dropped is told, and lines go again."""
        it = self.node()
        self.says_much(it)
        end = it.process.stderr.fileno()
        said = waits_in(end)
        dropped, there = self.counted(said)
        self.assertGreater(dropped, PAIRS / 2)
        # the lines at the start, and that the master isn't dialled, may be among those that were dropped
        self.assertIn(dropped + there - 2 * PAIRS, range(4))
        self.assertEqual(it.asks("REPLICAOF", "nowhere", "1"), OK)
        self.assertIn(b"replica of nowhere:1, not in its stream\n", waits_in(end))

    def test_a_pipe_that_is_never_read_again(self):
        it = self.node()
        it.process.stderr.close()
        self.says_much(it)
        self.goes_on(it)

    def test_it_ends_though_nobody_reads(self):
        """That a server fails is told for a second at most."""
        reader, writer = os.pipe()
        for end in (reader, writer):
            self.addCleanup(os.close, end)
        os.set_blocking(writer, False)
        with contextlib.suppress(BlockingIOError):
            while True:
                os.write(writer, bytes(4096))
        os.set_blocking(writer, True)
        it = self.node()
        ended = subprocess.run(it.words(None, None, None), stdin=subprocess.DEVNULL, stdout=subprocess.PIPE, stderr=writer, timeout=30, check=False)
        self.assertEqual(ended.returncode, 2)

    def test_a_terminal_that_is_stopped(self):
        """As by Ctrl-S. It isn't set otherwise for others who have it open."""
        near, far = pty.openpty()
        for end in (near, far):
            self.addCleanup(os.close, end)
        termios.tcflow(far, termios.TCOOFF)
        it = self.node(stderr=far)
        self.assertEqual(fcntl.fcntl(far, fcntl.F_GETFL) & os.O_NONBLOCK, 0)
        self.says_much(it)
        termios.tcflow(far, termios.TCOON)
        said = waits_in(near).replace(b"\r\n", b"\n")
        dropped, there = self.counted(said)
        self.assertGreater(dropped, PAIRS)
        self.assertIn(dropped + there - 2 * PAIRS, range(4))

    def test_a_terminal_whose_reader_is_slow(self):
        near, far = pty.openpty()
        for end in (near, far):
            self.addCleanup(os.close, end)
        it = self.node(stderr=far)
        self.says_much(it)
        dropped, there = self.counted(waits_in(near).replace(b"\r\n", b"\n"))
        self.assertGreater(dropped, PAIRS)
        self.assertIn(dropped + there - 2 * PAIRS, range(4))


class OfOthers(Replicating):
    def test_a_host_of_anything_is_shown_on_one_short_line(self):
        forged = b"\x1b[2J\r\n2026-01-01T00:00:00.000Z minired: ends: a client said SHUTDOWN\n"
        it = self.node()
        for host in (forged + b"h" * MIB, b"\xff\x00\x7f" * 50, "hôte".encode()):
            self.assertEqual(it.asks("REPLICAOF", host, "1"), OK)
            self.comes(lambda: b"connect" in it.asks("ROLE"))
            self.assertEqual(it.asks("REPLICAOF", "NO", "ONE"), OK)
        self.assertEqual(it.asks("PING"), PONG)
        ended = it.kill()
        self.assertEqual(ended.stderr, b"")
        for host in (forged + b"h" * MIB, b"\xff\x00\x7f" * 50, "hôte".encode()):
            self.assertIn(b"replica of %s:1, not in its stream" % re.sub(rb"[^ -~]", b"?", host[:100]), ended.notices)
        self.assertNotIn(b"ends: a client said SHUTDOWN", ended.notices)
        self.assertLess(max(map(len, ended.notices)), 250)


class WantOfMemory(Replicating):
    def lacked(self, told):
        return [(int(found[1]), found[2]) for found in map(LACKED.fullmatch, told) if found]

    def limited(self, values):
        """A server with little memory, of which so many values take a part."""
        it = self.node(limits=within(MEMORY))
        for at in range(values):
            self.assertEqual(it.asks("SET", f"k{at}", bytes(VALUE)), OK)
        return it

    def test_a_request_that_memory_lacks_for(self):
        it = self.limited(1)
        text = request("MGET", *12 * ["k0"])
        with it.client() as client:
            client.send(text)
            self.assertEqual(client.rest(), b"")
        self.goes_on(it)
        self.assertEqual(self.lacked(it.told()), [(1, b"a request, of %d bytes that came" % len(text))])

    def test_bytes_that_memory_lacks_for(self):
        it = self.limited(0)
        with it.client() as client:
            client.send_what_goes(request("SET", "k", bytes(16 * VALUE)))
            self.assertEqual(client.rest(), b"")
        self.goes_on(it)
        (links, asked), *others = self.lacked(it.told())
        self.assertEqual((links, others), (1, []))
        self.assertRegex(asked, rb"\A\d{7,9} bytes that came and weren't read to the end\Z")

    def test_a_copy_that_a_master_can_not_afford(self):
        """It tells that it closed the link, and its replica that it was closed before the copy."""
        master = self.limited(5)
        replica = self.node(follows=master.port)
        of = b"replica of %s:%d, " % (HOST.encode(), master.port)
        time.sleep(SOME_DIALS)
        self.assertEqual(replica.asks("GET", "k0"), b"$-1\r\n")
        told = [it[len(of) :] for it in replica.told() if it.startswith(of)]
        self.assertIn(b"closed by it before the copy", told)
        self.assertNotIn(b"not reached, or link lost in the handshake", told)
        lacked = self.lacked(master.told())
        self.assertTrue(lacked)
        for _, asked in lacked:
            self.assertRegex(asked, rb"\Aa request, of \d+ bytes that came\Z")


if __name__ == "__main__":
    unittest.main()
