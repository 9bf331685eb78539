"""Words of up to 512 MiB through `minired serve`: in whatever pieces they come, what they cost of memory, and where each allocation is refused in turn."""

import contextlib
import os
import random
import unittest

from tests.support.program import request
from tests.support.refusing import Refusing
from tests.support.replies import BULK_LENGTH, OK, PONG, UNKNOWN, number
from tests.support.requests import GET
from tests.support.server import MIB, BareServer, NotReady
from tests.support.serving import Serving

# so many bytes the greatest word has
MOST = 512 * MIB
# SET and GET of it take no more than so many times its bytes, beside what a server takes for its backlog, its pieces and whole pages
TIMES, OTHER = 3, 16 * MIB
# so many clients announce such a word and send nothing, and what memory they may take
MANY, LITTLE = 100, 2 * MIB
# so many bytes of it come one at a time, and the others in pieces
ALONE, PIECE = 65_536, 65_536
# a request that sets a key to a word of a length, up to the word
HEAD = b"*3\r\n$3\r\nSET\r\n$1\r\nk\r\n$%d\r\n"
# the word whose allocations are refused in turn
REFUSED = 20 * MIB


def blocks():
    """The greatest word, by the MiB. No two of them are the same."""
    chance = random.Random(14).randbytes(MIB - 8)
    for at in range(MOST // MIB):
        yield at.to_bytes(8, "big") + chance


class Large(Serving):
    def said(self, client, text):
        """The next bytes that a client gets are these."""
        self.assertEqual(client.receive(len(text)), text)

    def sets(self, client):
        """The request that sets a key to the greatest word, the first bytes of it one at a time."""
        client.send(HEAD % MOST)
        for at, block in enumerate(map(memoryview, blocks())):
            alone = 0 if at else ALONE
            for one in range(alone):
                client.send(block[one : one + 1])
            for piece in range(alone, MIB, PIECE):
                client.send(block[piece : piece + PIECE])
        client.send(b"\r\n")
        self.said(client, OK)

    def gets(self, client):
        """The request that gets it, and all of the reply."""
        client.send(GET)
        self.said(client, b"$%d\r\n" % MOST)
        for block in blocks():
            self.assertTrue(client.receive(MIB) == block)
        self.said(client, b"\r\n")

    def both_ways(self, **how):
        """The greatest word is set and got, and then the dataset alone has it."""
        it = self.serve(**how)
        client = self.client(it)
        self.assertEqual(client.asks("PING"), PONG)
        before = it.memory()
        self.sets(client)
        self.assertLess(it.peak(), before + TIMES * MOST + OTHER)
        self.gets(client)
        self.assertEqual(client.asks("STRLEN", "k"), number(MOST))
        self.assertLess(it.peak(), before + TIMES * MOST + OTHER)
        self.assertLess(it.memory(), before + MOST + OTHER)
        return it

    def test_the_greatest_word_both_ways(self):
        self.both_ways()

    def test_the_greatest_word_both_ways_with_a_file(self):
        self.both_ways(aof=self.path, sync="no").kill()
        self.assertEqual(os.path.getsize(self.path), len(HEAD % MOST) + MOST + 2)
        again = self.client(self.serve(aof=self.path, sync="no"))
        self.assertEqual(again.asks("STRLEN", "k"), number(MOST))
        for at in (0, MOST // MIB - 1):
            self.assertEqual(again.asks("GETRANGE", "k", str(at * MIB), str(at * MIB + 7)), b"$8\r\n" + at.to_bytes(8, "big") + b"\r\n")

    def test_who_announces_much_and_sends_nothing_costs_nothing(self):
        it = self.serve()
        clients = [self.client(it) for _ in range(MANY)]
        for client in clients:
            self.assertEqual(client.asks("PING"), PONG)
        before = it.memory()
        for client in clients:
            client.send_and_wait(HEAD % MOST)
        self.assertLess(it.peak(), before + LITTLE)
        self.goes_on(it)
        for client in clients:
            client.close()
        self.comes(lambda: it.descriptors() < MANY)
        self.assertLess(it.peak(), before + LITTLE)

    def test_a_request_of_a_gibibyte(self):
        """Its two words leave room for their lines alone: the second one may have no byte more."""
        it = self.serve()
        client, before = self.client(it), it.memory()
        for second in (b"$536870880\r\n", b"$536870881"):
            client.send(b"*2\r\n$%d\r\n" % MOST)
            for block in blocks():
                client.send(block)
            client.send(b"\r\n" + second)
            if second.endswith(b"\n"):
                for at, block in enumerate(blocks(), 1):
                    client.send(block if at * MIB < MOST else block[:-32])
                client.send(b"\r\n")
                self.said(client, UNKNOWN)
                self.assertLess(it.peak(), before + 2 * MOST + OTHER)
                self.assertEqual(client.asks("PING"), PONG)
                self.assertLess(it.memory(), before + OTHER)
        self.assertEqual(client.rest(), BULK_LENGTH)
        self.goes_on(it)


class Lacking(Refusing):
    """Where memory is lacking the client's link is closed and the server goes on, or ends: what was answered is done."""

    def serves(self, call):
        """A server to which this allocation is refused, or None where it doesn't start; and what tells whether it was refused."""
        heard, teller = os.pipe()
        self.addCleanup(os.close, heard)
        env = {**os.environ, "LD_PRELOAD": self.shim, "REFUSE_CALL": str(call), "TELL_REFUSAL": str(teller)}
        try:
            it = BareServer(env=env, pass_fds=[teller])
            self.addCleanup(it.stop)
            return it, heard
        except NotReady as fault:
            self.assertIn(fault.args[0].returncode, (2, 3))
            self.assertIn(b"out of memory", fault.args[0].stderr)
            return None, heard
        finally:
            os.close(teller)

    def asked(self, it, value):
        """Whether the word was set."""
        with it.client() as client:
            client.send_what_goes(HEAD % len(value) + value + b"\r\n" + request("STRLEN", "k") + request("QUIT"))
            said = client.rest()
        length = number(len(value))
        self.assertIn(said, (b"", OK, OK + length, OK + length + OK))
        return bool(said)

    def held(self, it):
        """How long the word is for another client, or None where the server has ended. The refusal may be of that client's, but not of a second one's."""
        for _ in range(2):
            with contextlib.suppress(OSError, EOFError), it.client() as client:
                return client.asks("STRLEN", "k")
        self.assertEqual(it.ended().returncode, 3)
        return None

    def test_each_allocation_of_a_word_refused_in_turn(self):
        value, refused = random.Random(20).randbytes(REFUSED), 0
        for call in range(1, 1000):
            it, heard = self.serves(call)
            if it is None:
                continue
            was_set = self.asked(it, value)
            self.assertIn(self.held(it), (None, number(len(value)), *(() if was_set else (number(0),))))
            it.stop()
            if not os.read(heard, 1):
                self.assertTrue(was_set)
                break
            refused += 1
        else:
            self.fail("each of the runs was refused an allocation")
        self.assertGreater(refused, 10)


if __name__ == "__main__":
    unittest.main()
