"""Two nodes that follow one another, with each allocation refused in turn: a call that lacks memory changes nothing, and comes to the same when it is made again. Where
memory lacked while an effect was applied the node is stopped."""

import os
import subprocess
import tempfile
import unittest

from tests.support.handshake import GREETED, announces
from tests.support.peers import Ended, PeerFault, Playing, Program, closes, sent
from tests.support.program import LATE, request, shim
from tests.support.replies import OK, array_of, bulk
from tests.support.requests import PAIR, SET

LACKS, STOPPED = "out of memory", "stopped"
# calls before which the node's state is noted, with the link that each is about
CHANGING = {"open": None, "dial": None, "tick": None, "feed": 2, "step": 2}


class Recorder(Program):
    """Keeps the calls with what they answered, and what was shown before each."""

    def __init__(self):
        super().__init__()
        self.rows = []

    def call(self, *words):
        before = state(super().call, words) if words[0] in CHANGING else None
        answer = super().call(*words)
        self.rows.append((words, answer, before))
        return answer


def state(call, words):
    """What a node shows before a call, or where that was refused."""
    link = CHANGING[words[0]]
    counts = [] if link is None else [call(name, words[1], words[link]) for name in ("room", "unread")]
    return [call(name, words[1]) for name in ("shows", "waits", "role", "info")] + counts


class Lacking(Playing):
    def setUp(self):
        self.room = tempfile.TemporaryDirectory()
        self.addCleanup(self.room.cleanup)
        self.shim = shim("refusing_malloc", self.room.name)
        # the calls that lacked memory, or in which a node was stopped for that
        self.lacked, self.stopped = set(), set()

    def course(self):
        """A course of two nodes: writes, a snapshot, the stream, time, a promotion, transactions, and a return. And a third takes a group."""
        # one whose first outs are those of its dial
        self.dialled(self.replica("d"))
        first, second = self.master("a"), self.replica("b")
        near, far = first.open(), second.open()
        for line in ("SET k v\r\n", "SET a 1 PX 5\r\n", "GET k\r\n", "REPLICAOF NO ONE\r\n", "REPLCONF ip-address ::1\r\n", "ROLE\r\n", "INFO\r\n"):
            first.asks(near, line)
        second.asks(far, "PSYNC ? -1\r\n")
        second.asks(far, "REPLICAOF h 1\r\n")
        joined = self.follow(second, first)
        self.shown(second, "a", 71)
        second.asks(joined.below, sent(joined.above, first.asks(near, request("SET", "k", "w"))))
        first.tick(0)
        second.feed(joined.below, sent(joined.above, first.tick(20000)))
        self.assertEqual(second.settles(joined.below), 2)
        self.shown(second, "a", 132)
        second.tick(0)
        first.asks(joined.above, sent(joined.below, second.tick(1000)))
        first.asks(near, "ROLE\r\n")
        second.asks(far, "BGREWRITEAOF\r\n")
        second.asks(far, "REPLICAOF NO ONE\r\n", fresh="c" * 40)
        self.assertTrue(closes(joined.above, first.asks(near, "REPLICAOF h 2\r\n")))
        second.asks(far, request("SET", "k", "v"))
        self.follow(first, second)
        self.shown(first, "c", 159)
        other = second.open()
        for line in ("MULTI", "SET a 1 NX XX", "SET b 2", "DBSIZE", "GET", "EXEC", "MULTI", "GET k", "DISCARD", "MULTI", "EXEC", "MULTI", "INFO", "SET k v", "GET k", "EXEC", "EXEC"):
            second.asks(other, line + "\r\n")
        self.shown(second, "c", 159)
        for line in ("MULTI", "SET a 1", "GET a", "SET b 2"):
            second.asks(other, line + "\r\n")
        self.assertEqual(second.answers(other, "EXEC\r\n"), array_of(OK, bulk("1"), OK))
        self.shown(second, "c", 242)
        self.assertEqual(first.answers(near, "GET k\r\n"), bulk("v"))
        first.asks(near, "REPLICAOF h 3\r\n")
        first.asks(near, "QUIT\r\n")
        # a master that is played sends a group, in two pieces
        third = self.replica("e")
        link = self.dialled(third)
        for data, steps, offset in ((GREETED + announces("a", 27, SET) + PAIR[:50], 5, 27), (PAIR[50:], 1, 110)):
            third.feed(link, data)
            self.assertEqual(third.settles(link), steps)
            self.shown(third, "a", offset)

    def recorded(self):
        usual, self.program = self.program, Recorder()
        try:
            self.course()
            return self.program.rows
        finally:
            self.program.end()
            self.program = usual

    def again(self, rows, refused):
        """Makes the calls once more, with this allocation refused, and returns whether there were so many."""
        heard, teller = os.pipe()
        env = {**os.environ, "LD_PRELOAD": self.shim, "REFUSE_CALL": str(refused), "TELL_REFUSAL": str(teller)}
        program = Program(env=env, pass_fds=[teller], stderr=subprocess.PIPE)
        os.close(teller)
        try:
            self.compared(program, rows)
        except Ended:
            self.assertEqual((program.running.wait(LATE), program.running.stderr.read()), (1, b"rehearse_peers: out of memory\n"))
        program.end()
        program.running.stderr.close()
        was_refused = os.read(heard, 1) == b"r"
        os.close(heard)
        return was_refused

    def compared(self, program, rows):
        for words, answer, before in rows:
            try:
                told = program.call(*words)
            except PeerFault as fault:
                if fault.args == (STOPPED,):
                    self.stopped.add(words[0])
                    self.assertEqual(program.call("shows", words[1])[0], "nothing")
                    return
                self.assertEqual(fault.args, (LACKS,))
                self.lacked.add(words[0])
                if before:
                    self.assertEqual(state(program.call, words), before, words)
                told = program.call(*words)
            self.assertEqual(told, answer, words)

    def test_a_call_that_lacks_memory_is_made_again(self):
        rows, refused = self.recorded(), 1
        while self.again(rows, refused):
            refused += 1
        self.assertGreater(refused, 100)
        self.assertLessEqual({"open", "dial", "feed", "step", "tick"}, self.lacked)
        self.assertEqual(self.stopped, {"step"})


if __name__ == "__main__":
    unittest.main()
