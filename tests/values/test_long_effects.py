"""An effect of many words that comes in pieces is gone over once: what it costs by its length in a file, in a snapshot and in a stream."""

import os
import re
import shutil
import subprocess

from tests.support.files import InFolder
from tests.support.handshake import ANSWERS, GREETED
from tests.support.program import LATE, built, needs, request
from tests.support.requests import SET, framed
from tests.support.values import Playing, spelled

# instructions are counted, since they are the same whatever else the machine does
CALLGRIND = ("valgrind", "--quiet", "--tool=callgrind")
COUNT = re.compile(r"^totals: (\d+)$", re.MULTILINE)
# pairs of the shorter effect and how often as many the longer has, in a file and in bytes that a follower is fed
IN_A_FILE, FED, TIMES = 32_768, 4_096, 4
# What is gone over once takes the longer TIMES as many, and what is gone over anew at each piece the square of it.
MOST = 1.5 * TIMES
# a follower is fed so many bytes at a time
PIECE = 1024
# the answer to PSYNC up to the length of a snapshot, and the effect that is fed behind it
ANNOUNCED = b"+FULLRESYNC %s 27\r\n$%d\r\n"


def effect(pairs):
    """One MSET of so many keys, each of 100 bytes with its value."""
    words = [word for at in range(pairs) for word in (b"key:%012d" % at, b"v" * 84)]
    return request("MSET", *words)


class LongEffects(InFolder, Playing):
    def setUp(self):
        super().setUp()
        needs(self, shutil.which("valgrind"), "valgrind")

    def counted(self, data, *words):
        """What a program writes that is run on these bytes. `took` is how many instructions that takes."""
        counts = os.path.join(self.folder, "counts")
        ran = subprocess.run([*CALLGRIND, "--callgrind-out-file=" + counts, *words], input=data, capture_output=True, timeout=10 * LATE)
        self.assertEqual(ran.returncode, 0, ran.stderr)
        with open(counts) as told:
            self.took = int(COUNT.search(told.read()).group(1))
        return ran.stdout

    def cost(self, play, pairs):
        """How many instructions it takes to play an effect of so many pairs."""
        play(effect(pairs))
        return self.took

    def costs_no_more_a_pair(self, play, pairs):
        self.assertLess(self.cost(play, TIMES * pairs), MOST * self.cost(play, pairs))

    def loads(self, text):
        """A file of this text."""
        self.write(text)
        self.assertEqual(self.counted(request("DBSIZE"), built("minired"), "pipe", "--aof", self.path)[:1], b":")

    def follows(self, before, data, wanted):
        """A follower that is fed these bytes behind others, a piece at a time with a step behind each, answers so at last."""
        pieces = [data[at : at + PIECE] for at in range(0, len(data), PIECE)]
        steps = ["begin 0", "feed " + spelled(before), *5 * ["step"]]
        for piece in pieces:
            steps += ["feed " + spelled(piece), "step"]
        script = "follower " + ";".join(steps) + "\n"
        answers = self.counted(script.encode(), built("rehearse_values")).decode().splitlines()
        self.assertEqual((len(answers), set(answers[7:-1]), answers[-1]), (len(steps), {"fed", "idle"}, wanted))

    def test_of_a_file(self):
        self.costs_no_more_a_pair(self.loads, IN_A_FILE)

    def test_of_a_snapshot(self):
        self.costs_no_more_a_pair(lambda text: self.follows(GREETED + ANNOUNCED % (b"a" * 40, len(text)), text, "installs"), FED)

    def test_of_a_stream(self):
        self.costs_no_more_a_pair(lambda text: self.follows(b"".join(ANSWERS), text, "applies " + text.hex()), FED)

    def test_of_a_group_in_a_stream(self):
        self.costs_no_more_a_pair(lambda text: self.follows(b"".join(ANSWERS), framed(SET, text), "applies " + framed(SET, text).hex()), FED)
