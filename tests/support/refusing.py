"""Runs of programs in which an allocation is refused."""

import os
import subprocess
import tempfile
import unittest

from tests.support.program import LATE, shim


class Refusing(unittest.TestCase):
    """Runs programs to which an allocation is refused."""

    def setUp(self):
        self.room = tempfile.TemporaryDirectory()
        self.addCleanup(self.room.cleanup)
        self.shim = shim("refusing_malloc", self.room.name)

    def refused(self, call, data, *words):
        """Runs a program with this allocation refused: how it ended, and whether it asked for so many."""
        heard, teller = os.pipe()
        env = {**os.environ, "LD_PRELOAD": self.shim, "REFUSE_CALL": str(call), "TELL_REFUSAL": str(teller)}
        ran = subprocess.run(words, input=data, capture_output=True, timeout=LATE, env=env, pass_fds=[teller])
        os.close(teller)
        was_refused = os.read(heard, 1) == b"r"
        os.close(heard)
        return ran, was_refused

    def each_refusal(self, data, check, *words):
        """Refuses each allocation in turn, and returns how many there were."""
        for call in range(1, 100_000):
            ran, was_refused = self.refused(call, data, *words)
            with self.subTest(call=call):
                check(ran, was_refused)
            if not was_refused:
                return call - 1
        self.fail("each of 100,000 runs was refused an allocation")
