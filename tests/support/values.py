"""Values by themselves: calls on each kind, each with its answer, as the built `rehearse_values` makes them."""

import subprocess
import unittest

from tests.support.program import LATE, built
from tests.support.rehearsal import hexadecimal


def spelled(text):
    """A text's bytes as a step has them."""
    return hexadecimal(text if isinstance(text, bytes) else text.encode())


def fed(data):
    """The step that feeds these bytes, and its answer."""
    return "feed " + spelled(data), "fed"


class Playing(unittest.TestCase):
    def answers_to(self, *lines):
        """What the steps of these lines answer, each line on fresh values."""
        script = "".join(line + "\n" for line in lines)
        ran = subprocess.run([built("rehearse_values")], input=script, capture_output=True, text=True, timeout=LATE)
        self.assertEqual((ran.returncode, ran.stderr), (0, ""))
        return ran.stdout.splitlines()

    def plays(self, kind, *values):
        """Steps on one fresh value of a kind, or on several one after another, each with its answer."""
        answers = iter(self.answers_to(*(kind + " " + ";".join(step for step, _ in steps) for steps in values)))
        for steps in values:
            for step, wanted in steps:
                self.assertEqual(next(answers, None), wanted, (kind, step, steps))
        self.assertIsNone(next(answers, None))
