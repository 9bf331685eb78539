"""Rehearsals: calls on a node, each with its answer. They show what no client is told: effects, offsets, other links."""

import subprocess
import unittest

from tests.support.program import LATE, built, request

# of the node that a rehearsal starts
ID = "a" * 40


def hexadecimal(data):
    return data.hex() or "-"


def done(reply, effects=b"", closes=False):
    """Growth comes before the file's, both before the reply, and the link's closing behind it."""
    outs = ("ga" if effects else "") + ("s" if reply else "") + ("c" if closes else "")
    return "done %s %s %s" % (outs, hexadecimal(reply), hexadecimal(effects))


def fed(link, data, answer="fed"):
    """The call that feeds a link, and its answer."""
    return "feed %d %s" % (link, hexadecimal(data)), answer


def words_of(words):
    """The words given, or those of the one line given."""
    return words if len(words) > 1 else words[0].split(" ")


def effect(*words):
    """The text of an effect with these words, or with those of a line."""
    return request(*words_of(words))


def asked(*words):
    """The call that asks the dataset a request with these words, or with those of a line."""
    return "ask " + request(*words_of(words)).hex()


def texts_of(data):
    """The command texts that these bytes are, one after another."""
    while data:
        count, _, rest = data[1:].partition(b"\r\n")
        for _ in range(int(count)):
            length, _, rest = rest[1:].partition(b"\r\n")
            rest = rest[int(length) + 2 :]
        yield data[: len(data) - len(rest)]
        data = rest


def holding(*lines):
    """The calls that have these effects applied to the dataset, each with its answer."""
    return [("give " + effect(line).hex(), "applied") for line in lines]


class Rehearsing(unittest.TestCase):
    def answers_to(self, calls, backlog=1_048_576):
        """What each call on a fresh node and its dataset answers."""
        script = "".join(line + "\n" for line in ["start %d" % backlog, *calls])
        ran = subprocess.run([built("rehearse")], input=script, capture_output=True, text=True, timeout=LATE)
        self.assertEqual((ran.returncode, ran.stderr), (0, ""))
        first, *answers = ran.stdout.splitlines()
        self.assertEqual(first, "started")
        return answers

    def rehearses(self, calls):
        """Each call, and its answer; None where any answer will do."""
        answers = self.answers_to([call for call, _ in calls])
        for (call, wanted), answer in zip(calls, answers, strict=True):
            if wanted is not None:
                self.assertEqual(answer, wanted, call)

    def plays(self, rows, word=0):
        """Commands one after another, each with its reply and behind that its effects; one without a reply is there for what it leaves.
        The effects' bytes are what the offset counts."""
        calls, offset = [("given 0 %d" % word, "given"), ("open", "opened")], 0
        for line, *wanted in rows:
            effects = b"".join(effect(it) for it in wanted[1:])
            calls.append(("feed 0 " + request(*line.split(" ")).hex(), "fed"))
            calls.append(("step 0", done(wanted[0], effects) if wanted else None))
            if not wanted:
                effects = effect(line)
            offset += len(effects)
        calls.append(("shows", "shows %s %d" % (ID, offset)))
        self.rehearses(calls)

    def shows_at(self, offset, *lines):
        """The offset that these requests lead to; a line as a client types it is bytes."""
        fed = b"".join(it if isinstance(it, bytes) else request(*it.split(" ")) for it in lines)
        calls = [("open", "opened"), ("feed 0 " + fed.hex(), "fed"), *[("step 0", None)] * len(lines)]
        self.rehearses([*calls, ("step 0", "idle"), ("shows", "shows %s %d" % (ID, offset))])
