"""What is said in several crates word for word: definitions and lemmas. Those that are known are listed in twice.txt, a line each, and no other may come."""

import glob
import os
import re
import unittest
from collections import defaultdict

from tests.support.program import ROOT

KNOWN = os.path.join(ROOT, "tests", "pages", "twice.txt")
# a definition or a lemma begins so at its margin
BEGINS = re.compile(r"(?:(?:pub|abbrev|unfoldable) )*([\w◌'-]+) :")
SIGNS = re.compile(r"\b(?:pub|abbrev|unfoldable) ")
# a shorter one is as short as its name
FEWEST = 60


def said(text):
    """The definitions and lemmas at the margin of a file, each with its name and its words."""
    lines = []
    for line in [*text.split("\n"), "end : "]:
        if line.startswith(("--", "use ", "module", "record", "data", "pub record", "pub data")) or BEGINS.match(line):
            if lines:
                yield BEGINS.match(lines[0])[1], " ".join(SIGNS.sub("", "\n".join(lines)).split())
            lines = []
        if line.strip() and (lines or BEGINS.match(line)):
            lines.append(line)


def twice(root):
    """What stands in several crates: a line each, its name after theirs."""
    where = defaultdict(set)
    for path in glob.glob(os.path.join(root, "crates", "*", "*", "**", "*.antt"), recursive=True):
        crate, folder = os.path.relpath(path, os.path.join(root, "crates")).split(os.sep)[:2]
        if folder in ("specs", "proofs"):
            with open(path, encoding="utf-8") as it:
                for name, words in said(it.read()):
                    # what a goal is answered by has a name that the kit gives
                    if len(words) >= FEWEST and " : goal." not in words:
                        where[name, words].add(crate)
    return sorted(f"{' '.join(sorted(crates))}: {name}" for (name, _), crates in where.items() if len(crates) > 1)


class SaidOnce(unittest.TestCase):
    def test_nothing_else_is_said_in_several_crates(self):
        with open(KNOWN, encoding="utf-8") as it:
            known = it.read().splitlines()
        found = twice(ROOT)
        self.assertEqual([it for it in found if it not in known], [], "state it once, in the lowest of these crates")
        self.assertEqual([it for it in known if it not in found], [], "twice.txt has what is said once")

    def test_what_is_said(self):
        text = "-- both\npub both : (a b : Bool) → T a → T b\nboth true b _ = tt\nabbrev one : ℕ\none = 1\n"
        self.assertEqual(list(said(text)), [("both", "both : (a b : Bool) → T a → T b both true b _ = tt"), ("one", "one : ℕ one = 1")])


if __name__ == "__main__":
    unittest.main()
