"""What the gate refuses of a crate's text though all of it is proved: files that `rt fmt` would lay out otherwise, and edits that don't apply."""

import glob
import os
import subprocess
import unittest

from tests.support.program import ROOT
from tools.kit import Kit

PARTS = ("src", "specs", "proofs")
KINDS = (".rt", ".antt")


def texts_of(crate):
    """The files of a crate that `rt fmt` lays out, by their path below its folder."""
    found = (glob.glob(os.path.join(crate, part, "**"), recursive=True) for part in PARTS)
    return sorted(os.path.relpath(it, crate) for files in found for it in files if it.endswith(KINDS))


def out_of_layout(crate):
    """What the prover says of the files that it would lay out otherwise."""
    ran = subprocess.run(["rattle", "fmt", "--check", *texts_of(crate)], cwd=crate, stdin=subprocess.DEVNULL, capture_output=True, text=True)
    return ran.stdout + ran.stderr if ran.returncode else ""


class Layout(unittest.TestCase):
    def setUp(self):
        self.crates = sorted(glob.glob(os.path.join(ROOT, "crates", "*", "")))
        self.assertTrue(self.crates)

    def test_files_are_in_the_layout_of_rt_fmt(self):
        for crate in self.crates:
            with self.subTest(crate=os.path.basename(os.path.dirname(crate))):
                self.assertEqual(out_of_layout(crate), "")

    def test_each_text_that_an_edit_replaces_stands_once(self):
        kit = Kit()
        for crate in self.crates:
            files, others = kit.edits_in(crate)
            self.assertEqual(others, [])
            for file in files:
                with self.subTest(edit=os.path.relpath(file, ROOT)):
                    texts, why = kit.read_edit(file, crate)
                    self.assertTrue(texts, why)


if __name__ == "__main__":
    unittest.main()
