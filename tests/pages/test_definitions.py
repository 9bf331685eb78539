"""The index of definitions in docs/DEFINITIONS.md, and the script that writes it."""

import os
import tempfile
import unittest

from tests.support.program import ROOT
from tools import definitions


def write(root, files):
    for name, text in files.items():
        path = os.path.join(root, name)
        os.makedirs(os.path.dirname(path), exist_ok=True)
        with open(path, "w", encoding="utf-8") as it:
            it.write(text)


class Page(unittest.TestCase):
    """The page as it stands."""

    def test_the_index_is_what_the_files_say(self):
        page = definitions.read(os.path.join(ROOT, definitions.PAGE))
        self.assertEqual(page, definitions.written(ROOT, page), "run python3 tools/definitions.py")

    def test_each_crate_with_definitions_is_in_it(self):
        body = definitions.parts(definitions.read(os.path.join(ROOT, definitions.PAGE)))[1]
        for crate in definitions.crates(ROOT):
            folder = os.path.join(ROOT, "crates", crate, "specs")
            if os.path.isdir(folder) and set(os.listdir(folder)) - {"Lib.antt"}:
                self.assertIn(f"### `{crate}`\n", body)


class Lines(unittest.TestCase):
    """What is said of one file."""

    def test_the_comment_at_the_front_is_told_as_one_line(self):
        self.assertEqual(definitions.said("-- Two lines.\n-- Of one file.\nuse X\n\n-- another\nabbrev pub a : ℕ\na = 0\n"), "Two lines. Of one file.")

    def test_a_file_without_one_is_told_by_the_names_that_it_defines(self):
        text = "use X\n\nabbrev pub first : ℕ\nfirst = 0\n\npub record Second : Type 0 where\n  pub field : ℕ\n\nunfoldable pub third : ℕ\nthird = 0\n"
        self.assertEqual(definitions.said(text), "`first`, `Second`, `third`")

    def test_a_file_that_only_names_others_is_left_out(self):
        self.assertEqual([definitions.said("pub mod A\npub mod B\n"), definitions.said("")], ["", ""])


class Index(unittest.TestCase):
    """The index of a small tree."""

    FILES = {
        "crates.txt": "# lowest first\nlow:\nhigh: low\nplain:\n",
        "crates/high/specs/B.antt": "-- The second.\n",
        "crates/high/specs/A.antt": "-- The first.\n",
        "crates/high/specs/Lib.antt": "pub mod A\npub mod B\n",
        "crates/low/specs/Only.antt": "-- The lowest.\n",
        "crates/plain/src/lib.rt": "",
    }
    INDEX = [
        *("", "### `low`", "", "- [Only](../crates/low/specs/Only.antt): The lowest."),
        *("", "### `high`", "", "- [A](../crates/high/specs/A.antt): The first.", "- [B](../crates/high/specs/B.antt): The second."),
    ]

    def test_crates_stand_in_their_order_and_their_files_by_name(self):
        with tempfile.TemporaryDirectory() as root:
            write(root, self.FILES)
            self.assertEqual(definitions.index(root), self.INDEX)

    def test_a_long_line_goes_on_below(self):
        with tempfile.TemporaryDirectory() as root:
            write(root, {"crates.txt": "low:\n", "crates/low/specs/Only.antt": "-- " + "word " * 35 + "\n"})
            first, second = definitions.index(root)[3:]
            self.assertEqual((len(first), second), (120, "  " + " ".join(["word"] * 19)))

    def test_what_stands_around_the_index_stays(self):
        with tempfile.TemporaryDirectory() as root:
            write(root, self.FILES)
            old = f"in front\n{definitions.BEGINS}\nstale\n{definitions.ENDS}\nbehind\n"
            new = definitions.written(root, old)
            self.assertEqual(new, "\n".join(["in front", definitions.BEGINS, *self.INDEX, "", definitions.ENDS, "behind", ""]))
            self.assertNotEqual(new, old)
            self.assertEqual(definitions.written(root, new), new)

    def test_a_page_without_the_two_lines_is_refused(self):
        with self.assertRaises(SystemExit):
            definitions.parts("a page")


if __name__ == "__main__":
    unittest.main()
