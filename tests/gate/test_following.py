"""Edits that follow an `rt ci`: the lines that name what it has proved, what the edits wait for, and the memory that they leave to it."""

import io
import os
import subprocess
import sys
import tempfile
import threading
import unittest

from following import LEAST, Following, proved_in, task_of
from kit import OF_A_CHECK, Kit
from lanes import in_lanes
from tests.support import tiny_repository as tiny
from tests.support.program import ROOT

LONGEST = 300
# each with the crates that it names
TREE = {"crates.txt": "low:\nmiddle: low\nhigh: middle\n", "HANDLES": tiny.HANDLES, "crates/high/src/main.rt": ""}
TREE.update({f"crates/{it}/src/lib.rt": "" for it in ("low", "middle")})
GB = 1 << 30


def setUpModule():
    global KIT
    KIT = Kit()


class Named(unittest.TestCase):
    """The lines of rt ci."""

    def test_a_crate_is_named_once_its_library_is_in_place(self):
        self.assertEqual(proved_in("rt: mr_map proved\n"), "mr_map")
        self.assertEqual(proved_in("rt: mr_map is kept: an earlier run on this machine proved the same files over the same libraries\n"), "mr_map")

    def test_no_other_line_names_one(self):
        for line in (
            "rt: mr_map NOT PROVED\n",
            "rt: mr_map NOT PROVED: its library mr_low failed\n",
            "rt: mr_map: its tests are proved\n",
            "rt: mr_map: its tests are NOT PROVED\n",
            "rt: mr_map ran, and wrote what its file stdout has\n",
            "rt: mr_map: another run on this machine is proving the same; waiting for it\n",
            "fn mr_map::put: proved\n",
            "logic=proved functions=3\n",
            "== mr_map\n",
        ):
            self.assertIsNone(proved_in(line), line)


class Waiting(unittest.TestCase):
    """What the edits of a crate wait for, in a tree of two libraries and a program."""

    def setUp(self):
        room = tempfile.TemporaryDirectory()
        self.addCleanup(room.cleanup)
        self.root = room.name
        tiny.write(self.root, TREE)
        self.crates = {it.name: it for it in KIT.crates(self.root)}
        self.following = Following(list(self.crates.values()), 2, 20 * GB, 17 * GB)

    def built(self, *names):
        for it in names:
            os.makedirs(os.path.join(self.root, "crates", it, "out", "rlib", f"{it}.rlib"))

    def read(self, *names):
        self.following.read(io.StringIO("".join(f"{it}\n" for it in names)))

    def ends(self):
        """Which crates' tasks end well."""
        return {task.name for task, value in in_lanes(self.following.tasks(), 1, 0) if value}

    def test_a_library_waits_for_itself_and_those_below_and_a_program_for_those_below(self):
        after = {name: set(self.following.after(it)) for name, it in self.crates.items()}
        wanted = {"low": {"low"}, "middle": {"low", "middle"}, "high": {"low", "middle"}}
        self.assertEqual(after, {name: {task_of(self.crates[it]) for it in names} for name, names in wanted.items()})

    def test_what_is_not_named_before_the_end_is_not_proved(self):
        self.built("low", "middle")
        self.read("low")
        self.assertEqual(self.ends(), {"low is proved"})

    def test_what_is_named_counts_while_its_library_stands(self):
        self.built("middle")
        self.read("low", "middle", "high")
        self.assertEqual(self.ends(), {"middle is proved", "high is proved"})

    def test_a_name_counts_as_soon_as_it_comes(self):
        self.built("low")
        ends, sends = os.pipe()
        with os.fdopen(ends) as lines, os.fdopen(sends, "w") as names:
            reader = threading.Thread(target=self.following.read, args=(lines,))
            reader.start()
            print("low", file=names, flush=True)
            self.assertTrue(self.following.is_proved(self.crates["low"]))
            self.assertFalse(self.following.is_over)
            names.close()
            reader.join(LONGEST)
        self.assertTrue(self.following.is_over)

    def test_memory_grows_as_crates_are_named_and_is_whole_at_the_end(self):
        # two at once, and one that takes twice as much; and so on with fewer
        self.assertEqual(self.following.memory(), 20 * GB - 3 * OF_A_CHECK)
        self.following.names |= {"low", "middle"}
        self.assertEqual(self.following.memory(), 20 * GB - 2 * OF_A_CHECK)
        self.following.names.add("high")
        self.assertEqual(self.following.memory(), 17 * GB)

    def test_where_rt_ci_may_take_all_memory_nothing_is_left_until_it_ends(self):
        little = Following(list(self.crates.values()), 2, 8 * GB, 6 * GB)
        self.assertLess(little.memory(), 0)
        little.read(io.StringIO(""))
        self.assertEqual(little.memory(), 6 * GB)


class ByTheProver(unittest.TestCase):
    """Edits of two crates by the script itself, which waits for their names."""

    def setUp(self):
        room = tempfile.TemporaryDirectory()
        self.addCleanup(room.cleanup)
        self.root = room.name
        tiny.pair(self.root)

    def start(self):
        words = [sys.executable, os.path.join(ROOT, "tests", "edits.py"), "--proved", self.root, "--edits", self.root, "--follow", "1"]
        return subprocess.Popen(words, stdin=subprocess.PIPE, stdout=subprocess.PIPE, text=True)

    def test_an_edit_is_tried_once_its_crate_is_named_and_never_one_whose_crate_is_not(self):
        os.makedirs(os.path.join(self.root, "crates", "low", "out", "rlib", "low.rlib"))
        with self.start() as ran:
            print("low", file=ran.stdin, flush=True)
            # before the end of its input
            first = ran.stdout.readline()
            priority = os.getpriority(os.PRIO_PROCESS, ran.pid)
            said = ran.communicate(timeout=LONGEST)[0]
        self.assertTrue(first.startswith("refused low/one_is_two.edit: one: "), first)
        self.assertEqual(priority, LEAST)
        self.assertIn("NOT TRIED high/two_is_three.edit: its crate, or one below it, was not proved\n", said)
        self.assertEqual((said.rstrip().split("\n")[-1], ran.returncode), ("1 passed, 1 failed", 1))

    def test_where_none_is_named_none_is_tried(self):
        with self.start() as ran:
            said = ran.communicate(timeout=LONGEST)[0]
        self.assertNotIn("refused low", said)
        self.assertEqual((said.rstrip().split("\n")[-1], ran.returncode), ("0 passed, 2 failed", 1))


if __name__ == "__main__":
    unittest.main()
