"""The gate's own script: its copy of the tree, its sum, and the comparison of two logs of edits."""

import contextlib
import io
import os
import re
import signal
import subprocess
import sys
import tempfile
import unittest
from unittest import mock

from tests.gate import run
from tests.gate.compare_edits import compare, of_edits, of_rt
from tests.support import tiny_repository as tiny
from tests.support.program import ROOT


class Copies(unittest.TestCase):
    """The copy in which every crate is proved, without its edits."""

    def test_a_copy_has_what_a_clone_has_but_the_edits(self):
        with tempfile.TemporaryDirectory() as root, tempfile.TemporaryDirectory() as room:
            tiny.repository(root, {"up_by_two": tiny.UP_BY_TWO})
            tiny.write(root, {"crates/tiny/out/rlib/stamp": "", ".git/HEAD": "", "tests/__pycache__/run.pyc": ""})
            copy = run.copied(root, room)
            found = {os.path.relpath(os.path.join(at, name), copy) for at, _, names in os.walk(copy) for name in names}
            self.assertEqual(found, {"crates.txt", "HANDLES", *(f"crates/tiny/{it}" for it in tiny.CRATE)})
            self.assertTrue(os.path.isdir(os.path.join(root, "crates", "tiny", "must-fail")))


class Sums(unittest.TestCase):
    """Parts of the gate, each of which ends in a count."""

    def part(self, program, passed=3):
        said = io.StringIO()
        with contextlib.redirect_stdout(said):
            try:
                value = run.part("edits", [sys.executable, "-c", program], ROOT, passed)
            except SystemExit as error:
                value = error
        return value, said.getvalue().split("\n")[:-1]

    def test_a_part_adds_to_the_sum_and_its_count_does_not_stand_alone(self):
        value, said = self.part("print('refused it'); print('4 passed, 0 failed')")
        self.assertEqual((value, said), (7, ["refused it", "edits: 4 passed, 0 failed"]))

    def test_a_failed_part_ends_the_gate_with_the_sum(self):
        value, said = self.part("print('4 passed, 2 failed'); raise SystemExit(1)")
        self.assertEqual((value.code, said[-1]), (1, "7 passed, 2 failed"))

    def test_a_part_that_ends_without_a_count_has_failed(self):
        value, said = self.part("print('4 passed, 0 failed'); print('and then it broke off')")
        self.assertEqual((value.code, said[-1]), (1, "3 passed, 1 failed"))

    def test_a_part_that_counts_none_as_failed_but_ends_badly_has_failed(self):
        value, said = self.part("print('4 passed, 0 failed', flush=True); raise SystemExit(1)")
        self.assertEqual((value.code, said[-1]), (1, "7 passed, 1 failed"))

    def test_the_makefile_names_one_of_the_gates(self):
        with open(os.path.join(ROOT, "Makefile"), encoding="utf-8") as it:
            self.assertEqual(len(re.findall(r"^GATE = test-(?:all|batched|by-turns)$", it.read(), re.M)), 1)


class SideBySide(unittest.TestCase):
    """`rt ci` and the edits that follow it, played by small programs."""

    CI = "import time\nfor it in ('low', 'high'):\n    print(f'== {it}\\nrt: {it} proved', flush=True)\n    time.sleep(0.1)\n"
    EDITS = "import sys\nnames = [it.strip() for it in sys.stdin]\nprint(*(f'refused {it}/one.edit' for it in names), sep='\\n')\n"
    # the one waits for the other, whose trial would go on for long
    WAITS = "import os, time\nprint('rt: low proved', flush=True)\nwhile not os.path.exists(os.environ['TRIED']):\n    time.sleep(0.01)\n"
    TRIES = "import os, sys, time\nprint(f'tries {sys.stdin.readline()}', end='', flush=True)\nopen(os.environ['TRIED'], 'w').close()\n"
    ENDLESS = TRIES + "time.sleep(1000)\n"

    def setUp(self):
        room = tempfile.TemporaryDirectory()
        self.addCleanup(room.cleanup)
        self.tried = os.path.join(room.name, "tried")

    def play(self, ci, edits):
        said, words = io.StringIO(), [sys.executable, "-u", "-c"]
        with contextlib.redirect_stdout(said), mock.patch.dict(os.environ, TRIED=self.tried):
            started = run.Part("edits", [*words, edits], ROOT, stdin=subprocess.PIPE)
            try:
                value = run.side_by_side(run.Part("rt ci", [*words, ci], ROOT), started)
            except SystemExit as error:
                value = error.code
        return value, said.getvalue().split("\n")[:-1], started

    def test_each_crate_is_named_to_the_edits_and_the_counts_are_added(self):
        value, said, _ = self.play(self.CI + "print('2 passed, 0 failed')", self.EDITS + "print('3 passed, 0 failed')")
        self.assertEqual(value, 5)
        self.assertEqual(sorted(said), sorted(["== low", "rt: low proved", "== high", "rt: high proved", "rt ci: 2 passed, 0 failed", "refused low/one.edit", "refused high/one.edit", "edits: 3 passed, 0 failed"]))

    def test_an_edit_is_tried_while_rt_ci_goes_on(self):
        value, said, _ = self.play(self.WAITS + "print('1 passed, 0 failed')", self.TRIES + "print('1 passed, 0 failed')")
        self.assertEqual(value, 2)
        self.assertEqual(sorted(said), ["edits: 1 passed, 0 failed", "rt ci: 1 passed, 0 failed", "rt: low proved", "tries low"])

    def test_where_rt_ci_fails_the_edits_are_stopped(self):
        value, said, edits = self.play(self.WAITS + "print('1 passed, 1 failed')", self.ENDLESS)
        self.assertEqual(value, 1)
        self.assertEqual(edits.ran.returncode, -signal.SIGTERM)
        self.assertEqual(sorted(said[:-2]), ["rt ci: 1 passed, 1 failed", "rt: low proved", "tries low"])
        self.assertEqual(said[-2:], ["minired's tests: rt ci failed, so no more edits were tried", "1 passed, 1 failed"])

    def test_where_rt_ci_breaks_off_the_gate_fails(self):
        value, said, _ = self.play(self.WAITS + "raise SystemExit(2)", self.ENDLESS)
        self.assertEqual((value, said[-1]), (1, "0 passed, 1 failed"))

    def test_where_an_edit_is_not_refused_the_gate_fails_with_the_sum(self):
        value, said, _ = self.play(self.CI + "print('2 passed, 0 failed')", self.EDITS + "print('1 passed, 1 failed')\nraise SystemExit(1)")
        self.assertEqual((value, said[-2:]), (1, ["minired's tests: edits failed", "3 passed, 1 failed"]))

    def test_where_the_edits_break_off_rt_ci_goes_on_and_the_gate_fails(self):
        value, said, _ = self.play(self.CI + "print('2 passed, 0 failed')", "raise SystemExit(3)")
        self.assertEqual((value, said[-1]), (1, "2 passed, 1 failed"))
        self.assertIn("rt: high proved", said)

    def test_where_either_cannot_be_started_the_gate_fails(self):
        lost = [os.path.join(ROOT, "no such command")]
        with contextlib.redirect_stdout(io.StringIO()) as said, self.assertRaises(SystemExit):
            run.side_by_side(run.Part("rt ci", lost, ROOT), run.Part("edits", [sys.executable, "-c", self.ENDLESS], ROOT, stdin=subprocess.PIPE))
        self.assertEqual(said.getvalue().split("\n")[-2], "0 passed, 1 failed")

    def test_both_are_of_our_session_where_one_can_give_way_to_the_other(self):
        tells = "import os\nprint(os.getsid(0))\nprint('1 passed, 0 failed')"
        _, said, _ = self.play(tells, tells)
        self.assertEqual([it for it in said if it.isdigit()], [str(os.getsid(0))] * 2)


class ByTheProver(unittest.TestCase):
    """Two small crates: `rt ci` proves them in a copy, and the edits follow."""

    def test_the_edits_of_proved_crates_are_tried(self):
        said = io.StringIO()
        with tempfile.TemporaryDirectory() as root:
            tiny.pair(root)
            with contextlib.redirect_stdout(said), mock.patch.object(run, "tables_in", lambda copy, passed: passed):
                # where nothing is known to have landed, all edits are tried by turns too
                self.assertEqual(run.batched(root, by_turns=True), 4)
        for name in ("low/one_is_two", "high/two_is_three"):
            self.assertEqual(len(re.findall(rf"^refused {name}\.edit: ", said.getvalue(), re.M)), 1, said.getvalue())


class Skipped(unittest.TestCase):
    """Tests of the program that are skipped."""

    def judges(self, *reasons):
        class Some(unittest.TestCase):
            def test_that_passes(self):
                pass

        def skipping(why):
            return lambda self: self.skipTest(why)

        for at, why in enumerate(reasons):
            setattr(Some, f"test_{at}", skipping(why))
        result = unittest.TestResult()
        unittest.defaultTestLoader.loadTestsFromTestCase(Some).run(result)
        said = io.StringIO()
        with contextlib.redirect_stdout(said):
            return run.judged(result), said.getvalue()

    def test_a_client_that_is_absent_is_named_and_not_counted(self):
        count, said = self.judges("absent: php-redis", "absent: python3-redis")
        self.assertEqual(count, (1, 0))
        self.assertEqual([line.split(" (")[0] for line in said.splitlines()], ["absent: php-redis", "absent: python3-redis"])

    def test_any_other_reason_is_a_failure(self):
        self.assertEqual(self.judges("absent: php-redis", "not today")[0][1], 1)

    def test_where_all_are_absent_nothing_passed(self):
        result = unittest.TestResult()
        self.assertEqual(run.judged(result)[1], 1)

    def test_a_file_of_which_all_are_absent_has_not_failed(self):
        result = unittest.TestResult()
        result.testsRun, result.skipped = 1, [(self, "absent: php-redis")]
        with contextlib.redirect_stdout(io.StringIO()):
            self.assertEqual(run.judged(result), (0, 0))


class Tables(unittest.TestCase):
    """Files of tests, some at a time, each in a process of its own."""

    def plays(self, **counts):
        """What the gate says where the files of these names end in these counts, one after another where one is played more than once."""
        played, said, left = [], io.StringIO(), {name: list(each) if isinstance(each, list) else [each] for name, each in counts.items()}

        def plays(module):
            played.append(module)
            return left[module].pop(0) if len(left[module]) > 1 else left[module][0]

        with contextlib.redirect_stdout(said), mock.patch.multiple(run, played=plays, files_of_tests=lambda: list(counts), LAUNCHER="true"):
            try:
                return run.tables(1), played, ""
            except SystemExit:
                return None, played, said.getvalue().splitlines()[-1]

    def test_each_file_of_tests_is_played(self):
        there = {os.path.join(at, name) for at, _, names in os.walk(os.path.join(ROOT, "tests")) for name in names if re.fullmatch(r"test_.*\.py", name)}
        named = run.files_of_tests()
        self.assertEqual({os.path.join(ROOT, *it.split(".")) + ".py" for it in named}, there)
        self.assertEqual(len(named), len(there))

    def test_what_passed_is_added_up(self):
        self.assertEqual(self.plays(one=(2, 0), two=(0, 0), three=(3, 0)), (5, ["one", "two", "three"], ""))

    def test_a_file_that_fails_twice_has_failed(self):
        value, played, last = self.plays(one=(2, 0), two=(3, 1), three=(4, 0))
        self.assertIsNone(value)
        self.assertEqual((played, last), (["one", "two", "three", "two"], "9 passed, 1 failed"))

    def test_a_file_that_fails_beside_others_alone_has_not(self):
        self.assertEqual(self.plays(one=[(1, 1), (2, 0)], two=(3, 0)), (5, ["one", "two", "one"], ""))

    def test_where_many_fail_no_further_file_begins(self):
        failing = {f"file_{it}": (2, 1) for it in range(50)}
        value, played, last = self.plays(**failing)
        self.assertIsNone(value)
        self.assertEqual((played, last), ([f"file_{it}" for it in range(run.AGAIN + 1)], "8 passed, 4 failed"))

    def test_no_test_at_all_is_a_failure(self):
        self.assertEqual(self.plays(one=(0, 0))[2], "0 passed, 1 failed")

    def test_a_file_ends_in_the_count_of_its_tests(self):
        said = io.StringIO()
        with contextlib.redirect_stdout(said):
            self.assertEqual(run.played("tests.pages.test_definitions")[1], 0)
            self.assertEqual(run.played("tests.pages.none_of_this_name")[1], 1)
        self.assertRegex(said.getvalue(), r"\ntests\.pages\.test_definitions: [1-9]\d* passed, 0 failed\n")


class Comparing(unittest.TestCase):
    """What rt and the script of batches say of the same edits."""

    BY_RT = (
        "rt: must-fail tiny/up.edit: refused, as it must be: note: src/steps.rt:14:1: it is not proved that ..\n"
        "rt: must-fail tiny/down.edit: refused, as it must be (only because a proof file names what the edit took away, ..): ./proofs/down/Answers.antt:3:1: error\n"
        "rt: must-fail tiny/third.edit: NOT REFUSED: the crate is still proved with this edit\n"
    )
    BY_EDITS = (
        "refused tiny/up.edit: steps::up: it is not proved that ..\n"
        "refused tiny/down.edit, only by the names in a proof file, so it says little: steps::down: ..\n"
        "NOT REFUSED tiny/third.edit: third proved with this edit\n"
    )

    def test_the_same_verdicts_are_counted(self):
        lines, well = compare(of_rt(self.BY_RT), of_edits(self.BY_EDITS))
        self.assertTrue(well)
        self.assertEqual(lines[0], "")
        self.assertEqual(set(lines[3:]), {"| refused | refused | 1 |", "| refused, by no goal of its contract | refused, by no goal of its contract | 1 |", "| not refused | not refused | 1 |"})

    def test_an_edit_that_only_one_refuses_is_told(self):
        lines, well = compare(of_rt(self.BY_RT), of_edits(self.BY_EDITS.replace("NOT REFUSED tiny/third", "refused tiny/third")))
        self.assertFalse(well)
        self.assertEqual(lines[0], "tiny/third.edit:")

    def test_an_edit_that_only_one_tried_is_told(self):
        lines, well = compare(of_rt(self.BY_RT), of_edits(self.BY_EDITS.split("\n", 1)[1]))
        self.assertFalse(well)
        self.assertEqual(lines[0], "tiny/up.edit:")


if __name__ == "__main__":
    unittest.main()
