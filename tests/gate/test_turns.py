"""Which crates' edits a run of the gate tries: crates that are as they landed, that have changed, and that wait."""

import contextlib
import io
import os
import tempfile
import unittest
from types import SimpleNamespace
from unittest import mock

import edits
import turns
from landed import SCRIPTS, Landed, write_down
from tests.gate.test_landed import CRATES, KIT, Landing
from tests.support import tiny_repository as tiny
from turns import TURNS

EDIT = "file: src/lib.rt\nold: n / 2\nnew: n / 3\n"
# two of each crate
EDITS = {f"crates/{it.name}/must-fail/{which}.edit": EDIT for it in CRATES for which in ("one", "other")}


class Run(Landing):
    """A run over three crates of two edits each."""

    def setUp(self):
        super().setUp()
        tiny.write(self.root, EDITS)
        os.remove(os.path.join(self.root, "crates/high/must-fail/whole.edit"))
        # run 8: the crates have their turns in runs 10, 11 and 12
        self.lands()

    def lands(self, waiting=()):
        write_down(self.root, self.commit(), KIT, waiting)

    def tried(self, kit=KIT):
        found = [SimpleNamespace(crate=it, edits=["an edit", "another"]) for it in CRATES]
        with contextlib.redirect_stdout(io.StringIO()) as said:
            found = edits.those_of_this_run(found, CRATES, Landed.of(self.root, kit))
        return [it.crate.name for it in found], said.getvalue().splitlines()


class Turns(Run):
    """A run tries the edits of what has changed, and a tenth of all."""

    def test_each_crate_has_its_turn_in_ten_runs(self):
        had = {it.name: 0 for it in CRATES}
        for _ in range(TURNS):
            for name in self.tried()[0]:
                had[name] += 1
            self.lands()
        self.assertEqual(had, {"low": 1, "high": 1, "beside": 1})

    def test_what_has_changed_is_tried_in_each_run(self):
        landed = self.git("rev-parse", "HEAD")
        self.change("crates/high/src/lib.rt", "half(half(n))", "half(n) / 2")
        for _ in range(TURNS):
            self.assertIn("high", self.tried()[0])
            write_down(self.root, landed, KIT)

    def test_what_names_something_that_has_changed_is_tried(self):
        self.change("crates/low/src/lib.rt", "result ≡ halved n", "result ≡ halved n + 0")
        self.assertEqual(self.tried()[0], ["low", "high"])

    def test_what_is_left_out_is_said(self):
        found, said = self.tried()
        self.assertEqual(found, [])
        landed = Landed.of(self.root, KIT)[0].commit[:7]
        self.assertEqual(said[0], f"low: as it landed with {landed}, so its 2 edits have their turn 2 runs from now")
        self.assertEqual(said[3:], ["6 edits of 3 crates are not tried in this run"])

    def test_what_waits_is_tried(self):
        self.lands(["high"])
        self.assertEqual(self.tried()[0], ["high"])

    def test_by_another_kit_or_script_all_are_tried(self):
        found, said = self.tried("a later kit")
        self.assertEqual((found, said[0]), (["low", "high", "beside"], "the edits of all crates are due: another kit: a later kit"))
        tiny.write(self.root, {SCRIPTS[-1]: "# another script\n"})
        found, said = self.tried()
        self.assertEqual((found, said[0]), (["low", "high", "beside"], f"the edits of all crates are due: {SCRIPTS[-1]} has changed"))

    def test_where_nothing_is_known_to_have_landed_all_are_tried_for_which_there_is_time(self):
        with tempfile.TemporaryDirectory() as room:
            nothing = Landed.of(room, KIT)
        found = [SimpleNamespace(crate=it, edits=["an edit", "another"]) for it in CRATES]
        for most, tried in ((400, ["low", "high", "beside"]), (4, ["low", "high"])):
            with mock.patch.object(turns, "MOST", most), contextlib.redirect_stdout(io.StringIO()) as said:
                self.assertEqual([it.crate.name for it in edits.those_of_this_run(found, CRATES, nothing)], tried)
            self.assertIn("the edits of all crates are due: there is no ", said.getvalue())


class NoMoreThan(Run):
    """A run tries no more than it has time for."""

    def tried_of(self, most, kit=KIT):
        with mock.patch.object(turns, "MOST", most):
            return self.tried(kit)

    def waiting(self, most, kit=KIT):
        with mock.patch.object(turns, "MOST", most):
            return [it.crate for it in turns.left_out(CRATES, Landed.of(self.root, kit)[0]) if it.is_due]

    def test_first_what_has_changed_then_what_waits_then_what_is_reached(self):
        self.lands(["beside"])
        self.change("crates/low/src/lib.rt", "result ≡ halved n", "result ≡ halved n + 0")
        for most, tried, waiting in ((1, [], ["low", "beside", "high"]), (2, ["low"], ["beside", "high"]), (5, ["low", "beside"], ["high"]), (6, ["low", "high", "beside"], [])):
            with self.subTest(most):
                self.assertEqual(self.tried_of(most)[0], tried)
                self.assertEqual(self.waiting(most), waiting)

    def test_a_crate_whose_turn_has_not_come_does_not_wait(self):
        self.assertEqual(self.waiting(0), [])

    def test_nor_does_one_whose_turn_it_is(self):
        for _ in range(2):
            self.lands()
        self.assertEqual(self.tried_of(2)[0], ["low"])
        found, said = self.tried_of(1)
        self.assertEqual((found, self.waiting(1)), ([], []))
        self.assertIn("low: its 2 edits wait for a later run, since one tries at most 1", said)

    def test_one_behind_that_fits_is_tried(self):
        tiny.write(self.root, {"crates/low/must-fail/third.edit": EDIT})
        self.assertEqual(self.tried_of(2, "a later kit")[0], ["high"])
        self.assertEqual(self.waiting(2, "a later kit"), ["low", "beside"])

    def test_all_are_tried_in_the_end(self):
        kit, tried = "a later kit", []
        for _ in range(3):
            tried += self.tried_of(2, kit)[0]
            write_down(self.root, self.commit(), kit, self.waiting(2, kit))
        self.assertEqual(tried, ["low", "high", "beside"])
        self.assertEqual(Landed.of(self.root, kit)[0].waiting, [])


if __name__ == "__main__":
    unittest.main()
