"""Which crates are as they landed: a tiny repository whose tree landed, and what came after."""

import os
import subprocess
import tempfile
import unittest
from types import SimpleNamespace
from unittest import mock

import turns
from landed import NOTE, SCRIPTS, Landed, checked_out, waiting_in, write_down
from sources import without_bodies
from tests.support import tiny_repository as tiny

KIT = "a kit"
LOW = """\
//! Halves.
ghost use Rattle.std.specs.Prelude.{◌≡◌};
ghost use Rattle.low.specs.Halves.{halved};

pub fn half(n: u8) -> u8
    ensures { result ≡ halved n }
{
    n / 2
}

fn rest(n: u8) -> u8
    ensures { result ≡ n % 2 }
{
    n % 2
}

/// A number that is known when the crate is read.
pub const fn most() -> u8 {
    200
}
"""
HIGH = "use low::half;\n\npub fn quarter(n: u8) -> u8 {\n    half(half(n))\n}\n"
FILES = {
    "crates.txt": "low:\nhigh: low\nbeside:\n",
    "crates/low/src/lib.rt": LOW,
    "crates/low/specs/Halves.antt": "-- halves\npub halved : ℕ → ℕ\nhalved n = n / 2\n",
    "crates/low/proofs/Sums.antt": "pub sums : (n : ℕ) → halved n + halved n ≤ n\nsums n = omega arith\n",
    "crates/low/proofs/half/Answers.antt": "-- an answer\n",
    "crates/high/src/lib.rt": HIGH,
    "crates/high/must-fail/whole.edit": "file: src/lib.rt\nold: half(half(n))\nnew: half(n)\n",
    "crates/beside/src/lib.rt": "pub fn one() -> u8 {\n    1\n}\n",
    **{it: "# a script\n" for it in SCRIPTS},
}


def crate(name, *below):
    return SimpleNamespace(name=name, below=list(below))


CRATE_LOW = crate("low")
CRATES = [CRATE_LOW, crate("high", CRATE_LOW), crate("beside")]


class Landing(unittest.TestCase):
    def setUp(self):
        room = tempfile.TemporaryDirectory()
        self.addCleanup(room.cleanup)
        self.root = room.name
        tiny.write(self.root, {**FILES, NOTE: "run: 6\n"})
        self.git("init", "--quiet")
        write_down(self.root, self.commit(), KIT)

    def git(self, *words):
        who = {f"GIT_{role}_{what}": "minired" for role in ("AUTHOR", "COMMITTER") for what in ("NAME", "EMAIL")}
        ran = subprocess.run(["git", "-C", self.root, *words], check=True, capture_output=True, text=True, env={**os.environ, **who})
        return ran.stdout.strip()

    def commit(self):
        self.git("add", "--all")
        self.git("commit", "--quiet", "--allow-empty", "--message", "on")
        return self.git("rev-parse", "HEAD")

    def change(self, path, old, new):
        with open(os.path.join(self.root, path), encoding="utf-8") as it:
            text = it.read()
        self.assertEqual(text.count(old), 1)
        tiny.write(self.root, {path: text.replace(old, new)})

    def same(self):
        """The crates that are as they landed."""
        landed, why = Landed.of(self.root, KIT)
        self.assertEqual(why, "")
        return [it.name for it in CRATES if landed.is_same(it)]


class Same(Landing):
    """What a crate's verdicts rest on."""

    def test_nothing_has_changed(self):
        self.assertEqual(self.same(), ["low", "high", "beside"])

    def test_a_body_is_no_concern_of_the_crates_above(self):
        self.change("crates/low/src/lib.rt", "    n / 2\n", "    n >> 1\n")
        self.change("crates/low/proofs/half/Answers.antt", "an answer", "another answer")
        self.assertEqual(self.same(), ["high", "beside"])

    def test_what_a_crate_shows_concerns_who_names_it(self):
        for path, old, new in (
            ("crates/low/src/lib.rt", "result ≡ halved n", "result ≡ halved n + 0"),
            ("crates/low/src/lib.rt", "pub fn half(n: u8)", "pub fn half(m: u8)"),
            # `half` is said by means of it
            ("crates/low/specs/Halves.antt", "halved n = n / 2", "halved n = (n + 1) / 2"),
            # of what has no name nobody knows whom it concerns
            ("crates/low/src/lib.rt", "//! Halves.\n", "//! Halves.\n#![tactic(auto)]\n"),
        ):
            with self.subTest(path, new=new):
                self.change(path, old, new)
                self.assertEqual(self.same(), ["beside"])
                self.change(path, new, old)

    def test_what_nobody_names_concerns_nobody_above(self):
        for path, old, new in (
            ("crates/low/src/lib.rt", "    200\n", "    201\n"),
            # hidden
            ("crates/low/src/lib.rt", "result ≡ n % 2", "result < 2"),
            ("crates/low/specs/Halves.antt", "-- halves\n", "-- halves\npub half_and_rest : ℕ → ℕ\nhalf_and_rest n = n\n\n"),
            # of a lemma, what it says and how it is proved
            ("crates/low/proofs/Sums.antt", "≤ n", "< n + 1"),
            ("crates/low/proofs/Sums.antt", "omega arith", "grind arith"),
        ):
            with self.subTest(path, new=new):
                self.change(path, old, new)
                self.assertEqual(self.same(), ["high", "beside"])
                self.change(path, new, old)

    def test_a_file_that_comes_or_goes_concerns_who_names_what_it_had(self):
        tiny.write(self.root, {"crates/low/specs/More.antt": "pub more : ℕ\nmore = 1\n"})
        self.assertEqual(self.same(), ["high", "beside"])
        os.remove(os.path.join(self.root, "crates/low/specs/More.antt"))
        self.change("crates/low/specs/Halves.antt", "halved n = n / 2", "halved n = n")
        os.rename(os.path.join(self.root, "crates/low/specs/Halves.antt"), os.path.join(self.root, "crates/low/specs/Parts.antt"))
        self.assertEqual(self.same(), ["beside"])

    def test_a_comment_concerns_nobody(self):
        self.change("crates/low/src/lib.rt", "/// A number that", "/// The number that")
        self.change("crates/low/src/lib.rt", "pub fn half(n: u8)", "/// Half of it.\npub fn half(n: u8)")
        self.change("crates/low/specs/Halves.antt", "-- halves", "-- the halves of numbers")
        self.assertEqual(self.same(), ["low", "high", "beside"])

    def test_an_edit_concerns_its_crate(self):
        self.change("crates/high/must-fail/whole.edit", "new: half(n)", "new: n")
        self.assertEqual(self.same(), ["low", "beside"])

    def test_a_new_edit_concerns_its_crate(self):
        tiny.write(self.root, {"crates/low/must-fail/new.edit": "file: src/lib.rt\n"})
        self.assertEqual(self.same(), ["high", "beside"])

    def test_what_a_crate_stands_on_concerns_it(self):
        self.change("crates.txt", "high: low", "high: low beside")
        self.assertEqual(self.same(), ["low", "beside"])

    def test_what_a_crate_below_stands_on_concerns_that_alone(self):
        self.change("crates.txt", "low:\n", "low: beside\n")
        self.assertEqual(self.same(), ["high", "beside"])

    def test_a_note_in_the_list_of_crates_concerns_none(self):
        self.change("crates.txt", "high: low\n", "# above\nhigh: low  # and low alone\n")
        self.assertEqual(self.same(), ["low", "high", "beside"])


class Anew(Landing):
    """What any edit's verdict rests on."""

    def why(self, kit=KIT):
        landed, why = Landed.of(self.root, kit)
        self.assertEqual(why, "")
        return landed.anew

    def test_nothing_has_changed(self):
        self.assertEqual(self.why(), "")

    def test_another_kit(self):
        self.assertEqual(self.why("a later kit"), "another kit: a later kit")

    def test_a_script_has_changed(self):
        for script in SCRIPTS:
            with self.subTest(script):
                tiny.write(self.root, {script: "# another script\n"})
                self.assertEqual(self.why(), f"{script} has changed")
                tiny.write(self.root, {script: FILES[script]})


class NothingLanded(Landing):
    """Where no landed tree counts, every edit is tried."""

    def why(self, kit=KIT):
        landed, why = Landed.of(self.root, kit)
        self.assertIsNone(landed)
        return why

    def test_a_commit_that_did_not_come_before(self):
        landed, beside = self.git("rev-parse", "HEAD"), self.commit()
        self.git("reset", "--quiet", "--hard", landed)
        write_down(self.root, beside, KIT)
        self.assertIn("isn't in this tree's history", self.why())

    def test_no_history(self):
        with tempfile.TemporaryDirectory() as room:
            tiny.write(room, {NOTE: f"run: 7\ncommit: {'a' * 40}\nkit: {KIT}\n"})
            landed, why = Landed.of(room, KIT)
            self.assertIsNone(landed)
            self.assertIn("isn't in this tree's history", why)

    def test_no_note_or_none_that_can_be_read(self):
        tiny.write(self.root, {NOTE: f"run: soon\ncommit: HEAD\nkit: {KIT}\n"})
        self.assertIn("names no run", self.why())
        os.remove(os.path.join(self.root, NOTE))
        self.assertIn("there is no", self.why())


class WrittenDown(Landing):
    """The note of what landed."""

    def note(self):
        with open(os.path.join(self.root, NOTE), encoding="utf-8") as it:
            return it.read().splitlines()[1:]

    def test_a_run_more_and_the_commit(self):
        landed = self.git("rev-parse", "HEAD")
        write_down(self.root, landed, "a later kit")
        self.assertEqual(self.note(), ["run: 8", f"commit: {landed}", "kit: a later kit"])

    def test_those_that_wait_are_named_until_none_does(self):
        landed = self.git("rev-parse", "HEAD")
        write_down(self.root, landed, KIT, ["low", "beside"])
        self.assertEqual(self.note()[3:], ["waiting: low beside"])
        self.assertEqual(Landed.of(self.root, KIT)[0].waiting, ["low", "beside"])
        write_down(self.root, landed, KIT)
        self.assertEqual(self.note()[3:], [])
        self.assertEqual(Landed.of(self.root, KIT)[0].waiting, [])

    def test_the_tree_of_a_commit_tells_which_wait(self):
        tiny.write(self.root, {"crates/high/src/lib.rt": HIGH.replace("quarter", "fourth")})
        changed = self.commit()
        # what has changed since then says nothing of it
        tiny.write(self.root, {SCRIPTS[0]: "# another script\n"})
        with mock.patch.object(turns, "MOST", 0), checked_out(self.root, changed) as tree:
            self.assertEqual(waiting_in(tree, CRATES, KIT), ["high"])
        self.assertEqual(self.git("worktree", "list", "--porcelain").count("worktree "), 1)


class Bodies(unittest.TestCase):
    """What is left of a file without its functions' bodies."""

    def test_bodies_go_and_all_else_stays(self):
        self.assertEqual(without_bodies(LOW), LOW.replace("    n / 2\n", "").replace("    n % 2\n", ""))

    def test_where_a_macro_is_made_all_stays(self):
        text = LOW + "macro_rules! twice { ($n:expr) => { $n + $n }; }\n"
        self.assertEqual(without_bodies(text), text)

    def test_a_function_without_a_body_stays(self):
        text = "pub trait Half {\n    fn half(&self) -> u8\n        ensures { result ≤ 127 };\n\n    fn whole(&self) -> u8 {\n        self.half()\n    }\n}\n"
        self.assertEqual(without_bodies(text), text.replace("        self.half()\n", ""))


if __name__ == "__main__":
    unittest.main()
