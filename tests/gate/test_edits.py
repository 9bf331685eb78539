"""The script that tries edits in batches: how it reads sources and what a check says, what it does where a check doesn't tell, and some edits of a tiny crate."""

import os
import re
import subprocess
import sys
import tempfile
import unittest

from answers import Answer, Strength
from edits import THEOREM, Kit, Trial, batches, read_edits, verdict_alone, verdict_in_batch
from sources import Sources
from tests.support import tiny_repository as tiny
from tests.support.program import ROOT

GOAL_OF_EDIT = re.compile(r"^(refused|NOT REFUSED|BAD EDIT) tiny/(\w+)\.edit(.*)", re.M)


def setUpModule():
    global KIT
    KIT = Kit()


class WithTheTinyCrate(unittest.TestCase):
    """Has the tiny crate's sources and edits at hand, and no prover."""

    edits = {}

    def setUp(self):
        room = tempfile.TemporaryDirectory()
        self.addCleanup(room.cleanup)
        tiny.repository(room.name, self.edits)
        self.folder = os.path.join(room.name, "crates", "tiny")
        self.sources = Sources(self.folder)
        self.crate = next(it for it in KIT.crates(room.name) if it.name == "tiny")
        self.found, self.bad = read_edits(KIT, self.crate, self.folder, self.sources)

    def touched(self):
        return {it.name.removeprefix("tiny/").removesuffix(".edit"): it.touched for it in self.found}

    def answer(self, said, status=1, texts=None, only=()):
        return Answer(self.crate, self.sources, status, said, texts or {}, set(only))


class Names(WithTheTinyCrate):
    """The names that a check prints after `fn`."""

    def test_each_function_has_the_name_that_a_check_prints(self):
        wanted = {"limit", "below_limit", "third", "level::LevelFromU8::from", "level::Level::of", "levels::all_low"}
        wanted |= {f"steps::{it}" for it in ("up", "down", "is_even", "is_odd")}
        self.assertEqual({it.name for it in self.sources.everywhere()}, wanted)

    def test_generic_impls_are_named_by_their_type_trait_and_types(self):
        text = "impl<'a, V: Drop> Iterator for Pairs<'a, V> {\n    fn next(&mut self) -> Option<V> {\n        None\n    }\n}\n"
        text += "impl<T: Drop> From<Failed<T>> for Fault {\n    fn from(it: Failed<T>) -> Fault {\n        Fault\n    }\n}\n"
        names = [it.name for it in self.sources.functions("src/steps.rt", text)]
        self.assertEqual(names, ["steps::PairsIterator::next", "steps::FaultFromFailedT::from"])

    def test_an_empty_body_ends_where_it_begins(self):
        text = "pub fn law()\n    ensures { ⊤ }\n{}\n\npub fn next() -> u8 {\n    1\n}\n"
        functions = self.sources.functions("src/steps.rt", text)
        self.assertEqual([(it.name, it.head, it.closing) for it in functions], [("steps::law", 0, 2), ("steps::next", 4, 6)])

    def test_a_trait_method_without_a_body_has_none(self):
        text = "pub trait Told {\n    fn told(&self) -> u8\n        ensures { ⊤ };\n}\n\npub fn next() -> u8 {\n    1\n}\n"
        self.assertEqual([it.name for it in self.sources.functions("src/steps.rt", text)], ["steps::next"])


class Reach(WithTheTinyCrate):
    """Which functions' proofs an edit can spoil."""

    edits = {
        "body": tiny.UP_BY_TWO,
        "clause": ("src/steps.rt", "result ≡ n + 1", "result ≡ n + 2"),
        "constant": tiny.LIMIT_OF_ELEVEN,
        "cycle": tiny.EVEN_GOES_TOO_FAR,
        "lemma": tiny.LEMMA_IS_FALSE,
        "head": ("src/steps.rt", "pub fn is_odd(n: u8) -> bool {", "pub fn is_odd(n: u16) -> bool {"),
        "trait": tiny.LEVEL_IS_SEVEN,
        "type": ("src/level.rt", "pub height: u8", "pub height: u16"),
    }

    def test_a_change_inside_a_body_touches_that_function(self):
        self.assertEqual(self.touched()["body"], {"steps::up"})
        self.assertEqual(self.touched()["trait"], {"level::LevelFromU8::from"})

    def test_a_constant_touches_each_function_that_names_it(self):
        self.assertEqual(self.touched()["constant"], {"limit", "below_limit"})

    def test_functions_that_call_each_other_are_proved_together(self):
        self.assertEqual(self.touched()["cycle"], {"steps::is_even", "steps::is_odd"})

    def test_the_reach_of_anything_else_is_not_known(self):
        self.assertEqual([self.touched()[it] for it in ("clause", "head", "lemma", "type")], [None] * 4)

    def test_a_constant_that_is_named_outside_bodies_may_reach_anything(self):
        with open(os.path.join(self.folder, "src/lib.rt"), "a", encoding="utf-8") as it:
            it.write("\nconst TWICE: u8 = 2 * LIMIT;\n")
        self.assertIsNone(Sources(self.folder).users_of("LIMIT"))

    def test_a_constant_that_a_definition_names_may_reach_anything(self):
        tiny.write(self.folder, {"specs/Lib.antt": "", "specs/Limits.antt": "use Rattle.tiny.specs.declared.TheConstants.{LIMIT}\n"})
        self.assertIsNone(Sources(self.folder).users_of("LIMIT"))

    def test_a_step_that_a_proof_calls_after_a_constant_is_not_the_constant(self):
        tiny.write(self.folder, {"proofs/limit/Answers.antt": "  | then-n-eq-LIMIT w ↦ refl\n"})
        self.assertEqual(Sources(self.folder).users_of("LIMIT"), {"limit", "below_limit"})

    def test_an_edit_that_cannot_be_made_is_a_bad_one(self):
        tiny.write(self.folder, {"must-fail/lost.edit": tiny.edit_text("src/steps.rt", "n + 7", "n + 8"), "must-fail/lost.txt": ""})
        _, bad = read_edits(KIT, self.crate, self.folder, self.sources)
        self.assertEqual({it.text.split(":")[0] for it in bad}, {"BAD EDIT tiny/lost.edit", "BAD EDIT tiny/lost.txt"})


class Grouping(WithTheTinyCrate):
    """Which edits are tried in one check."""

    edits = {"one": tiny.UP_BY_TWO, "other": tiny.UP_BY_NONE, "odd": tiny.ODD_IN_OTHER_WORDS, "even": tiny.EVEN_GOES_TOO_FAR, "limit": tiny.LIMIT_OF_ELEVEN, "lemma": tiny.LEMMA_IS_FALSE}

    def names(self, **how):
        return [sorted(it.name[5:-5] for it in batch) for batch in batches(self.found, **how)]

    def test_a_batch_has_one_edit_of_a_function_and_of_a_cycle(self):
        self.assertEqual(self.names(), [["even", "limit", "one"], ["lemma"], ["odd", "other"]])

    def test_each_can_be_tried_by_itself(self):
        self.assertEqual(len(self.names(alone=True)), 6)


class Reading(WithTheTinyCrate):
    """What a check says, as recorded."""

    def test_an_open_goal_is_a_reason_and_a_call_of_what_is_not_proved_is_none(self):
        said = "fn tiny::steps::up: no proof: expected answers in ./proofs/steps/up/Answers.antt; `search` did not prove `returns`; it calls `tiny::third`, which is not proved\n"
        said += "fn tiny::limit: no proof: it calls `tiny::steps::up`, which is not proved\nfn tiny::steps::down: proved\nonly=3 proved=1\n"
        answer = self.answer(said)
        self.assertEqual([(it.function, it.text, it.strength) for it in answer.reasons], [("steps::up", "open: `returns`", Strength.GOAL)])

    def test_a_note_belongs_to_the_function_on_its_line_of_the_edited_text(self):
        text = "// a line more\n" + tiny.CRATE["src/lib.rt"]
        row = text[: text.index("    LIMIT\n")].count("\n") + 1
        said = f"note: src/lib.rt:{row}:5: it is not proved that what the function ensures holds when it returns (`returns`)\nonly=1 proved=0\n"
        self.assertEqual([it.function for it in self.answer(said, texts={"src/lib.rt": text}).reasons], ["limit"])

    def test_a_note_on_the_row_of_an_attribute_belongs_to_the_function_below_it(self):
        attributes = "#[derive(Drop)]\nstruct Told {}\n\n/// A limit.\n#[tactic(\n    auto,\n    using(crate::proofs::Sums::one_more)\n)]\n// Why.\npub fn limit"
        text = tiny.CRATE["src/lib.rt"].replace("pub fn limit", attributes)
        row = text[: text.index("#[tactic")].count("\n") + 1
        said = f"note: src/lib.rt:{row}:1: it is not proved that what the function ensures holds when it returns (`returns`); the facts known there allow values at which this goal is false\nonly=1 proved=0\n"
        self.assertEqual([it.function for it in self.answer(said, texts={"src/lib.rt": text}).reasons], ["limit"])
        said = said.replace(f"lib.rt:{row}:", f"lib.rt:{text[: text.index('#[derive')].count(chr(10)) + 1}:")
        self.assertEqual([it.function for it in self.answer(said, texts={"src/lib.rt": text}).reasons], [""])

    def test_a_closure_belongs_to_its_function(self):
        said = "fn tiny::levels::fn::all_low::all+FnMut::call_mut: no proof: `search` did not prove `returns`\nonly=1 proved=0\n"
        self.assertEqual([it.function for it in self.answer(said).reasons], ["levels::all_low"])

    def test_an_error_in_a_functions_proof_is_its_reason(self):
        said = "./proofs/steps/up/Answers.antt:12:69: error: `returns`: as printed, the two values first differ where one has `n`\nonly=1 proved=0\n"
        self.assertEqual([(it.function, it.strength) for it in self.answer(said).reasons], [("steps::up", Strength.GOAL)])

    def test_an_error_in_a_proof_of_a_cycle_is_each_ones_reason(self):
        said = "proofs/steps/+parity/Invariants.antt:4:1: error: `decreases-is_odd`: expected type `ℕ`\nonly=2 proved=0\n"
        self.assertEqual({it.function for it in self.answer(said).reasons}, {"steps::is_even", "steps::is_odd"})

    def test_a_name_that_is_gone_from_a_proof_says_little(self):
        said = "./proofs/steps/up/Answers.antt:3:9: error: `returns`: record `Rattle.tiny.proofs.steps.up.Lts.After` has no field `next`\nonly=1 proved=0\n"
        self.assertEqual([it.strength for it in self.answer(said).reasons], [Strength.NAMES])

    def test_a_loop_without_a_measure_says_less(self):
        said = "fn tiny::steps::up: no proof: expected a measure in ./proofs/steps/up/Invariants.antt\nonly=1 proved=0\n"
        self.assertEqual([it.strength for it in self.answer(said).reasons], [Strength.WANTING])

    def test_an_error_in_a_lemma_belongs_to_no_function(self):
        said = "./proofs/Sums.antt:4:12: error: `one_more`: expected type `1 + 1 ≡ 3`, but this has type `1 + 1 ≡ 1 + 1`\nlogic=not-proved\n"
        answer = self.answer(said, only={"limit"})
        self.assertEqual((answer.reasons, [it.path for it in answer.errors]), ([], ["proofs/Sums.antt"]))
        self.assertIn("one_more", answer.why_unclear())

    def test_what_makes_a_check_of_several_edits_tell_nothing(self):
        for said, status in (
            ("src/steps.rt:24:9: error[mismatched-types]: expected `u8`, found `bool`\n", 1),
            ("fn tiny::steps::up: could not tell\nonly=1 proved=0\n", 1),
            ("rattle: error: `tiny` has no function `steps::upp`: help: write the name\n", 2),
            ("fn tiny::limit: no proof: `search` did not prove `returns`\nonly=1 proved=0\n", 1),
        ):
            self.assertTrue(self.answer(said, status, only={"steps::up"}).why_unclear(), said)

    def test_an_own_reason_of_each_function_that_was_asked_for_tells(self):
        said = "fn tiny::limit: no proof: `search` did not prove `returns`\nonly=2 proved=1\n"
        self.assertEqual(self.answer(said, only={"limit", "third"}).why_unclear(), "")


class InABatch(WithTheTinyCrate):
    """What one check tells of each of several edits."""

    edits = {"up": tiny.UP_BY_TWO, "third": tiny.TWO_IN_OTHER_WORDS}

    def test_only_an_open_goal_of_its_own_settles_an_edit(self):
        said = "./proofs/third/Answers.antt:3:9: error: `returns`: `met` was not admitted\nfn tiny::steps::up: no proof: `search` did not prove `returns`\nonly=2 proved=0\n"
        answer = self.answer(said, only={"third", "steps::up"})
        verdicts = {it.name: verdict_in_batch(it, answer) for it in self.found}
        self.assertIsNone(verdicts["tiny/third.edit"])
        self.assertTrue(verdicts["tiny/up.edit"].passes)
        alone = verdict_alone(next(it for it in self.found if it.name == "tiny/third.edit"), answer)
        self.assertTrue(alone.passes and alone.is_weak)

    def test_where_a_proof_cites_a_theorem_each_edit_is_tried_alone(self):
        self.assertFalse(self.sources.is_stated(THEOREM))
        tiny.write(self.folder, {"proofs/third/Answers.antt": "use Rattle.tiny.proofs.steps.up.Met.{met}\n"})
        self.assertTrue(self.sources.is_stated(THEOREM))


class OfADefinition(WithTheTinyCrate):
    """What a check tells of an edit that may reach any function."""

    LOW = {"specs/Low.antt": "is_low : ℕ → Bool\nis_low n = nat_lt n 10\n", "must-fail/low.edit": "file: specs/Low.antt\nold: nat_lt n 10\nnew: n\n"}
    GONE = "./proofs/steps/up/Answers.antt:4:5: error: 1 declaration that depends on `one_more`, which was not admitted, was not checked: returns\nlogic=not-proved\n"

    def verdict(self, error):
        tiny.write(self.folder, self.LOW)
        (edit,), _ = read_edits(KIT, self.crate, self.folder, self.sources)
        return verdict_alone(edit, self.answer(error + self.GONE))

    def test_the_lemma_that_is_false_is_the_reason_and_not_that_it_is_gone(self):
        verdict = self.verdict("./proofs/Sums.antt:4:12: error: `one_more`: expected type `n ≡ 3`, but this has type `n ≡ 2`\n")
        self.assertTrue(verdict.passes and not verdict.is_weak)
        self.assertIn("proofs/Sums.antt: `one_more`", verdict.text)

    def test_a_definition_without_sense_is_a_bad_edit(self):
        verdict = self.verdict("./specs/Low.antt:4:12: error: `is_low`: expected type `ℕ`, but this has type `Bool`\n")
        self.assertFalse(verdict.passes)
        self.assertIn("BAD EDIT tiny/low.edit", verdict.text)


class Scripted(Trial):
    """A trial whose checks are answered by a script: the names of edits that don't compile, that change nothing, and that the prover knows no name for."""

    def follow(self, sources, breaks=(), harmless=(), unknown=(), is_sound=True):
        self.asked, self.over_kept, self.sources, self.is_sound = [], [], sources, is_sound
        self.breaks, self.harmless, self.unknown = ({f"tiny/{it}.edit" for it in names} for names in (breaks, harmless, unknown))
        return self

    def check(self, batch, only, kept=None):
        self.asked.append([it.name[5:-5] for it in batch])
        self.over_kept += [self.asked[-1]] if kept else []
        self.checks += 1
        names = {it.name for it in batch}
        if names & self.breaks:
            return Answer(self.crate, self.sources, 1, "src/steps.rt:1:1: error[mismatched-types]: expected `u8`\n", {}, only)
        strange = next((it for it in batch if it.name in self.unknown), None)
        if strange and only:
            return Answer(self.crate, self.sources, 2, f"rattle: error: `tiny` has no function `{min(strange.touched)}`: help: write the name\n", {}, only)
        spoilt = [name for it in batch if it.name not in self.harmless for name in it.touched or {"third"}]
        lines = [f"fn tiny::{it}: no proof: `search` did not prove `returns`\n" for it in spoilt]
        well = not spoilt and (batch or self.is_sound)
        return Answer(self.crate, self.sources, 0 if well else 1, "".join(lines) + "only=1 proved=0\n", {}, only)


class Trying(WithTheTinyCrate):
    """What is tried next where a check doesn't tell."""

    edits = {"a_limit": tiny.LIMIT_OF_ELEVEN, "b_up": tiny.UP_BY_TWO, "c_third": tiny.TWO_IN_OTHER_WORDS, "d_level": tiny.LEVEL_IS_SEVEN}

    def run_script(self, **script):
        for edit in self.found:
            edit.verdict = None
        trial = Scripted(self.crate, self.found, self.sources).follow(self.sources, **script)
        trial.run()
        return trial, {it.name[5:-5]: it.verdict for it in self.found}

    def test_one_check_tells_of_all(self):
        trial, verdicts = self.run_script()
        self.assertEqual(trial.asked, [["a_limit", "b_up", "c_third", "d_level"]])
        self.assertTrue(all(it.passes and not it.is_weak for it in verdicts.values()))

    def test_one_that_does_not_compile_is_found_by_halves(self):
        trial, verdicts = self.run_script(breaks=["b_up"])
        self.assertEqual(trial.asked[:5], [["a_limit", "b_up", "c_third", "d_level"], ["a_limit", "b_up"], ["c_third", "d_level"], ["a_limit"], ["b_up"]])
        self.assertTrue(verdicts["b_up"].text.startswith("BAD EDIT tiny/b_up.edit: it did not reach the prover"))
        self.assertEqual([name for name, it in verdicts.items() if not it.passes], ["b_up"])

    def test_one_that_changes_nothing_is_tried_alone_and_fails(self):
        trial, verdicts = self.run_script(harmless=["c_third"])
        self.assertEqual(trial.asked, [["a_limit", "b_up", "c_third", "d_level"], ["c_third"]])
        self.assertEqual(verdicts["c_third"].text, "NOT REFUSED tiny/c_third.edit: third proved with this edit")

    def test_a_name_that_the_prover_does_not_know_leaves_the_batch_and_is_tried_with_the_whole_crate(self):
        trial, verdicts = self.run_script(unknown=["c_third"])
        self.assertEqual(trial.asked[:3], [["a_limit", "b_up", "c_third", "d_level"], ["a_limit", "b_up", "d_level"], ["c_third"]])
        self.assertEqual(trial.asked.count(["c_third"]), 2)
        self.assertTrue(verdicts["c_third"].passes)

    def test_halves_and_what_stands_alone_are_checked_from_nothing(self):
        trial, _ = self.run_script(breaks=["b_up"])
        self.assertEqual(trial.over_kept, [])

    def test_what_was_refused_over_kept_work_is_checked_without_the_edits(self):
        trial, _ = self.run_script(unknown=["b_up"])
        self.assertEqual(trial.over_kept, [["b_up"]])
        trial, verdicts = self.run_script(unknown=["b_up", "c_third"])
        self.assertEqual(trial.over_kept, [["b_up"], ["c_third"], []])
        self.assertEqual(trial.asked[-1], [])
        self.assertTrue(all(it.passes for it in verdicts.values()))
        trial, _ = self.run_script(unknown=["b_up", "c_third"], is_sound=False)
        self.assertEqual(trial.over_kept, [["b_up"], ["c_third"], []])
        self.assertEqual(trial.asked[-1], ["c_third"])

    def test_a_reason_of_another_function_is_none_of_the_edits(self):
        edit = next(it for it in self.found if it.name == "tiny/b_up.edit")
        edit.touched = {"steps::down"}
        trial = Scripted(self.crate, [edit], self.sources).follow(self.sources)
        trial.check = lambda *_: Answer(self.crate, self.sources, 1, "fn tiny::limit: no proof: `search` did not prove `returns`\nonly=1 proved=0\n", {}, set())
        trial.run()
        self.assertTrue(edit.verdict.text.startswith("BAD EDIT tiny/b_up.edit: refused, but for no reason of a function that it changes"))


class ByTheProver(unittest.TestCase):
    """Edits of the tiny crate, tried by the prover itself."""

    EDITS = {
        "down_by_true": tiny.DOWN_BY_TRUE,
        "eleven_is_low": tiny.ELEVEN_IS_LOW,
        "even_goes_too_far": tiny.EVEN_GOES_TOO_FAR,
        "lemma_is_false": tiny.LEMMA_IS_FALSE,
        "level_is_halved": tiny.LEVEL_IS_HALVED,
        "level_is_seven": tiny.LEVEL_IS_SEVEN,
        "limit_of_eleven": tiny.LIMIT_OF_ELEVEN,
        "odd_in_other_words": tiny.ODD_IN_OTHER_WORDS,
        "two_in_other_words": tiny.TWO_IN_OTHER_WORDS,
        "up_by_none": tiny.UP_BY_NONE,
        "up_by_two": tiny.UP_BY_TWO,
    }
    # the function whose own goal refuses each
    REFUSED = {
        "eleven_is_low": "levels::all_low",
        "even_goes_too_far": "steps::is_even",
        "lemma_is_false": "proofs/Sums.antt",
        "level_is_halved": "level::Level::of",
        "level_is_seven": "level::LevelFromU8::from",
        "limit_of_eleven": "(below_)?limit",
        "up_by_none": "steps::up",
        "up_by_two": "steps::up",
    }

    def test_each_edit_has_its_own_verdict(self):
        with tempfile.TemporaryDirectory() as root:
            tiny.repository(root, self.EDITS)
            ran = subprocess.run([sys.executable, os.path.join(ROOT, "tests", "edits.py"), "--proved", root, "--edits", root], capture_output=True, text=True)
        said = ran.stdout + ran.stderr
        found = {name: (word, why) for word, name, why in GOAL_OF_EDIT.findall(said)}
        self.assertEqual(found.keys(), self.EDITS.keys(), said)
        for name, function in self.REFUSED.items():
            self.assertEqual(found[name][0], "refused", said)
            self.assertRegex(found[name][1], rf"^: {function}: ")
        self.assertEqual([name for name, it in found.items() if it[0] == "NOT REFUSED"], ["odd_in_other_words", "two_in_other_words"], said)
        self.assertEqual([name for name, it in found.items() if it[0] == "BAD EDIT"], ["down_by_true"], said)
        self.assertEqual(said.rstrip().split("\n")[-1], "8 passed, 3 failed")
        self.assertEqual(ran.returncode, 1)


if __name__ == "__main__":
    unittest.main()
