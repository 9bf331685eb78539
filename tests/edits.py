"""Tries the must-fail edits of the crates in batches: `edits.py [--proved FOLDER [--follow N]] [--by-turns] [--at-once N] [--alone] [--plan] [CRATE..]`.

An edit is a file crates/NAME/must-fail/*.edit, as `rt must-fail` reads it. Edits of different functions of a crate are put into one
copy and checked by one `rattle check --only F1 --only F2 ..`: the theorem of another function cites a function's contract and never
its body, so an edit inside a body can spoil that function's own proof alone.

An edit counts as refused only for a reason of a function that it changes: an open goal of its proof, or an error in its proof's files.
"It calls g, which is not proved" is none. Where a check of a batch doesn't tell, its halves are tried; where it seems that an edit isn't refused, that
edit is tried alone. An edit whose reach isn't known (of a clause, a type, a definition, a lemma) is tried alone, with the whole crate.

Nothing is proved here but what is edited. The crates themselves are proved elsewhere: --proved names a copy of this repository in which
`rt ci` has just run, or with --follow still runs: standard input then names each crate that it has proved, and a crate's edits are tried once its own name
and those of the crates below it have come. Without --proved, what isn't proved in this repository is proved first. With --by-turns, as many are
tried as a run has time for, and of crates that are the same as they landed a tenth (tests/turns.py). The last line is `N passed, M failed`."""

import argparse
import difflib
import os
import re
import shutil
import signal
import subprocess
import sys
import tempfile
import time
from dataclasses import dataclass, field

ROOT = os.path.dirname(os.path.dirname(os.path.abspath(__file__)))
# how a lemma or an answer cites the theorem of a function
THEOREM = re.compile(r"\bproofs\.[\w.+-]+\.Met\b")
sys.path.insert(0, os.path.join(ROOT, "tools"))

from kit import Kit, NoKit
from lanes import Task, in_lanes
from answers import Answer, Strength
from following import Following, give_way
from landed import Landed
from sources import Sources
from turns import left_out, past_the_most


@dataclass
class Hunk:
    """Rows of a file, from `first` to before `end`, and what an edit puts in their place."""

    path: str
    first: int
    end: int
    new: list
    # no word is another: only spaces come or go, as where an edit tells two like rows apart
    is_of_spaces: bool

    def meets(self, other):
        """Whether two changes of one file can't stand side by side."""
        return self.path == other.path and (self.first < other.end and other.first < self.end or self.first == other.first)


@dataclass
class Edit:
    """A must-fail edit. `touched` names the functions whose proof it can spoil, and is None where that isn't known."""

    name: str
    hunks: list
    touched: set
    verdict: "Verdict" = None

    def paths(self):
        return {it.path for it in self.hunks}

    def clashes(self, other):
        """Whether two edits can't be told apart in one check, or can't be made at once."""
        if self.touched is None or other.touched is None:
            return True
        return bool(self.touched & other.touched) or any(it.meets(that) for it in self.hunks for that in other.hunks)


@dataclass
class Verdict:
    """What was found of an edit: whether it passes, that is, whether it is refused as it must be, and why."""

    passes: bool
    text: str
    # it is refused for no goal of a contract, but only for names in a proof file and the like
    is_weak: bool = False


def hunks_of(path, old, new):
    """The rows in which two texts of a file differ."""
    old, new = old.split("\n"), new.split("\n")
    codes = difflib.SequenceMatcher(None, old, new, autojunk=False).get_opcodes()
    return [
        Hunk(path, first, end, new[begin:stop], words_of(old[first:end]) == words_of(new[begin:stop]))
        for kind, first, end, begin, stop in codes
        if kind != "equal"
    ]


def words_of(rows):
    """The rows' words and signs, whatever spaces stand between them; a row with a text in quotes counts as it is."""
    return [[row] if "\"" in row or "'" in row else re.findall(r"\w+|[^\w\s]", row) for row in rows]


def touched_by(hunks, sources):
    """The functions whose proofs these changes can spoil, or None where that isn't known."""
    touched = set()
    for hunk in (it for it in hunks if not it.is_of_spaces):
        inside = sources.in_body(hunk.path, hunk.first, hunk.end) if hunk.path in sources.texts else None
        if inside is None:
            return None
        touched |= inside
    return touched or None


def merged(edits, text_of):
    """The texts of the files that these edits change together."""
    rows, hunks = {}, [hunk for edit in edits for hunk in edit.hunks]
    # from below, so that the rows above keep their places
    for hunk in sorted(hunks, key=lambda it: it.first, reverse=True):
        lines = rows.setdefault(hunk.path, text_of(hunk.path).split("\n"))
        lines[hunk.first : hunk.end] = hunk.new
    return {path: "\n".join(lines) for path, lines in rows.items()}


def batches(edits, alone=False):
    """Groups edits, each with functions of its own; one of unknown reach stands by itself, as all do if so asked."""
    groups = []
    for edit in edits:
        fits = (it for it in groups if not alone and not any(edit.clashes(other) for other in it))
        group = next(fits, None)
        if group is None:
            groups.append([edit])
        else:
            group.append(edit)
    return groups


def verdict_in_batch(edit, answer):
    """What a check of several edits tells of one of them, or None where it doesn't: nothing but that a goal of its own is open.

    A name that is gone from its proof may be gone for another edit's sake."""
    reasons = [it for it in answer.reasons if it.function in edit.touched and it.strength is Strength.GOAL]
    return refused(edit, reasons) if reasons else None


def verdict_alone(edit, answer):
    """What a check with this edit alone tells: this is final."""
    if not answer.reached:
        return Verdict(False, f"BAD EDIT {edit.name}: it did not reach the prover, or the prover couldn't tell, so no contract was tried: {answer.first_error()}")
    if answer.unread:
        return Verdict(False, f"BAD EDIT {edit.name}: the prover cannot read the edited text: {answer.unread}")
    # with the rest of the crate as it was proved, whatever is refused now is refused for an edit of unknown reach
    reasons = [it for it in answer.reasons if edit.touched is None or it.function in edit.touched]
    if edit.touched is None:
        without_sense = next((it for it in answer.errors_in(edit.paths()) if it.path.startswith("specs/")), None)
        if without_sense:
            return Verdict(False, f"BAD EDIT {edit.name}: a definition that says nothing is refused by no law: {without_sense.text[:200]}")
        # where a lemma isn't proved, its error is the reason, and not that it is gone where it's cited
        reasons += answer.errors
    if reasons:
        return refused(edit, reasons)
    if answer.status == 0:
        return Verdict(False, f"NOT REFUSED {edit.name}: {', '.join(sorted(edit.touched or ['the crate']))} proved with this edit")
    why = next(iter(answer.unclear + [it.text for it in answer.errors]), answer.last)
    return Verdict(False, f"BAD EDIT {edit.name}: refused, but for no reason of a function that it changes: {why[:200]}")


def refused(edit, reasons):
    strongest = max(reasons, key=lambda it: it.strength.value)
    where = f"{strongest.function}: " if strongest.function else ""
    if strongest.strength is Strength.GOAL:
        return Verdict(True, f"refused {edit.name}: {where}{strongest.text[:200]}")
    says = "only by the names in a proof file" if strongest.strength is Strength.NAMES else "by no goal of its contract"
    return Verdict(True, f"refused {edit.name}, {says}, so it says little: {where}{strongest.text[:160]}", is_weak=True)


@dataclass
class Trial:
    """The edits of one crate."""

    crate: object
    edits: list
    sources: Sources
    alone: bool = False
    processor: float = 0.0
    # the most memory that one of its checks took, in bytes
    memory: int = 0
    checks: int = 0
    notes: list = field(default_factory=list)
    # where checks of the whole crate keep their work, and the edits that were tried so, in order
    kept: str = None
    whole: list = field(default_factory=list)

    def run(self):
        begun, groups = time.monotonic(), batches(self.edits, self.alone)
        with tempfile.TemporaryDirectory(prefix="edits-") as self.kept:
            self.try_batches(groups)
            for edit in self.doubtful():
                edit.verdict = self.verdict_of(edit, from_nothing=True)
        sizes, took = ", ".join(str(len(it)) for it in groups), time.monotonic() - begun
        self.notes.append(f"{self.crate.name}: {len(self.edits)} edits, in batches of {sizes}; {self.checks} checks, {self.processor:.0f} s of processor, {took:.0f} s, {self.memory / 1e9:.1f} GB")

    def give_up(self):
        """Fails the edits of a trial that was not run."""
        for edit in (it for it in self.edits if not it.verdict):
            edit.verdict = Verdict(False, f"NOT TRIED {edit.name}: its crate, or one below it, was not proved")

    def try_batches(self, groups):
        """Sets each edit's verdict."""
        waiting = list(groups)
        while waiting:
            batch = waiting.pop(0)
            if len(batch) == 1:
                batch[0].verdict = self.verdict_of(batch[0])
            else:
                waiting += self.try_batch(batch)

    def doubtful(self):
        """The edits that the work kept by an earlier check of the whole crate may have refused wrongly."""
        over_kept = [it for it in self.whole[1:] if it.verdict.passes]
        return over_kept if over_kept and not self.is_proved_over_kept(over_kept) else []

    def try_batch(self, batch):
        """Sets the verdicts for which one check of these edits tells, and returns what is still to be tried."""
        answer = self.check(batch, set().union(*[it.touched for it in batch]))
        strange = [it for it in batch if answer.unknown in it.touched]
        if strange and len(strange) < len(batch):
            return [[it for it in batch if it not in strange], *[[it] for it in strange]]
        why = answer.why_unclear()
        if why:
            self.notes.append(f"{self.crate.name}: a batch of {len(batch)} doesn't tell, so its halves are tried: {why[:160]}")
            return [batch[: len(batch) // 2], batch[len(batch) // 2 :]]
        for edit in batch:
            edit.verdict = verdict_in_batch(edit, answer)
        return [[it] for it in batch if it.verdict is None]

    def verdict_of(self, edit, from_nothing=False):
        """Tries one edit alone: with the functions that it changes, and where the prover doesn't know their names, with the whole crate."""
        if edit.touched:
            answer = self.check([edit], edit.touched)
            if not answer.unknown:
                return verdict_alone(edit, answer)
            self.notes.append(f"{edit.name}: no name of the prover's: {', '.join(sorted(edit.touched))}, so the whole crate is tried")
            edit.touched = None
        if from_nothing:
            return verdict_alone(edit, self.check([edit], set()))
        self.whole.append(edit)
        return verdict_alone(edit, self.check([edit], set(), self.kept))

    def is_proved_over_kept(self, edits):
        """Whether the crate as it is, is proved over the work that checks of the whole crate have kept."""
        well = self.check([], set(), self.kept).status == 0
        if not well:
            self.notes.append(f"{self.crate.name}: not proved over the work that earlier edits left, so {len(edits)} edits are tried again")
        return well

    def check(self, batch, only, kept=None):
        """Checks a copy of the crate with these edits, over kept work or else from nothing, and reads what the prover says."""
        texts = merged(batch, self.text_of)
        with tempfile.TemporaryDirectory(prefix="edit-") as room:
            for part in self.crate.parts():
                shutil.copytree(os.path.join(self.crate.folder, part), os.path.join(room, part))
            for path, text in texts.items():
                with open(os.path.join(room, path), "w", encoding="utf-8") as it:
                    it.write(text)
            words = [*self.crate.check(), *(["--incremental", kept] if kept else []), *[word for name in sorted(only) for word in ("--only", name)]]
            status, said, processor, memory = timed(words, room)
            if status == -signal.SIGKILL:
                self.notes.append(f"{self.crate.name}: a check was killed, most likely for want of memory: once more")
                status, said, processor, memory = timed(words, room)
        self.checks, self.processor, self.memory = self.checks + 1, self.processor + processor, max(self.memory, memory)
        return Answer(self.crate, self.sources, status, said, texts, only)

    def text_of(self, path):
        return read(os.path.join(self.crate.folder, path))


def timed(words, folder):
    """Runs a command, and returns its status, what it printed, its processor time in seconds, and the most memory that it took in bytes."""
    with tempfile.TemporaryFile("w+", errors="replace") as out:
        ran = subprocess.Popen(words, cwd=folder, stdin=subprocess.DEVNULL, stdout=out, stderr=subprocess.STDOUT)
        _, status, used = os.wait4(ran.pid, 0)
        ran.returncode = os.waitstatus_to_exitcode(status)
        out.seek(0)
        return ran.returncode, out.read(), used.ru_utime + used.ru_stime, 1024 * used.ru_maxrss


def read_edits(kit, crate, folder, sources):
    """The edits of a crate that can be made, from this folder's must-fail/, and verdicts on the others."""
    files, others = kit.edits_in(folder)
    edits = []
    bad = [Verdict(False, f"BAD EDIT {crate.name}/{os.path.basename(it)}: an edit's name ends in .edit (or .md, if it is only to be read)") for it in others]
    for file in files:
        label = f"{crate.name}/{os.path.basename(file)}"
        texts, why = kit.read_edit(file, crate.folder)
        if why:
            bad.append(Verdict(False, f"BAD EDIT {label}: {why}"))
            continue
        hunks = [it for path, text in texts.items() for it in hunks_of(path, read(os.path.join(crate.folder, path)), text)]
        edits.append(Edit(label, hunks, touched_by(hunks, sources)))
    return edits, bad


def read(file):
    with open(file, encoding="utf-8") as it:
        return it.read()


def trials(kit, crates, options):
    """The trial of each of these crates that has edits, and verdicts on the edits that can't be made."""
    found, bad = [], []
    for crate in crates:
        if options.crates and crate.name not in options.crates:
            continue
        sources = Sources(crate.folder)
        edits, worse = read_edits(kit, crate, os.path.join(options.edits or ROOT, "crates", crate.name), sources)
        bad += worse
        if edits:
            # a proof that cites another function's theorem may be spoilt by an edit of that function
            found.append(Trial(crate, edits, sources, options.alone or sources.is_stated(THEOREM)))
    return found, bad


def those_of_this_run(found, crates, landed):
    """Those of the trials whose turn it is, or whose verdicts may be others than they were (tests/turns.py). It says which are left out."""
    landed, why = landed
    if not landed or landed.anew:
        print(f"the edits of all crates are due: {why if not landed else landed.anew}")
    left = {it.crate: it for it in (left_out(crates, landed) if landed else past_the_most((it.crate.name, len(it.edits)) for it in found))}
    for it in left.values():
        print(f"{it.crate}: {it.says}")
    out = [it for it in found if it.crate.name in left]
    print(f"{sum(len(it.edits) for it in out)} edits of {len(out)} crates are not tried in this run", flush=True)
    return [it for it in found if it.crate.name not in left]


def stands(trial, after_ci):
    """Whether the crates below are proved: by the `rt ci` that has just run here, or else by what is kept, and now where it isn't."""
    for below in trial.crate.below:
        if not (below.is_built_by_ci() if after_ci else below.is_proved() or not below.prove(1, sys.stderr)):
            print(f"{trial.crate.name}: its library {below.name} is not proved", flush=True)
            return False
    return True


def run_all(found, at_once, memory, following=None):
    """Runs the trials side by side, those with most to do first, and prints what each found; those that wait for `rt ci`, as it proves their crates."""
    tasks = following.tasks() if following else []
    for it in found:
        after = following.after(it.crate) if following else []
        tasks.append(Task(it.crate.name, after, len(it.edits) * it.crate.lines(), it.crate.memory(), lambda jobs, it=it: it.run() or it))
    for task, trial in in_lanes(tasks, at_once, memory):
        if not task.is_awaited:
            for edit in trial.edits:
                print(edit.verdict.text)
            print(*trial.notes, sep="\n", flush=True)
    for trial in found:
        trial.give_up()


def options_of(words):
    parser = argparse.ArgumentParser(description=__doc__.split("\n")[0])
    parser.add_argument("crates", nargs="*")
    parser.add_argument("--proved", help="a copy of the repository in which `rt ci` has just run")
    parser.add_argument("--follow", type=int, metavar="N", help="`rt ci` still runs there, with N crates at a time; standard input names those proved, one a line")
    parser.add_argument("--edits", help="the repository whose edits are tried, if it isn't this one")
    parser.add_argument("--by-turns", action="store_true", help="leave out crates that are the same as they landed, but for a tenth, and those for which there is no time")
    parser.add_argument("--at-once", type=int, help="how many crates are tried at a time")
    parser.add_argument("--alone", action="store_true", help="try each edit by itself")
    parser.add_argument("--plan", action="store_true", help="only print the batches, and which edits can't be made")
    options = parser.parse_intermixed_args(words)
    if options.follow and not options.proved:
        parser.error("--follow needs the folder in which `rt ci` runs: --proved")
    return options


def main(words):
    options, following = options_of(words), None
    if options.follow:
        give_way()
    try:
        kit = Kit()
    except NoKit as error:
        print(f"edits: {error}\n0 passed, 1 failed")
        return 1
    free, memory, crates = kit.free(), kit.memory(), kit.crates(options.proved or ROOT)
    found, bad = trials(kit, crates, options)
    if options.by_turns:
        found = those_of_this_run(found, crates, Landed.of(options.edits or ROOT, kit.identity()))
    if options.plan:
        return plan(found, bad, options.alone)
    if options.follow:
        following = Following(crates, options.follow, free, memory)
        following.begin(sys.stdin)
    elif not all(stands(it, bool(options.proved)) for it in found):
        print("0 passed, 1 failed")
        return 1
    run_all(found, options.at_once or kit.lanes(), following.memory if following else memory, following)
    return tell(found, bad)


def plan(found, bad, alone):
    """Prints the batches and what each edit touches, and returns the exit status."""
    for trial in found:
        for group in batches(trial.edits, alone):
            print(trial.crate.name, len(group), *[f"{it.name.split('/')[1]}={','.join(sorted(it.touched or ['?']))}" for it in group])
    for verdict in bad:
        print(verdict.text)
    return 1 if bad else 0


def tell(found, bad):
    """Prints what failed and the sum of all verdicts, and returns the exit status."""
    verdicts = [edit.verdict for trial in found for edit in trial.edits] + bad
    passed, weak = sum(it.passes for it in verdicts), sum(it.is_weak for it in verdicts)
    for verdict in (it for it in verdicts if not it.passes):
        print(verdict.text)
    print(f"{sum(it.processor for it in found) / 60:.0f} minutes of processor")
    print(f"{weak} of the edits are refused only by the names in a proof file, or by no goal of a contract")
    print(f"{passed} passed, {len(verdicts) - passed} failed")
    return 0 if passed == len(verdicts) else 1


if __name__ == "__main__":
    sys.exit(main(sys.argv[1:]))
