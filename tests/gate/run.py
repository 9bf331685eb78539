"""The gate: `run.py` proves, tries and tests everything by `rt ci` and plays the tables; `run.py --batched` tries the edits in batches; `run.py --by-turns` does so too, and
leaves out those of crates that are the same as they landed, but for a tenth, and those for which a run has no time; `run.py --tables` only plays the tables. It is run at the top, by `python3 -m tests.gate.run`.

Each stops at the first part that fails. The last line is `N passed, M failed`, and stands alone. docs/GATE.md says what each shows."""

import contextlib
import glob
import os
import re
import shutil
import subprocess
import sys
import tempfile
import threading
import unittest
from concurrent.futures import ThreadPoolExecutor

from following import proved_in
from kit import OF_A_CHECK, Kit, NoKit
from tests.support.program import ABSENT, LAUNCHER, ROOT

COUNT = re.compile(r"(\d+) passed, (\d+) failed\s*\Z")
# the kit's gate, as this project runs it
RT_CI = [sys.executable, "-u", os.path.join(ROOT, "tools", "rt.py"), "ci"]
# what a clone of the repository doesn't have, and the edits
NOT_COPIED = (".git", "out", "__pycache__", "*.pyc", "must-fail")


def end(passed, failed):
    print(f"{passed} passed, {failed} failed", flush=True)
    sys.exit(1 if failed else 0)


class Part:
    """A part of the gate as it runs: a command that ends in a count. It has no session of its own, so that one of less priority gives way to another."""

    printing = threading.Lock()

    def __init__(self, name, words, folder, stdin=subprocess.DEVNULL, **environment):
        self.name, self.count, self.ran = name, None, None
        how = {"cwd": folder, "stdin": stdin, "stdout": subprocess.PIPE, "env": {**os.environ, **environment}}
        try:
            self.ran = subprocess.Popen(words, text=True, errors="replace", **how)
        except OSError as error:
            print(f"{name}: {error}")

    def read(self, hears=lambda line: None):
        """Prints each line as it comes, whole, and hands it on, until the part ends. Its count isn't printed alone: the last line is the sum."""
        if not self.ran:
            return
        for line in self.ran.stdout:
            self.count = COUNT.match(line)
            with self.printing:
                print(f"{self.name}: {line}" if self.count else line, end="", flush=True)
            hears(line)
        self.ran.stdout.close()
        self.ran.wait()

    def send(self, line):
        """Writes a line to the part's standard input. Where it has ended, its count tells."""
        with contextlib.suppress(OSError, ValueError, AttributeError):
            print(line, file=self.ran.stdin, flush=True)

    def send_no_more(self):
        with contextlib.suppress(OSError, AttributeError):
            self.ran.stdin.close()

    def stop(self):
        """Ends the part, and with it what it runs."""
        if self.ran:
            self.ran.terminate()

    def result(self):
        """How many passed and how many failed; one has, where the part ended without a count, or badly."""
        well, failed = (int(it) for it in self.count.groups()) if self.count else (0, 1)
        return well, 1 if self.ran and self.ran.returncode and not failed else failed


def part(name, words, folder, passed, **environment):
    """Runs a part of the gate, and returns how many passed with it."""
    it = Part(name, words, folder, **environment)
    it.read()
    well, failed = it.result()
    if failed:
        end(passed + well, failed)
    return passed + well


def side_by_side(ci, edits):
    """Lets the edits follow `rt ci`: each crate that it proves is named to them. Returns how many passed with both.

    Where rt ci fails, the edits are stopped: what was found of them by then isn't counted, unless they had all been tried."""

    def hears(line):
        if proved_in(line):
            edits.send(proved_in(line))

    reader = threading.Thread(target=edits.read, daemon=True)
    reader.start()
    ci.read(hears)
    well, failed = ci.result()
    if failed:
        edits.stop()
    edits.send_no_more()
    reader.join()
    is_stopped = failed and not edits.count
    of_edits, not_refused = (0, 0) if is_stopped else edits.result()
    lost = " and ".join(it.name for it, bad in ((ci, failed), (edits, not_refused)) if bad)
    if lost:
        print(f"minired's tests: {lost} failed{', so no more edits were tried' if is_stopped else ''}", flush=True)
        end(well + of_edits, failed + not_refused)
    return well + of_edits


def crates_at_once():
    """How many crates are proved at a time: as many as there are processors, and memory for."""
    try:
        kit = Kit()
    except NoKit as error:
        print(f"minired's tests: {error}")
        end(0, 1)
    return max(1, min(kit.lanes(), kit.memory() // OF_A_CHECK))


def files_at_once():
    """How many files of tests are played at a time: one processor is left to what they measure."""
    return max(1, (os.cpu_count() or 1) - 1)


def copied(root, to):
    """Copies what the repository holds, without the edits."""
    copy = os.path.join(to, "repository")
    shutil.copytree(root, copy, ignore=shutil.ignore_patterns(*NOT_COPIED))
    return copy


def judged(result):
    """How many of the tests passed and failed. One whose client the machine doesn't have is neither, and the client is named; any other skipped one has failed."""
    absent = [(test, why) for test, why in result.skipped if why.startswith(ABSENT)]
    for test, why in absent:
        print(f"{why} ({test.id()})")
    bad = len(result.failures) + len(result.errors) + len(result.unexpectedSuccesses) + len(result.skipped) - len(absent)
    passed = result.testsRun - len(absent)
    if bad or not result.wasSuccessful() or not result.testsRun:
        return max(0, passed - 1), max(1, bad)
    return passed, 0


def files_of_tests():
    """The modules that hold tests: first those that prove something, then the longest, so that what takes long begins early."""
    files = [os.path.relpath(it, ROOT) for it in glob.glob(os.path.join(ROOT, "tests", "*", "test_*.py"))]
    files.sort(key=lambda it: (not it.startswith(os.path.join("tests", "gate")), -os.path.getsize(os.path.join(ROOT, it)), it))
    return [it[: -len(".py")].replace(os.sep, ".") for it in files]


def one_file(module):
    """Runs the tests of a module, and returns how many of them passed and failed."""
    found = unittest.defaultTestLoader.loadTestsFromName(module)
    return judged(unittest.TextTestRunner(stream=sys.stdout, verbosity=2, failfast=True).run(found))


def played(module):
    """Runs the tests of a module in a process of its own, and returns how many passed and failed. What it says is printed whole, once it has ended."""
    words = [sys.executable, "-u", "-m", "tests.gate.run", "--file", module]
    ran = subprocess.run(words, cwd=ROOT, stdin=subprocess.DEVNULL, stdout=subprocess.PIPE, stderr=subprocess.STDOUT, text=True, errors="replace")
    *said, last = ran.stdout.splitlines() or [""]
    count = COUNT.match(last)
    with Part.printing:
        print("\n".join([*said, f"{module}: {last}"]), flush=True)
    well, failed = (int(it) for it in count.groups()) if count else (0, 1)
    return well, 1 if ran.returncode and not failed else failed


# of so many files that fail beside others each is played once more by itself; where more do, it isn't the machine
AGAIN = 3


def beside_others(at_once):
    """Plays each file of tests, so many at a time: how many tests passed, and the files that failed with their counts. Once too many have, no further one begins."""
    lost = []

    def plays(module):
        if len(lost) > AGAIN:
            return 0
        passed, failed = played(module)
        if failed:
            lost.append((module, passed, failed))
            return 0
        return passed

    with ThreadPoolExecutor(at_once) as pool:
        return sum(pool.map(plays, files_of_tests())), lost


def tables(at_once):
    """Tests the built program, so many files of tests at a time, and returns how many of its tests passed.

    A test that waits for what servers do can be too late beside others. So a file that fails is played once more with nothing beside it, and what it says then counts."""
    built = subprocess.run([LAUNCHER], cwd=ROOT, stdin=subprocess.DEVNULL)
    if built.returncode:
        print("minired's tests: the program cannot be built")
        end(0, 1)
    # what runs the gate says otherwise where no client may be absent
    os.environ.setdefault("ABSENT_CLIENTS", "named")
    passed, lost = beside_others(at_once)
    if len(lost) > AGAIN:
        end(passed + sum(well for _, well, _ in lost), sum(bad for *_, bad in lost))
    for module, *_ in lost:
        print(f"minired's tests: {module} failed beside others, and is played by itself", flush=True)
        well, bad = played(module)
        passed += well
        if bad:
            end(passed, bad)
    if not passed:
        end(0, 1)
    return passed


def tables_in(folder, passed):
    """Plays the tables of the repository in this folder on the programs that are built there."""
    return part("tables", [sys.executable, "-u", "-m", "tests.gate.run", "--tables"], folder, passed)


def everything():
    """What rt ci does, one edit after another, and the tables."""
    return tables_in(ROOT, part("rt ci", RT_CI, ROOT, 0))


def batched(root=ROOT, by_turns=False):
    """The same, with the edits in batches: in a copy of this repository without them, rt ci proves each crate from nothing; over these crates the edits
    are tried, each as soon as its crate and those below it are proved. By turns, not those whose turn hasn't come (tests/turns.py)."""
    with tempfile.TemporaryDirectory(prefix="minired-gate-", ignore_cleanup_errors=True) as room:
        copy, kept, at_once = copied(root, room), os.path.join(room, "edits"), str(crates_at_once())
        os.mkdir(kept)
        words = [sys.executable, "-u", os.path.join(ROOT, "tests", "edits.py"), "--proved", copy, "--edits", root, "--follow", at_once, *(["--by-turns"] if by_turns else [])]
        # first the edits: they measure the memory that is free before rt ci takes any
        edits = Part("edits", words, ROOT, stdin=subprocess.PIPE, TMPDIR=kept)
        return tables_in(copy, side_by_side(Part("rt ci", RT_CI, copy), edits))


def main(words):
    if len(words) == 2 and words[0] == "--file":
        end(*one_file(words[1]))
    gates = {"": everything, "--batched": batched, "--by-turns": lambda: batched(by_turns=True), "--tables": lambda: tables(files_at_once())}
    if " ".join(words) not in gates:
        print(__doc__)
        sys.exit(2)
    end(gates[" ".join(words)](), 0)


if __name__ == "__main__":
    main(sys.argv[1:])
