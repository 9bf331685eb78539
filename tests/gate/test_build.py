"""The first build: the order in which crates are proved, the lines that it writes, and builds of a tiny program."""

import os
import re
import shutil
import signal
import subprocess
import sys
import tempfile
import threading
import time
import unittest

from borrow import borrowed, proved_by
from build import Progress, last_lines, length_of
from kit import Kit, once_in_a_call
from lanes import YIELDING, Lanes, Run, Task, chains, in_lanes, share
from tests.support import tiny_repository as tiny
from tests.support.program import ROOT

# each crate of a small repository, with those that it stands on and its work
CRATES = [("sea", [], 1), ("map", [], 2), ("value", ["map"], 3), ("glob", [], 4), ("effect", ["value", "sea"], 6), ("node", ["effect", "glob"], 5)]
LONGEST = 300


class SideBySide(unittest.TestCase):
    """Tasks side by side."""

    def setUp(self):
        self.begun, self.jobs, self.running, self.most, self.lock = [], {}, 0, 0, threading.Lock()

    def tasks(self, memory=1, failing=()):
        def run(name, jobs):
            with self.lock:
                self.begun.append(name)
                self.jobs[name] = jobs
                self.running += 1
                self.most = max(self.most, self.running)
            time.sleep(0.02)
            with self.lock:
                self.running -= 1
            return name not in failing

        return [Task(name, after, work, memory, lambda jobs, name=name: run(name, jobs)) for name, after, work in CRATES]

    def test_a_chain_counts_the_work_of_all_behind(self):
        self.assertEqual(chains(self.tasks()), {"node": 5, "effect": 11, "glob": 9, "value": 14, "map": 16, "sea": 12})

    def test_one_at_a_time_the_longest_chain_comes_first(self):
        ended = [task.name for task, _ in in_lanes(self.tasks(), 1, 9)]
        self.assertEqual(ended, ["map", "value", "sea", "effect", "glob", "node"])

    def test_no_crate_begins_before_those_below_it_have_ended(self):
        ended = [task.name for task, _ in in_lanes(self.tasks(), 4, 9)]
        for name, after, _ in CRATES:
            self.assertTrue(all(ended.index(it) < ended.index(name) for it in after))
        self.assertEqual(set(self.begun[:3]), {"map", "sea", "glob"})
        self.assertEqual(self.most, 3)

    def test_no_more_run_than_there_are_lanes_or_memory_for(self):
        list(in_lanes(self.tasks(), 2, 9))
        self.assertEqual(self.most, 2)
        self.most = 0
        list(in_lanes(self.tasks(memory=4), 4, 9))
        self.assertEqual(self.most, 2)

    def test_one_runs_where_none_has_memory_enough(self):
        self.assertEqual(len(list(in_lanes(self.tasks(memory=20), 4, 9))), 6)
        self.assertEqual(self.most, 1)

    def test_what_stands_on_a_failed_crate_is_not_run(self):
        ended = {task.name: value for task, value in in_lanes(self.tasks(failing=["value"]), 2, 9)}
        self.assertEqual(ended, {"map": True, "value": False, "sea": True, "glob": True})

    def test_the_longest_chain_gets_all_processors_and_the_others_share_them_beside_it(self):
        self.assertEqual([share(4, 1, 4), share(4, 2, 4), share(4, 3, 4), share(4, 1, 2), share(1, 3, 4)], [4, 3, 2, 2, 1])
        list(in_lanes(self.tasks(), 4, 90, most=4))
        self.assertEqual({name: self.jobs[name] for name in ("map", "sea", "glob", "node")}, {"map": 4, "sea": 3, "glob": 1, "node": 4})

    def test_the_longest_chain_takes_no_more_memory_than_there_is(self):
        # a second processor adds six tenths
        list(in_lanes(self.tasks(), 4, 2.5, most=4))
        self.assertEqual(self.jobs["map"], 3)

    def test_those_beside_the_longest_chain_make_room_for_it(self):
        weights = {}

        def run(name):
            weights[name] = os.getpriority(os.PRIO_PROCESS, threading.get_native_id())

        ours = os.getpriority(os.PRIO_PROCESS, 0)
        for most, beside in [(4, ours + YIELDING), (1, ours)]:
            tasks = [Task(name, [], work, 1, lambda jobs, name=name: run(name)) for name, work in [("long", 9), ("short", 3)]]
            list(in_lanes(tasks, 4, 90, most=most))
            self.assertEqual(weights, {"long": ours, "short": beside})

    def test_what_runs_counts_for_what_is_left_of_it(self):
        resp, zset, effect = Task("resp", [], 20, 1, None), Task("zset", [], 7, 1, None), Task("effect", ["resp", "zset"], 50, 1, None)
        beside = Lanes([resp, zset, effect], 4, 90, 4, clock=lambda: 20.0)
        beside.running["resp"] = Run(3, 1, leads=False, begun=0.0)
        self.assertFalse(beside.leads(zset))
        # as fast as these have gone, it has nearly ended
        beside.done, beside.took = 30, 25.0
        self.assertTrue(beside.leads(zset))

    def test_chains_of_nearly_one_length_lead_side_by_side(self):
        tasks = [Task(name, [], work, 1, None) for name, work in [("order", 100), ("map", 96), ("inline", 90)]]
        beside = Lanes(tasks, 4, 90, 4)
        beside.running["order"] = Run(4, 1, leads=True, begun=beside.clock())
        self.assertEqual([beside.leads(it) for it in tasks[1:]], [True, False])
        # each of the others is near enough to want a processor too
        self.assertEqual([beside.jobs_for(tasks[1], tasks[1:]), beside.jobs_for(tasks[2], tasks[2:])], [2, 4])

    def test_one_processor_takes_one_task_at_a_time(self):
        list(in_lanes(self.tasks(), 1, 90, most=4))
        self.assertEqual((self.most, set(self.jobs.values())), (1, {1}))

    def test_an_error_in_a_task_comes_out(self):
        def fails(_):
            raise SystemExit(2)

        with self.assertRaises(SystemExit):
            list(in_lanes([Task("map", [], 1, 1, fails)], 1, 1))


class Awaited(unittest.TestCase):
    """Tasks that wait for what is done elsewhere: each is let go by its name, and well or not."""

    def setUp(self):
        self.said, self.changed, self.begun, self.ended = {}, threading.Condition(), [], []

    def let_go(self, name, well=True):
        with self.changed:
            self.said[name] = well
            self.changed.notify_all()

    def waits(self, name):
        with self.changed:
            self.changed.wait_for(lambda: name in self.said, timeout=LONGEST)
            return self.said.get(name)

    def awaited(self, *names):
        return [Task(it, [], 0, 0, lambda jobs, it=it: self.waits(it), is_awaited=True) for it in names]

    def task(self, name, *after, work=1, memory=1):
        def run(_):
            self.begun.append(name)
            return True

        return Task(name, [*after], work, memory, run)

    def run_all(self, tasks, lanes, memory, releases):
        """Runs the tasks, and lets go what `releases` has under the name of each task that ends, and first what it has under an empty one."""

        def release(ended):
            for name, well in releases.get(ended, {}).items():
                self.let_go(name, well)

        release("")
        for task, _ in in_lanes(tasks, lanes, memory):
            self.ended.append(task.name)
            release(task.name)

    def test_what_is_awaited_takes_no_processor_and_no_memory(self):
        tasks = [*self.awaited("low", "high"), self.task("first", memory=9), self.task("edits of low", "low", memory=9)]
        self.run_all(tasks, 1, 9, {"first": {"low": True}, "edits of low": {"high": True}})
        self.assertEqual(self.ended, ["first", "low", "edits of low", "high"])

    def test_a_task_begins_once_all_are_let_go_that_it_waits_for(self):
        tasks = [*self.awaited("low", "middle", "high"), self.task("edits of high", "low", "high"), self.task("edits of middle", "low", "middle"), self.task("edits of low", "low")]
        self.run_all(tasks, 4, 9, {"": {"high": True}, "high": {"low": True}, "edits of high": {"middle": True}})
        self.assertEqual(self.ended[:2], ["high", "low"])
        self.assertEqual(set(self.begun[:2]), {"edits of high", "edits of low"})
        self.assertEqual(self.ended[-2:], ["middle", "edits of middle"])

    def test_of_those_let_go_at_once_the_longest_comes_first(self):
        tasks = [*self.awaited("low"), self.task("short", "low", work=2), self.task("long", "low", work=9), self.task("middle", "low", work=5)]
        self.run_all(tasks, 1, 9, {"": {"low": True}})
        self.assertEqual(self.begun, ["long", "middle", "short"])

    def test_what_is_let_go_badly_has_no_task_behind_it_run_and_the_others_go_on(self):
        tasks = [*self.awaited("low", "high"), self.task("edits of high", "low", "high"), self.task("edits of low", "low")]
        self.run_all(tasks, 2, 9, {"": {"high": False, "low": True}})
        self.assertEqual(self.begun, ["edits of low"])
        self.assertEqual(set(self.ended), {"low", "high", "edits of low"})

    def test_memory_is_asked_anew_as_each_ends(self):
        left = {"": 1, "low": 3, "high": 7}
        tasks = [*self.awaited("low", "high"), self.task("large", memory=5), self.task("middle", memory=3), self.task("small", memory=1)]
        self.run_all(tasks, 4, lambda: left[max(self.said, key=list(left).index, default="")], {"small": {"low": True}, "middle": {"high": True}})
        self.assertEqual(self.begun, ["small", "middle", "large"])

    def test_one_wants_more_memory_than_there_is_and_waits_until_nothing_is_awaited(self):
        tasks = [*self.awaited("low"), self.task("large", memory=5), self.task("small", memory=1)]
        self.run_all(tasks, 4, 2, {"small": {"low": True}})
        self.assertEqual(self.ended, ["small", "low", "large"])


class Lines(unittest.TestCase):
    """What is said on standard error."""

    def test_each_crate_has_a_line(self):
        moments = iter([100.0, 141.6, 352.0])
        progress = Progress(25, 8, lambda: next(moments))
        self.assertEqual(progress.begins(4), "building: 25 crates, 8 of them proved already, on 4 processors")
        self.assertEqual(progress.after("mr_effect"), "proved mr_effect, 9 of 25 crates, 42 s")
        self.assertEqual(progress.after("mr_data"), "proved mr_data, 10 of 25 crates, 4 min")

    def test_a_build_from_nothing_says_no_count(self):
        self.assertEqual(Progress(25, 0).begins(2), "building: 25 crates, on 2 processors")

    def test_a_first_build_names_what_is_there_sooner(self):
        said = Progress(25, 3).begins(2, is_first=True)
        self.assertEqual(said, "building: 25 crates, 3 of them proved already, on 2 processors; ./minired try WORDS.. runs the program unproved, in two or three minutes")

    def test_times(self):
        self.assertEqual([length_of(it) for it in (0, 59.4, 60, 119, 3661)], ["0 s", "59 s", "1 min", "1 min", "61 min"])

    def test_the_last_lines_of_a_log(self):
        self.assertEqual(last_lines("one\ntwo\nstatements std: modules loaded=21 checked=0\nthree\n", 2), "two\nthree")


class OfATinyProgram(unittest.TestCase):
    """Builds of a program that stands on two crates."""

    CRATES = {
        **tiny.PAIR,
        "crates.txt": "low:\nhigh: low\nminired: high\n",
        "crates/minired/src/main.rt": "//! A program that ends at once.\n#![tactic(auto)]\n\nfn main() {\n    let _two = high::two();\n}\n",
    }

    def setUp(self):
        room = tempfile.TemporaryDirectory()
        self.addCleanup(room.cleanup)
        self.root = room.name
        tiny.write(self.root, self.CRATES)
        shutil.copy(os.path.join(ROOT, "minired"), self.root)
        shutil.copytree(os.path.join(ROOT, "tools"), os.path.join(self.root, "tools"), ignore=shutil.ignore_patterns("__pycache__"))

    def start(self, **how):
        how = {"stdin": subprocess.DEVNULL, "stdout": subprocess.PIPE, "stderr": subprocess.PIPE, "text": True, **how}
        return subprocess.Popen([os.path.join(self.root, "minired")], start_new_session=True, **how)

    def build(self, **how):
        started = self.start(**how)
        out, err = started.communicate(timeout=LONGEST)
        self.assertEqual(out, "")
        return started.returncode, re.sub(r"\d+ (s|min)$", "TIME", err, flags=re.M).split("\n")[:-1]

    def test_each_crate_is_told_and_an_interrupted_build_goes_on(self):
        started = self.start()
        seen = [started.stderr.readline().rstrip() for _ in range(2)]
        os.killpg(started.pid, signal.SIGTERM)
        started.communicate()
        self.assertRegex(seen[0], r"^minired: building: 3 crates, on \d+ processors; \./minired try WORDS\.\. runs the program unproved, in two or three minutes$")
        self.assertRegex(seen[1], r"^minired: proved low, 1 of 3 crates, \d+ (s|min)$")
        status, lines = self.build()
        self.assertEqual(status, 0, lines)
        self.assertRegex(lines[0], r"^minired: building: 3 crates, [12] of them proved already, on \d+ processors; \./minired try ")
        self.assertEqual(lines[-1], "minired: proved minired, 3 of 3 crates, TIME")
        self.assertEqual(self.build(), (0, []))

    def test_a_first_build_keeps_no_proofs_and_goes_on_with_kept_ones(self):
        kept = os.path.join(self.root, "crates", "low", "out", "incremental")
        self.assertEqual(self.build()[0], 0)
        self.assertFalse(os.path.exists(kept))
        self.assertIn(" statements=trusted", self.said_of("high"))
        subprocess.run(["rt", "check"], cwd=os.path.join(self.root, "crates", "low"), stdin=subprocess.DEVNULL, capture_output=True, check=True)
        tiny.write(self.root, {"crates/low/src/lib.rt": self.CRATES["crates/low/src/lib.rt"] + "// one line more\n"})
        self.assertEqual(self.build()[0], 0)
        self.assertRegex(self.said_of("low"), r"crate low: modules loaded=[1-9]")

    def test_a_program_is_not_proved_again_where_only_the_times_of_its_sources_are_new(self):
        self.assertEqual(self.build()[0], 0)
        later = time.time() + 2
        os.utime(os.path.join(self.root, "crates", "low", "src", "lib.rt"), (later, later))
        time.sleep(2.1)
        status, lines = self.build()
        self.assertEqual((status, lines[1:]), (0, ["minired: proved minired, 3 of 3 crates, TIME"]))
        self.assertRegex(lines[0], r"^minired: building: 3 crates, 2 of them proved already, on \d+ processors$")
        self.assertEqual(self.said_of("minired"), "minired: nothing has changed since the program was proved and built\n")
        self.assertEqual(self.build(), (0, []))

    def said_of(self, name):
        """What the prover said of a crate, by the log of the last build."""
        with open(os.path.join(self.root, "out", "build.log"), encoding="utf-8") as log:
            return log.read().split(f"== {name}\n")[1].split("\n== ")[0]

    def test_without_the_kit_nothing_is_built(self):
        tools = os.path.join(self.root, "bin")
        os.mkdir(tools)
        os.symlink(sys.executable, os.path.join(tools, "python3"))
        status, lines = self.build(env={"PATH": f"{tools}:/usr/bin:/bin"})
        self.assertEqual((status, lines), (1, ["minired: cannot build the program: put the command rt of the Rattle kit on PATH"]))

    def test_a_failed_build_shows_the_last_lines_of_its_log(self):
        tiny.write(self.root, {"crates/low/src/lib.rt": self.CRATES["crates/low/src/lib.rt"].replace("    1\n", "    3\n")})
        status, lines = self.build()
        self.assertEqual(status, 1)
        self.assertIn("fn low::one: no proof: expected answers in ./proofs/one/Answers.antt; `search` did not prove `returns`", lines)
        log = os.path.join(self.root, "out", "build.log")
        self.assertEqual(lines[-1], f"minired: the build failed at low: the lines above are the last of it, and all are in {log}")
        self.assertTrue(os.path.isfile(log))


class Ladder:
    """A crate that stands on each of those before it, and counts how often it is asked for what it is worth."""

    def __init__(self, below):
        self.below, self.asked = below, 0

    @once_in_a_call
    def worth(self):
        self.asked += 1
        return 1 + sum(it.worth() for it in self.below)


class OnceInACall(unittest.TestCase):
    """What each crate asks of those below it, along each of the ways that lead to them."""

    def test_each_crate_is_asked_once_however_many_ways_lead_to_it(self):
        crates = []
        for _ in range(64):
            crates.append(Ladder(list(crates)))
        self.assertEqual(crates[-1].worth(), 1 << 63)
        self.assertEqual({it.asked for it in crates}, {1})

    def test_a_later_call_asks_anew(self):
        low = Ladder([])
        high = Ladder([low])
        self.assertEqual(high.worth(), 2)
        low.below = [Ladder([])]
        self.assertEqual((high.worth(), low.asked), (3, 2))

    def test_so_does_one_after_a_call_that_failed(self):
        low = Ladder([None])
        high = Ladder([low])
        with self.assertRaises(AttributeError):
            high.worth()
        low.below = []
        self.assertEqual(high.worth(), 2)

    def test_the_kits_crates_are_asked_so(self):
        top = Kit().crates(ROOT)[-1]
        names = [it.name for it in top.inner.below()]
        self.assertEqual(len(names), len(set(names)))
        self.assertEqual(set(names), {it.name for it in top.below})


class Fake:
    """A crate of a clone, which takes libraries in name only."""

    def __init__(self, root, name, below=(), proved=False):
        self.name, self.below, self.proved, self.taken = name, list(below), proved, []
        self.folder = os.path.join(root, "crates", name)

    def parts(self):
        return ["src"]

    def is_library(self):
        return self.name != "program"

    def is_proved(self):
        return self.proved

    def take_library(self, folder):
        self.taken.append(folder)


class Borrowing(unittest.TestCase):
    """Libraries of another clone's gate."""

    def setUp(self):
        self.rooms = [tempfile.TemporaryDirectory() for _ in range(2)]
        for room in self.rooms:
            self.addCleanup(room.cleanup)
        self.here, self.there = (it.name for it in self.rooms)

    def write(self, name, here, there):
        for root, text in ((self.here, here), (self.there, there)):
            folder = os.path.join(root, "crates", name, "src")
            os.makedirs(folder)
            with open(os.path.join(folder, "lib.rt"), "w", encoding="utf-8") as file:
                file.write(text)

    def test_only_what_is_proved_there_of_the_same_text_over_the_same_crates_is_taken(self):
        for name, here, there in (("map", "a", "a"), ("value", "b", "b"), ("glob", "c", "d"), ("effect", "e", "e"), ("node", "f", "f"), ("program", "g", "g")):
            self.write(name, here, there)
        low = Fake(self.here, "map", proved=True)
        value, other = Fake(self.here, "value", [low]), Fake(self.here, "glob")
        over, late = Fake(self.here, "effect", [value, other]), Fake(self.here, "node", [value])
        crates = [low, value, other, over, late, Fake(self.here, "program", [low])]
        self.assertEqual(borrowed(crates, self.there, {"map", "value", "glob", "effect", "program"}), ["map", "value"])
        self.assertEqual([it.taken for it in crates], [[], [os.path.join(self.there, "crates", "value")], [], [], [], []])

    def test_what_is_proved_is_read_from_what_rt_ci_says(self):
        log = os.path.join(self.here, "log")
        with open(log, "w", encoding="utf-8") as file:
            file.write("== map\nrt: map proved\nrt: value NOT PROVED\nrt: glob is kept: an earlier run proved the same files\n")
        self.assertEqual(proved_by(log), {"map", "glob"})


if __name__ == "__main__":
    unittest.main()
