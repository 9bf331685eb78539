"""Nodes and the links between them, asked by a script: `minired world`, beside the description's rows and a slow model of it."""

import os
import subprocess
import time
import unittest

from tests.models.world import World, answer
from tests.models.world_scripts import script
from tests.support.accept_rows import AcceptRows
from tests.support.program import LATE, LAUNCHER, PROGRAM, USUAL_BACKLOG, run, run_in_pieces
from tests.support.refusing import Refusing
from tests.support.world_rows import Rows, every_event, shown

# how long random scripts are played, in seconds, and how many lines each has
LONG = 20
LINES = 1000
TOO_LONG = b"x" * 65_537


def modelled(lines, backlog=USUAL_BACKLOG):
    """What the model answers these lines."""
    world = World(backlog)
    told = (answer(world, line) for line in lines)
    return [it for it in told if it is not None]


def joined(lines):
    return b"".join(line + b"\n" for line in lines)


def lines_of_every_event():
    return [line.encode() for line, _ in every_event().rows]


class WorldRows(Rows, AcceptRows, unittest.TestCase):
    def answers_to(self, script, backlog):
        ran = run(script.encode(), "world", "--backlog", str(backlog))
        self.assertEqual((ran.returncode, ran.stderr), (0, b""))
        return ran.stdout.decode().split("\n")[:-1]


class RandomScripts(unittest.TestCase):
    """Each answer is that of the model."""

    def test_random_scripts(self):
        seed, late = int(time.time()), time.monotonic() + LONG
        while time.monotonic() < late:
            asked = script(seed, LINES)
            ran = run(asked.script, "world", "--backlog", str(asked.backlog))
            self.assertEqual((ran.returncode, ran.stderr), (0, b""), f"seed {seed}")
            told = ran.stdout.split(b"\n")[:-1]
            for at, (got, wanted) in enumerate(zip(told, asked.answers)):
                self.assertEqual(got, wanted, f"seed {seed}, answer {at}")
            self.assertEqual(len(told), len(asked.answers), f"seed {seed}")
            seed += 1


class Lines(unittest.TestCase):
    def answers(self, data, wanted, *words):
        ran = run(data, "world", *words)
        self.assertEqual((ran.returncode, ran.stdout, ran.stderr), (0, wanted, b""))

    def test_a_line_without_its_end_is_none(self):
        self.answers(b"", b"")
        self.answers(b"start a", b"")
        self.answers(b"start a\nshow 0\nshow 0", b"node 0\n" + shown(0, "a", 0).encode() + b"\n")

    def test_a_line_that_is_too_long_is_a_bad_line(self):
        self.answers(b"start a\n" + TOO_LONG + b"\n" + TOO_LONG[1:] + b"\n" + b" " * 65_536 + b"\nclient 0\n", b"node 0\nbad line\nbad line\nlink 0\n")

    def test_what_is_not_there_is_refused_or_no_line(self):
        asked = b"start\nstart A\nstart a a\nwhat\n*1\n\n \t\nclient 0\nclient -1\nshow 0\ngot 0\n"
        self.answers(asked, b"bad line\n" * 5 + b"refused 2\nbad line\nrefused 2\nrefused 2\n")

    def test_each_answer_comes_before_the_next_read(self):
        lines = lines_of_every_event()
        ran = run_in_pieces([line + b"\n" for line in lines], "world")
        self.assertEqual((ran.returncode, ran.stdout, ran.stderr), (0, joined(modelled(lines)), b""))

    def test_however_the_script_is_cut(self):
        lines = lines_of_every_event()
        data = joined(lines)
        for size in (100, 1000, 7777):
            ran = run_in_pieces([data[at : at + size] for at in range(0, len(data), size)], "world")
            self.assertEqual((ran.returncode, ran.stdout), (0, joined(modelled(lines))))

    def test_a_backlog_within_its_limits(self):
        for words in (["--backlog"], ["--backlog", "0"], ["--backlog", "1073741825"], ["27"], ["--backlog", "27", "--backlog", "27"]):
            with self.subTest(words=words):
                ran = run(b"start a\n", "world", *words)
                self.assertEqual((ran.returncode, ran.stdout), (1, b""))


class Faults(unittest.TestCase):
    def fails(self, ran):
        self.assertEqual((ran.returncode, ran.stderr), (3, b"minired: file failed\n"))

    def test_an_output_that_cannot_be_written(self):
        with open("/dev/full", "wb") as full:
            self.fails(subprocess.run([LAUNCHER, "world"], input=b"start a\n", stdout=full, stderr=subprocess.PIPE, timeout=LATE))

    def test_an_input_that_cannot_be_read(self):
        with open(os.devnull, "wb") as unreadable:
            self.fails(subprocess.run([LAUNCHER, "world"], stdin=unreadable, capture_output=True, timeout=LATE))


class Memory(Refusing):
    def test_each_refusal_is_told(self):
        """The first answer that is another is that memory was lacking, or that a node stopped for want of it; or the script ends there."""
        lines, nodes = [], 0
        for line in lines_of_every_event():
            nodes += line.startswith((b"start", b"replica"))
            lines += [line, *(b"show %d" % node for node in range(nodes))]
        wanted = modelled(lines)

        def check(ran, was_refused):
            told = ran.stdout.split(b"\n")[:-1]
            others = [got for got, right in zip(told, wanted) if got != right]
            if others:
                self.assertTrue(others[0] == b"refused 4" or others[0].endswith(b" stopped"), others[0])
            if others or ran.returncode or told != wanted:
                self.assertTrue(was_refused)
            if ran.returncode:
                self.assertEqual((ran.returncode, ran.stderr), (3, b"minired: out of memory\n"))
            else:
                self.assertEqual((len(told), ran.stderr), (len(wanted), b""))

        self.assertGreater(self.each_refusal(joined(lines), check, PROGRAM, "world"), 100)
