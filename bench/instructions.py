"""Instructions a request of `./minired pipe`, and of redis-server where it is installed, by callgrind. They don't depend on the machine.

The runs are those of bench/bench.py, by words of their names. What is done before a run isn't counted, nor what the kernel does. What
redis-server does ten times a second is: a run of many requests tells less of it."""

import glob
import os
import re
import subprocess
import sys
import tempfile

from bench.bench import RUNS
from bench.servers import LAUNCHER, Minired, Redis, has_redis, is_chosen
from tests.support.program import PROGRAM

COUNT = re.compile(r"^totals: (\d+)$", re.MULTILINE)


def control(program, *words):
    """Has callgrind do something at once."""
    told = subprocess.run(["callgrind_control", *words, str(program.process.pid)], capture_output=True, text=True)
    if "OK." not in told.stdout:
        raise SystemExit(f"bench: callgrind_control {' '.join(words)}: {told.stdout}{told.stderr}")


def counted(start, room, first, ready, path, wanted):
    """Instructions that a program takes for requests, behind others."""
    out = os.path.join(room, "counts")
    program = start(("valgrind", "--quiet", "--tool=callgrind", "--instr-atstart=no", "--callgrind-out-file=" + out))
    try:
        program.run(first, ready)
        control(program, "-i", "on")
        program.run(path, wanted)
        control(program, "-d")
        with open(out + ".1") as told:
            return int(COUNT.search(told.read()).group(1))
    finally:
        program.stop()
        for left in glob.glob(out + "*"):
            os.remove(left)


def instructions(room, before, write, words):
    """How many requests, and instructions a request of both programs."""
    path, first = os.path.join(room, "requests"), os.path.join(room, "before")
    with open(first, "wb") as file:
        _, ready = before(file) if before else (0, 0)
    with open(path, "wb") as file:
        count, wanted = write(file)
    starts = [lambda under: Minired(*words, start=(*under, PROGRAM)), lambda under: Redis(room, start=under)]
    counts = [counted(start, room, first, ready, path, wanted) / count for start in starts[: 2 if has_redis() else 1]]
    return [f"{count:,}", *(f"{it:,.0f}" for it in counts), *["-"] * (2 - len(counts))]


def main(*chosen):
    # builds the program where it isn't built
    subprocess.run([LAUNCHER, "pipe"], stdin=subprocess.DEVNULL, check=True)
    print("{:<48}{:>12}{:>12}{:>12}".format("instructions a request", "requests", "minired", "redis"))
    with tempfile.TemporaryDirectory() as room:
        for name, before, write, *words in RUNS:
            if is_chosen(name, chosen):
                print("{:<48}{:>12}{:>12}{:>12}".format(name, *instructions(room, before, write, words)), flush=True)


if __name__ == "__main__":
    main(*sys.argv[1:])
