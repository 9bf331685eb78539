"""Instructions a request of `./minired serve`, beside redis-server, both asked over TCP by Debian's redis-benchmark, by callgrind: `counted.py [WORD..]`.

They hardly depend on the machine, but what the kernel does isn't counted, nor how long memory is waited for. 50 clients send 64 requests before
they read. What redis-server does ten times a second is counted too, so that its last digits differ. WORDs choose runs by words of their names."""

import glob
import os
import subprocess
import sys
import tempfile
from typing import NamedTuple

from bench.fanout import CALLGRIND
from bench.instructions import COUNT, control
from bench.servers import LAUNCHER, has_redis, is_chosen
from bench.serving import Server
from tests.support.program import PROGRAM

PIPELINE = 64
# so many names are there, or are drawn from so many that hardly one is there
THERE, NEW = 100_000, 2 * 10**9
# so many requests of random names name all that are to be there but some five
NAMING_ALL = 10 * THERE
COUNTED = 40_000
KEY, NUMBER = "key:__rand_int__", "__rand_int__"


class Run(NamedTuple):
    """A request that is made of so many names, by redis-benchmark's words, and what is made before: the same, if nothing else is said."""

    name: str
    asked: tuple
    names: int = 1
    before: tuple = ()


RUNS = [
    Run("PING", ("-t", "ping_mbulk")),
    Run("SET of the text that is there", ("-t", "set")),
    Run("GET", ("-t", "get"), before=("-t", "set")),
    Run("INCR", ("-t", "incr")),
    Run("LPUSH", ("-t", "lpush")),
    Run("RPUSH", ("-t", "rpush")),
    Run("LPOP", ("-t", "lpop"), before=("-t", "lpush")),
    Run("SET of another text, random keys that are there", ("SET", KEY, NUMBER), THERE),
    Run("GET, random keys that are there", ("-t", "get"), THERE, ("SET", KEY, NUMBER)),
    Run("INCR, random keys that are there", ("-t", "incr"), THERE),
    Run("HSET of another value, random fields that are there", ("HSET", "hash", KEY, NUMBER), THERE),
    Run("SET of new keys", ("-t", "set"), NEW),
    Run("INCR of new keys", ("-t", "incr"), NEW),
    Run("SADD of new members", ("-t", "sadd"), NEW),
    Run("HSET of new fields", ("-t", "hset"), NEW),
    Run("ZADD of new members", ("ZADD", "sorted", "7", KEY), NEW),
]


def counted(words, run, room):
    """Instructions a request that a program takes, behind what is made before."""
    out = os.path.join(room, "counts")
    server = Server([*CALLGRIND, "--callgrind-out-file=" + out, *words])
    try:
        server.run(run.before or run.asked, PIPELINE, NAMING_ALL if run.names == THERE else THERE, run.names)
        control(server, "-i", "on")
        server.run(run.asked, PIPELINE, COUNTED, run.names)
        control(server, "-d")
        with open(out + ".1") as told:
            return int(COUNT.search(told.read()).group(1)) / COUNTED
    finally:
        server.stop()
        for left in glob.glob(out + "*"):
            os.remove(left)


def main(chosen):
    # builds the program where it isn't built
    subprocess.run([LAUNCHER, "pipe"], stdin=subprocess.DEVNULL, check=True)
    print("| Request | minired | Redis | times |\n|---|---|---|---|")
    for run in RUNS:
        if not is_chosen(run.name, chosen):
            continue
        with tempfile.TemporaryDirectory() as room:
            programs = [(PROGRAM, "serve", "--port", "{port}"), ("redis-server", "--port", "{port}", "--save", "", "--dir", room)]
            counts = [counted(it, run, room) for it in programs[: 2 if has_redis() else 1]]
        theirs = [f"{it:,.0f} | {it / counts[0]:.2f}" for it in counts[1:]] or ["- | -"]
        print(f"| {run.name} | {counts[0]:,.0f} | {theirs[0]} |", flush=True)


if __name__ == "__main__":
    main(sys.argv[1:])
