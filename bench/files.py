"""What the append-only file costs `./minired pipe --aof`, beside redis-server with `appendfsync always`, where it is installed.

Both programs keep their files in one folder, on the disk that temporary files are on, and each run is made of both in turn; told are the
medians. One by one, a request is sent once the one before is answered; together, all are sent at once: redis-server then syncs
many texts at a time, and `pipe` each. A rewriting is timed from the request until the reply of `pipe`, which comes once the new file stands;
redis-server answers at once and has another process do it, the processor time of which is counted in, and notices its end ten times a second.
Loading is timed from the start until the first reply, less what an empty file takes."""

import os
import socket
import sys
import tempfile
import time

from bench.servers import KEYS, MIB, ROUNDS, VALUE, Minired, Redis, has_redis, is_chosen, medians, request, scrambled, used_by_children

OK = b"+OK\r\n"
REWRITE = request(b"BGREWRITEAOF")
STARTED = b"+Background append only file rewriting started\r\n"
ONE_BY_ONE, TOGETHER = 5_000, 20_000
# pairs of one effect: twice as many each time, up to the most that a request may have
PAIRS = (65_536, 131_072, 262_144, 524_287)
# never by itself, and as commands alone
ALWAYS = ["--appendonly", "yes", "--appendfsync", "always", "--auto-aof-rewrite-percentage", "0", "--aof-use-rdb-preamble", "no"]


def texts(count):
    """SETs of so many keys, of a million."""
    return [request(b"SET", scrambled(at), VALUE) for at in range(count)]


def members(count):
    """ZADDs of so many members with scores in no order."""
    return [request(b"ZADD", b"k", b"%d" % (at * 387_420_489 % count), scrambled(at)) for at in range(count)]


def one_effect(pairs):
    """One MSET of so many new keys, of 100 bytes with their values."""
    return [request(b"MSET", *(word for at in range(pairs) for word in (b"key:%012d" % at, 84 * b"v")))]


class OfMinired(Minired):
    def __init__(self, room):
        self.file = os.path.join(room, "minired.aof")
        super().__init__("--aof", self.file)

    @staticmethod
    def begins_with(room, data):
        with open(os.path.join(room, "minired.aof"), "wb") as file:
            file.write(data)

    def rewrites(self):
        before = self.used()
        self.ask(REWRITE, len(STARTED))
        return self.used() - before


class OfRedis(Redis):
    def __init__(self, room):
        super().__init__(room, *ALWAYS)
        while self.asked("PING") != "PONG":
            time.sleep(0.01)
        self.client = socket.socket(socket.AF_UNIX)
        self.client.connect(self.socket)

    @staticmethod
    def begins_with(room, data):
        with open(os.path.join(room, "appendonly.aof"), "wb") as file:
            file.write(data)

    def ask(self, data, size):
        self.client.sendall(data)
        reply = b""
        while len(reply) < size:
            reply += self.client.recv(size)
        return reply

    def rewrites(self):
        before = self.used() + used_by_children(self.process.pid)
        self.asked("BGREWRITEAOF")
        while "aof_rewrite_in_progress:0" not in self.asked("INFO", "persistence"):
            time.sleep(0.01)
        return self.used() + used_by_children(self.process.pid) - before

    def stop(self):
        self.client.close()
        super().stop()


def begun(kind, data, run):
    """What a run of a program says that begins with this file, in a folder of its own."""
    with tempfile.TemporaryDirectory() as room:
        kind.begins_with(room, data)
        began = time.monotonic()
        program = kind(room)
        try:
            return run(program, began)
        finally:
            program.stop()


def one_by_one(kind):
    """Nanoseconds of processor time a request, and requests a second."""

    def run(program, began):
        before, began = program.used(), time.monotonic()
        for text in texts(ONE_BY_ONE):
            program.ask(text, len(OK))
        return (program.used() - before) / ONE_BY_ONE, ONE_BY_ONE / (time.monotonic() - began)

    return begun(kind, b"", run)


def together(kind):
    """The same where all requests are sent at once."""

    def run(program, began):
        with tempfile.NamedTemporaryFile() as asked:
            asked.write(b"".join(texts(TOGETHER)))
            asked.flush()
            before, began = program.used(), time.monotonic()
            program.run(asked.name, TOGETHER * len(OK))
            return (program.used() - before) / TOGETHER, TOGETHER / (time.monotonic() - began)

    return begun(kind, b"", run)


def rewritten(kind):
    """Nanoseconds of processor time a key, and keys a second."""

    def run(program, began):
        began = time.monotonic()
        return program.rewrites() / KEYS, KEYS / (time.monotonic() - began)

    return begun(kind, b"".join(texts(KEYS)), run)


def loaded(made, count=KEYS):
    def runs(kind):
        """Nanoseconds of processor time for each of so many commands or pairs, MB a second of it, and MiB of peak memory."""

        def run(program, began):
            return program.used(), program.peak() / MIB

        data = b"".join(made(count))
        (start, _), (end, peak) = begun(kind, b"", run), begun(kind, data, run)
        return (end - start) / count, len(data) / (end - start) * 1e3, peak

    return runs


# what is measured, and what the figures of each program are
RUNS = [
    ("file: appends one by one", one_by_one, ("ns a request", "requests/s")),
    ("file: appends together", together, ("ns a request", "requests/s")),
    ("file: rewriting a million keys", rewritten, ("ns a key", "keys/s")),
    ("file: loading a million SETs", loaded(texts), ("ns a SET", "MB/s", "peak MiB")),
    ("file: loading a million ZADDs", loaded(members), ("ns a ZADD", "MB/s", "peak MiB")),
    *((f"file: loading an MSET of {pairs:,}", loaded(one_effect, pairs), ("ns a pair", "MB/s", "peak MiB")) for pairs in PAIRS),
]


def main(*chosen):
    kinds = [OfMinired, OfRedis][: 2 if has_redis() else 1]
    for name, run, units in RUNS:
        if not is_chosen(name, chosen):
            continue
        rounds = [[run(kind) for kind in kinds] for _ in range(ROUNDS)]
        told = [medians(runs) for runs in zip(*rounds)]
        for place, unit in enumerate(units):
            cells = [f"{figures[place]:,.0f}" for figures in told]
            print("{:<34}{:>14}{:>18}{:>18}".format(name if place == 0 else "", unit, *cells, *["-"] * (2 - len(cells))), flush=True)


if __name__ == "__main__":
    print("{:<34}{:>14}{:>18}{:>18}".format("", "", "minired", "redis"))
    main(*sys.argv[1:])
