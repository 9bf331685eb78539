"""What a request costs `./minired serve`, beside redis-server, both asked over TCP by Debian's redis-benchmark: `serving.py [--plot FILE] [WORD..]`.

Each run is made of both programs in turn, with 50 clients that send 1, 16 or 64 requests before they read; told are, of ROUNDS runs, the
least of the server's own processor time a request, the system's part included, and the median of requests a second. To the former what else
the machine and its host do can only add, in single runs as much again; the latter is bound by the client too. One run is made beside links on which nothing comes. WORDs choose runs by words of their names. --plot draws what a
request costs Redis against minired, as an SVG."""

import contextlib
import csv
import os
import resource
import socket
import subprocess
import sys
import tempfile
import time

from bench.servers import KEYS, LAUNCHER, ROUNDS, has_redis, is_chosen, least, medians, used_by

# SPOP and ZPOPMIN aren't among them: each run begins with an empty dataset, in which they find nothing
TESTS = ("ping_mbulk", "set", "get", "incr", "lpush", "lpop", "sadd", "hset", "zadd")
# what redis-benchmark has no name for: a SET whose text is another each time, since one of the text that is there is no write in minired
WORDS = {"set another text": ("SET", "key:__rand_int__", "__rand_int__")}
# what is run first, so that there is something to be found
BEFORE = {"get": "set", "lpop": "lpush", "set another text": "set another text"}
# how many requests a client sends before it reads, and how many are sent in a run
PIPELINES = {1: 60_000, 16: 500_000, 64: 1_000_000}
CLIENTS = 50
# links on which nothing comes, and how many requests are sent beside them
IDLE, BESIDE_IDLE = 10_000, 20_000
ALWAYS = ("--appendonly", "yes", "--appendfsync", "always", "--auto-aof-rewrite-percentage", "0")
WIDTH, ROW, LEFT = 720, 22, 250


def free_port():
    with socket.socket() as it:
        it.bind(("127.0.0.1", 0))
        return it.getsockname()[1]


class Server:
    """A server on a port of its own."""

    def __init__(self, words):
        self.port = free_port()
        self.process = subprocess.Popen([it.format(port=self.port) for it in words], stdout=subprocess.DEVNULL)
        while not self.answers():
            if self.process.poll() is not None:
                raise SystemExit(f"bench: {words[0]} does not start")
            time.sleep(0.02)

    def answers(self):
        try:
            with socket.create_connection(("127.0.0.1", self.port), 1) as it:
                it.sendall(b"PING\r\n")
                return it.recv(16) == b"+PONG\r\n"
        except OSError:
            return False

    def clear(self):
        """Takes out all that it holds: a run on what an earlier one left puts less into it."""
        with socket.create_connection(("127.0.0.1", self.port)) as it:
            it.sendall(b"FLUSHALL\r\n")
            if it.recv(16) != b"+OK\r\n":
                raise SystemExit("bench: FLUSHALL is not answered OK")

    def run(self, asked, pipeline, count, keys):
        """Nanoseconds of the server's processor time a request, and requests a second."""
        of_keys = ["-r", str(keys)] if keys > 1 else []
        words = ["redis-benchmark", "-p", str(self.port), "-c", str(CLIENTS), "-n", str(count), "-P", str(pipeline), *of_keys, "--csv", *asked]
        before = used_by(self.process.pid)
        ran = subprocess.run(words, capture_output=True, text=True, check=True)
        used = used_by(self.process.pid) - before
        row = list(csv.reader(ran.stdout.splitlines()))[-1]
        return used / count, float(row[1])

    def stop(self):
        self.process.terminate()
        self.process.wait()


def servers(room, is_kept):
    """Both servers, with an empty dataset, and where it is kept with a file that is synced before each reply."""
    minired = [LAUNCHER, "serve", "--port", "{port}"]
    redis = ["redis-server", "--port", "{port}", "--save", "", "--dir", room, "--maxclients", str(2 * IDLE)]
    if is_kept:
        minired += ["--aof", os.path.join(room, "minired.aof")]
        redis += ALWAYS
    return Server(minired), Server(redis)


@contextlib.contextmanager
def idle_links(server, count):
    """So many links to a server on which nothing comes, all of them accepted."""
    with contextlib.ExitStack() as links:
        for at in range(count):
            it = links.enter_context(socket.create_connection(("127.0.0.1", server.port)))
            if at % 64 == 63 or at == count - 1:
                it.sendall(b"PING\r\n")
                it.recv(16)
        yield


def asked(test):
    """What redis-benchmark is told to ask."""
    return WORDS.get(test, ("-t", test))


def run_beside(server, idle, test, pipeline, count, keys):
    """What a run on a server takes whose dataset is empty at first, beside so many idle links."""
    server.clear()
    with idle_links(server, idle):
        if test in BEFORE:
            server.run(asked(BEFORE[test]), 64, count, keys)
        return server.run(asked(test), pipeline, count, keys)


def runs(chosen):
    """The name of each run, and what is run: also beside how many idle links."""
    if is_chosen(name := f"SET, P 1, one key, beside {IDLE:,} idle links", chosen):
        yield name, False, "set", 1, BESIDE_IDLE, 1, IDLE
    for is_kept, keys in ((False, 1), (False, KEYS), (True, 1)):
        for pipeline, count in PIPELINES.items():
            # its random scores have leading zeros, which minired refuses
            tests = [*WORDS, *(it for it in TESTS if it != "zadd")] if keys > 1 else TESTS
            for test in ("set", "incr") if is_kept else tests:
                # without random keys a member is the same each time, and a list or set of many is told by one key
                where = "synced file" if is_kept else "one key" if keys == 1 else "random keys"
                name = f"{test.split('_')[0].upper()}, P {pipeline}, {where}"
                if is_chosen(name, chosen):
                    yield name, is_kept, test, pipeline, count // 10 if is_kept else count, keys, 0


def measure(chosen):
    """Yields the name of each run, and what minired and Redis take, and how many requests a second they answer."""
    for name, is_kept, test, pipeline, count, keys, idle in runs(chosen):
        with tempfile.TemporaryDirectory() as room:
            both = servers(room, is_kept)
            found = [[run_beside(it, idle, test, pipeline, count, keys) for it in both] for _ in range(ROUNDS)]
            for it in both:
                it.stop()
        ours, theirs = ([it[at] for it in found] for at in (0, 1))
        yield name, *((least(it)[0], medians(it)[1]) for it in (ours, theirs))


def drawn(rows):
    """A bar for each run, as long as what a request costs Redis against minired: past the line at 1 minired takes less."""
    scale = (WIDTH - LEFT - 60) / max(2.0, *(ratio for _, ratio in rows))
    lines = [f'<svg xmlns="http://www.w3.org/2000/svg" width="{WIDTH}" height="{ROW * (len(rows) + 2)}" font-family="sans-serif" font-size="12">']
    lines.append(f'<text x="{LEFT}" y="14">processor time a request, Redis against minired (longer: minired takes less)</text>')
    for at, (name, ratio) in enumerate(rows):
        top = ROW * (at + 1)
        colour = "#2b7a3d" if ratio >= 1 else "#b3462e"
        lines.append(f'<text x="{LEFT - 8}" y="{top + 14}" text-anchor="end">{name}</text>')
        lines.append(f'<rect x="{LEFT}" y="{top + 3}" width="{ratio * scale:.0f}" height="{ROW - 7}" fill="{colour}"/>')
        lines.append(f'<text x="{LEFT + ratio * scale + 6:.0f}" y="{top + 14}">{ratio:.2f}</text>')
    bottom = ROW * (len(rows) + 1) + 4
    lines.append(f'<line x1="{LEFT + scale:.0f}" y1="{ROW}" x2="{LEFT + scale:.0f}" y2="{bottom}" stroke="black" stroke-dasharray="3 3"/>')
    return "\n".join([*lines, "</svg>", ""])


def main(words):
    if not has_redis():
        raise SystemExit("bench: redis-server and redis-benchmark are not installed, so there is nothing to measure beside")
    resource.setrlimit(resource.RLIMIT_NOFILE, [resource.getrlimit(resource.RLIMIT_NOFILE)[1]] * 2)
    plot = words[1] if words[:1] == ["--plot"] else None
    rows = []
    print("| Run | minired, ns a request | Redis | times | minired, requests/s | Redis |\n|---|---|---|---|---|---|")
    for name, ours, theirs in measure(words[2:] if plot else words):
        rows.append((name, theirs[0] / ours[0]))
        print(f"| {name} | {ours[0]:,.0f} | {theirs[0]:,.0f} | {rows[-1][1]:.2f} | {ours[1]:,.0f} | {theirs[1]:,.0f} |", flush=True)
    if plot:
        with open(plot, "w", encoding="utf-8") as file:
            file.write(drawn(rows))


if __name__ == "__main__":
    main(sys.argv[1:])
