"""Instructions of a master's process a request, with no replica and with three, and of PSYNC, by callgrind: `fanout.py [WORD..]`.

What the kernel does isn't counted, and the replicas run beside it. A SET sets one key to two values in turn. PSYNC comes from a client that gives the
master's id and an offset so many bytes before the master's, is answered CONTINUE with these, and closes the link; the backlog of so many bytes is full. What
redis-server does ten times a second, and its replicas' acknowledgements, are counted in. WORDs choose runs by words of their names."""

import os
import sys
import tempfile

from bench.instructions import COUNT, control
from bench.nodes import OK, RedisNode, are_in_step, build, team, wait
from bench.servers import MIB, has_redis, is_chosen, key, request
from tests.support.program import PROGRAM
from tests.support.replicas import Node

CALLGRIND = ("valgrind", "--quiet", "--tool=callgrind", "--instr-atstart=no")
REPLICAS = (0, 3)
SHORT, LONG = 3, 10_240
# more than the most that is asked for: a heartbeat may come behind it
BACKLOGS = (2 * MIB, 64 * MIB)
# so many bytes fill a backlog, a request at a time
FILLS = 8 * MIB
ASKED = 20


class Counted:
    """A node under callgrind, put before its class: it counts where it is told to."""

    program = PROGRAM

    def __init__(self, **how):
        self.counts, self.counted = tempfile.TemporaryDirectory(), 0
        super().__init__(**how)

    def words(self, *given):
        # a process that it starts counts too, and has a file of its own
        return [*CALLGRIND, "--callgrind-out-file=" + os.path.join(self.counts.name, "%p"), *super().words(*given)]

    def count(self, run):
        """How many instructions it takes while this runs."""
        control(self, "-i", "on")
        run()
        control(self, "-d")
        control(self, "-i", "off")
        self.counted += 1
        with open(os.path.join(self.counts.name, f"{self.pid}.{self.counted}")) as told:
            return int(COUNT.search(told.read()).group(1))

    def stop(self):
        super().stop()
        self.counts.cleanup()


class CountedMinired(Counted, Node):
    pass


class CountedRedis(Counted, RedisNode):
    pass


KINDS = {"minired": (CountedMinired, Node), "Redis": (CountedRedis, RedisNode)}


def ask(node, texts, replies, together):
    """Requests, of which so many are sent together, with replies that are all the same."""
    for first in range(0, len(texts), together):
        part = texts[first : first + together]
        node.asked.send(b"".join(part))
        if node.asked.receive(len(replies) * len(part)) != replies * len(part):
            raise SystemExit("bench: a request was answered otherwise")


def set_to(size):
    """SETs to two values of so many bytes in turn."""
    return [request(b"SET", key(0), it * size) for it in (b"x", b"y")], OK


def get_of(size):
    value = b"y" * size
    return [request(b"GET", key(0))] * 2, b"$%d\r\n%s\r\n" % (size, value)


# what is asked about a value of so many bytes, two requests in turn; how many requests, and how many of them together
RUNS = [
    ("SET of 3 bytes, one by one", set_to, SHORT, 1_000, 1),
    ("GET of 3 bytes, one by one", get_of, SHORT, 1_000, 1),
    ("SET of 3 bytes, 50 at once", set_to, SHORT, 5_000, 50),
    ("GET of 3 bytes, 50 at once", get_of, SHORT, 5_000, 50),
    ("SET of 10 KiB, one by one", set_to, LONG, 500, 1),
    ("SET of 10 KiB, 50 at once", set_to, LONG, 1_000, 50),
]


def requested(kind, replicas, chosen):
    """Instructions a request, of each run."""
    found = {}
    with team(*KINDS[kind], replicas) as (master, others):
        for name, asked, size, count, together in RUNS:
            if not is_chosen(name, chosen):
                continue
            # the key is there, and what a first request makes
            ask(master, *set_to(size), 1)
            texts, reply = asked(size)
            ask(master, texts, reply, 1)
            found[name] = master.count(lambda: ask(master, count // 2 * texts, reply, together)) / count
            wait(lambda: are_in_step(master, *others))
    return found


def asks_part(master, tail):
    """PSYNC for the last so many bytes of the stream, and its answer."""
    said = master.said()

    def run():
        for _ in range(ASKED):
            with master.client() as link:
                link.send(request(b"PSYNC", said.id.encode(), b"%d" % (said.offset - tail + 1)))
                if not link.receive(len("+CONTINUE")).startswith(b"+CONTINUE") or not link.line(0):
                    raise SystemExit("bench: PSYNC was not answered CONTINUE")
                link.taken(link.line(0))
                if len(link.receive(tail)) != tail:
                    raise SystemExit("bench: PSYNC was not answered the tail")

    return run


def continued(kind, chosen):
    """Instructions a PSYNC, by the backlog and how much of it is asked for."""
    found = {}
    for backlog in BACKLOGS:
        names = {f"PSYNC for {tail:,} bytes, of a backlog of {backlog // MIB} MiB": tail for tail in (LONG, MIB)}
        if not any(is_chosen(name, chosen) for name in names):
            continue
        with team(*KINDS[kind], 0, backlog=backlog) as (master, _):
            # redis-server has no backlog before its first replica
            first = master.client()
            first.send(request(b"PSYNC", b"?", b"-1"))
            wait(lambda: master.said().followers == 1)
            first.close()
            for at in range(backlog // FILLS + 2):
                ask(master, [request(b"SET", key(0), b"%d" % at * FILLS)], OK, 1)
            for name, tail in names.items():
                found[name] = master.count(asks_part(master, tail)) / ASKED
    return found


def table(heads, columns):
    """A row for each name that all columns have."""
    if columns[0]:
        print("| " + " | ".join(["Instructions", *heads]) + " |\n" + "|---" * (1 + len(heads)) + "|")
    for name in columns[0]:
        print(f"| {name} | " + " | ".join(f"{it[name]:,.0f}" for it in columns) + " |", flush=True)


def main(words):
    build()
    kinds = list(KINDS)[: 2 if has_redis() else 1]
    if any(is_chosen(name, words) for name, *_ in RUNS):
        heads = [(kind, it) for kind in kinds for it in REPLICAS]
        table([f"{kind}, {it} replicas" for kind, it in heads], [requested(*it, words) for it in heads])
    table(kinds, [continued(kind, words) for kind in kinds])


if __name__ == "__main__":
    main(sys.argv[1:])
