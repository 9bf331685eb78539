"""What replicas cost `./minired serve`, beside redis-server with as many, on loopback and without files: `replicating.py [WORD..]`.

SETs come from Debian's redis-benchmark, as in bench/serving.py, but of random keys to random values (`SET key:__rand_int__ __rand_int__`, both of 12
digits, out of KEYS, all of which are there before): what is the same is no write in minired, and is sent to nobody. Told is the processor time a request
of the master and of a replica, the system's part included, until all are in step, and requests a second.

A whole copy is of a million keys of 16 bytes with values of 3, from REPLICAOF until the replica shows its master's id and offset; meanwhile a client of each
end sends a GET a millisecond after each reply. Behind a part the link is cut by a REPLICAOF to a port that says nothing, and a MiB is written. For
the promotion the master is killed; one of two replicas is sent REPLICAOF NO ONE with a SET behind it, and the other REPLICAOF to that one. Both go on by a
part, else the bench ends: that is told by a replica's backlog, which then begins where it began. All on one dataset.

The most memory that a replica of minired has is told where all but the last byte of such a copy is read, and where that byte has come: the bench plays its master.

Each is made ROUNDS times, of both programs in turn; told is the least, of requests a second the median. WORDs choose runs by words of their names."""

import contextlib
import csv
import fcntl
import socket
import struct
import subprocess
import sys
import termios
import threading
import time

from bench.nodes import OK, RARELY, RedisNode, are_in_step, build, fill, running, team, wait
from bench.servers import KEYS as COPIED
from bench.servers import MIB, OTHER, ROUNDS, VALUE, has_redis, is_chosen, key, least, medians, peak_of, request, used_by, used_by_children
from tests.support.handshake import announces
from tests.support.replicas import Fake, Node, Played
from tests.support.server import HOST, LATE

KINDS = {"minired": Node, "Redis": RedisNode}
# of so many keys some are set to others of so many values
KEYS = 100_000
REPLICAS = (0, 1, 3)
# how many requests a client sends before it reads, and how many are sent in a run
PIPELINES = {1: 60_000, 16: 500_000, 64: 1_000_000}
CLIENTS = 50
RANDOM = ("SET", "key:__rand_int__", "__rand_int__")
# a part of a MiB isn't all that a backlog of so many bytes has
BACKLOG = 4 * MIB
# how long a client that watches sleeps between a reply and its next request, in seconds
PAUSE = 0.001
MS = 1e3
SCENE = "of a million keys: a copy, a part, a promotion"
PEAKS = "peak of a replica that is sent a million keys, in MiB"


def asked(master, replicas, pipeline, count):
    """Nanoseconds of processor time that a SET takes of the master and of a replica, and SETs a second."""
    nodes = [master, *replicas]
    words = ["redis-benchmark", "-p", master.port, "-c", CLIENTS, "-n", count, "-P", pipeline, "-r", KEYS, "--csv", *RANDOM]
    before = [used_by(it.pid) for it in nodes]
    ran = subprocess.run(list(map(str, words)), capture_output=True, text=True, check=True)
    wait(lambda: are_in_step(*nodes), RARELY)
    used = [(used_by(it.pid) - was) / count for it, was in zip(nodes, before)]
    rate = float(list(csv.reader(ran.stdout.splitlines()))[-1][1])
    return used[0], sum(used[1:]) / max(1, len(replicas)), rate


def writes(chosen):
    """The name of each run of SETs, and what is told of it for both servers."""
    for replicas in REPLICAS:
        for pipeline, count in PIPELINES.items():
            name = f"SET, P {pipeline}, {replicas} replicas"
            if not is_chosen(name, chosen):
                continue
            with contextlib.ExitStack() as stack:
                teams = [stack.enter_context(team(kind, kind, replicas)) for kind in KINDS.values()]
                for master, others in teams:
                    fill(master, KEYS, b"%012d" % KEYS)
                    wait(lambda: are_in_step(master, *others))
                rounds = [[asked(*it, pipeline, count) for it in teams] for _ in range(ROUNDS)]
            cells = []
            for runs in zip(*rounds):
                of_master, of_replica, _ = least(runs)
                cells += [f"{of_master:,.0f}", f"{of_replica:,.0f}" if replicas else "-", f"{medians(runs)[2]:,.0f}"]
            yield [name, *cells]


class Watcher(threading.Thread):
    """A client that sends a GET a millisecond after each reply: its longest wait for one, and how long it was told that the node loads."""

    def __init__(self, node):
        super().__init__(daemon=True)
        self.link, self.longest, self.loading, self.is_over = node.client(), 0.0, 0.0, False
        self.start()

    def run(self):
        before = time.monotonic()
        while not self.is_over:
            time.sleep(PAUSE)
            asked = time.monotonic()
            reply = self.link.asks(b"GET", key(0))
            now = time.monotonic()
            self.longest = max(self.longest, now - asked)
            if reply.startswith(b"-LOADING"):
                self.loading += now - before
            before = now

    def ended(self):
        self.is_over = True
        self.join()
        self.link.close()
        return self


def field(node, name):
    """A number that redis-server tells of how it keeps things, or 0 where a node tells no such thing."""
    told = [line.partition(b":")[2] for line in node.asks("INFO", "persistence").split(b"\r\n") if line.startswith(name + b":")]
    return int(told[0]) if told else 0


def copied(master, replica):
    """What a whole copy takes, and each end at most has in memory, beside clients that ask."""
    ends = (master, replica)
    watchers = [Watcher(it) for it in ends]
    held, used = peak_of(master.pid), [used_by(it.pid) for it in ends]
    began = time.monotonic()
    followed(replica, master)
    took = time.monotonic() - began
    used = [(used_by(it.pid) - was) / 1e9 for it, was in zip(ends, used)]
    at_master, at_replica = (it.ended() for it in watchers)
    # a process of its own may have written the copy: what that took is told once it was waited for
    wait(lambda: not field(master, b"rdb_bgsave_in_progress"))
    return {
        "copy: all of it, ms": took * MS,
        "copy: processor time of the master, ms": used[0] * MS,
        "copy: processor time of a process beside it, ms": used_by_children(master.pid) / 1e9 * MS,
        "copy: processor time of the replica, ms": used[1] * MS,
        "copy: longest wait of the master's client, ms": at_master.longest * MS,
        "copy: longest wait of the replica's client, ms": at_replica.longest * MS,
        "copy: its reads refused for, ms": at_replica.loading * MS,
        "copy: peak of the master before, MiB": held / MIB,
        "copy: peak of the master, MiB": peak_of(master.pid) / MIB,
        "copy: own memory of a process beside it, MiB": field(master, b"rdb_last_cow_size") / MIB,
        "copy: peak of the replica, MiB": peak_of(replica.pid) / MIB,
    }


def followed(replica, master, *others):
    """The replica is told to follow the master, and comes to be in step."""
    if not replica.follow(master.port):
        raise SystemExit("bench: REPLICAOF was refused")
    wait(lambda: are_in_step(master, replica, *others))


def has_same_backlog(replica, before):
    """Whether the replica was given a part: a whole copy leaves nothing in its backlog."""
    return replica.said().first == before.first


def continued(master, replica):
    """What a part of a MiB takes, behind a cut."""
    before = replica.said()
    with socket.create_server((HOST, 0)) as silent:
        replica.follow(silent.getsockname()[1])
        wait(lambda: master.said().followers == 0)
        size = fill(master, MIB // len(request(b"SET", key(0), OTHER)) + 1, OTHER)
        used, began = [used_by(it.pid) for it in (master, replica)], time.monotonic()
        followed(replica, master)
    took = time.monotonic() - began
    used = [(used_by(it.pid) - was) / 1e9 for it, was in zip((master, replica), used)]
    if size < MIB or not has_same_backlog(replica, before):
        raise SystemExit("bench: the replica was not given a part of a MiB")
    return {
        "part: all of it, ms": took * MS,
        "part: processor time of the master, ms": used[0] * MS,
        "part: processor time of the replica, ms": used[1] * MS,
    }


def failed_over(master, promoted, other):
    """How long it takes until the first write is answered behind a promotion, and until the other replica is in step with the promoted one."""
    before = other.said()
    master.process.kill()
    master.process.wait()
    began = time.monotonic()
    promoted.asked.send(request(b"REPLICAOF", b"NO", b"ONE") + request(b"SET", key(0), VALUE))
    replies = promoted.asked.receive(2 * len(OK))
    wrote = time.monotonic()
    if replies != 2 * OK:
        raise SystemExit(f"bench: a promotion was answered {replies}")
    followed(other, promoted)
    took = time.monotonic() - wrote
    if not has_same_backlog(other, before):
        raise SystemExit("bench: the other replica was given a whole copy")
    return {"promotion: first write answered, ms": (wrote - began) * MS, "promotion: then the other replica in step, ms": took * MS}


def scene(kind):
    """A whole copy, a part and a promotion, on a million keys."""
    with running(*[lambda: kind(backlog=BACKLOG)] * 3) as (master, first, second):
        fill(master, COPIED, VALUE)
        found = copied(master, first) | continued(master, first)
        followed(second, master, first)
        return found | failed_over(master, first, second)


def is_taken(link, node):
    """Whether the node has read all that was sent to it on this link."""
    unsent = struct.unpack("i", fcntl.ioctl(link, termios.TIOCOUTQ, bytes(4)))[0]
    ends = [":%04X" % it for it in (link.getpeername()[1], link.getsockname()[1])]
    with open(f"/proc/{node.pid}/net/tcp") as sockets:
        unread = [fields[4] for fields in map(str.split, sockets) if [it[-5:] for it in fields[1:3]] == ends]
    return unsent == 0 and [it.partition(":")[2] for it in unread] == ["00000000"]


def peaks():
    """The most memory of a replica before a whole copy comes, up to its last byte, and behind it."""
    texts = b"".join(request(b"SET", key(at), VALUE) for at in range(COPIED))
    master = Played(announces("a", len(texts), texts)[:-1])

    def serve(link):
        link.settimeout(LATE)
        master(link)

    peer = Fake(serve)
    with running(Node) as (replica,):
        found = [peak_of(replica.pid)]
        replica.follow(peer.port)
        # a reply comes behind what the turn before it has read
        wait(lambda: master.links and is_taken(master.links[0], replica))
        replica.said()
        found.append(peak_of(replica.pid))
        master.says(texts[-1:])
        wait(lambda: replica.said().shows == ("a" * 40, len(texts)))
        found.append(peak_of(replica.pid))
    peer.close()
    return found


def table(heads, rows):
    print("| " + " | ".join(heads) + " |\n" + "|---" * len(heads) + "|")
    for cells in rows:
        print("| " + " | ".join(cells) + " |", flush=True)


def main(words):
    if not has_redis():
        raise SystemExit("bench: redis-server and redis-benchmark are not installed, so there is nothing to measure beside")
    build()
    heads = ["ns a request of the master", "of a replica", "requests/s"]
    table(["Run", *(f"{kind}: {head}" for kind in KINDS for head in heads)], writes(words))
    if is_chosen(SCENE, words):
        rounds = [[scene(kind) for kind in KINDS.values()] for _ in range(ROUNDS)]
        table([SCENE, *KINDS], ([name, *(f"{min(found[name] for found in of_kind):,.1f}" for of_kind in zip(*rounds))] for name in rounds[0][0]))
    if is_chosen(PEAKS, words):
        rows = zip(("before the copy", "up to its last byte", "behind it"), least([peaks() for _ in range(ROUNDS)]))
        table([PEAKS, "minired"], ([name, f"{found / MIB:,.0f}"] for name, found in rows))


if __name__ == "__main__":
    main(sys.argv[1:])
