"""Masters and replicas of both servers for the benches, on loopback and without files: how they are started, filled, and come to be in step."""

import contextlib
import subprocess
import tempfile
import time

from bench.servers import LAUNCHER, key, request
from tests.support.replicas import Node
from tests.support.server import LATE, RedisServer

OK = b"+OK\r\n"
# so many requests of a client that fills a node are sent together
TOGETHER = 10_000
# how long a bench sleeps between two looks, in seconds; and where looks would cost what it measures
A_LOOK, RARELY = 0.0005, 0.01


class RedisNode(RedisServer, Node):
    """redis-server that may begin as a replica. As a master it begins a copy at once, and not five seconds later, as is usual."""

    def __init__(self, **how):
        # a replica puts a copy that comes there before it loads it
        self.folder = tempfile.TemporaryDirectory()
        super().__init__(**how)

    def words(self, aof, sync, turns):
        words = super().words(aof, sync, turns) + ["--dir", self.folder.name, "--repl-diskless-sync-delay", "0"]
        if self.given["--replicaof"]:
            words += ["--replicaof", *self.given["--replicaof"].split(":")]
        if self.given["--backlog"]:
            words += ["--repl-backlog-size", str(self.given["--backlog"])]
        return words

    def stop(self):
        super().stop()
        self.folder.cleanup()


def build():
    """Builds the program where it isn't built, or a source is newer."""
    subprocess.run([LAUNCHER, "pipe"], stdin=subprocess.DEVNULL, check=True)


@contextlib.contextmanager
def running(*starts):
    """Nodes, each made by one of these, until the block ends."""
    with contextlib.ExitStack() as stack:
        nodes = []
        for start in starts:
            nodes.append(start())
            stack.callback(nodes[-1].stop)
        yield nodes


@contextlib.contextmanager
def team(of_master, of_replica, count, **how):
    """A master and so many replicas, made by these, in step, until the block ends."""
    with running(lambda: of_master(**how)) as (master,), running(*[lambda: of_replica(follows=master.port, **how)] * count) as replicas:
        wait(lambda: are_in_step(master, *replicas))
        yield master, replicas


def wait(holds, pause=A_LOOK):
    """Waits until something comes to hold. It is looked at again and again."""
    late = time.monotonic() + LATE
    while not holds():
        if time.monotonic() > late:
            raise SystemExit("bench: what was waited for does not come")
        time.sleep(pause)


def are_in_step(master, *replicas):
    """Whether each replica shows its master's id and offset."""
    shown = master.said().shows
    return all(it.said().shows == shown for it in replicas)


def fill(node, count, value):
    """SETs of so many keys to a value, and how many bytes these requests have."""
    size = 0
    for first in range(0, count, TOGETHER):
        texts = [request(b"SET", key(at), value) for at in range(first, min(first + TOGETHER, count))]
        size += sum(map(len, texts))
        node.asked.send(b"".join(texts))
        replies = node.asked.receive(len(OK) * len(texts))
        if replies != OK * len(texts):
            raise SystemExit(f"bench: a SET was answered {replies[:100]}")
    return size
