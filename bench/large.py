"""What single requests on large collections cost `serve`, and what redis-server takes for them: the server's processor time, the system's part included.

`large.py [WORD..]` plays each once on both, where both are built and installed, and prints a row for each. It takes some two minutes. Large words and a large reply
have servers of their own: times are the least of ROUNDS rounds, and memory is the most that a server had, once. WORDs choose among what is played: collections, words, reply, rewriting."""

import os
import random
import sys
import tempfile
import time

from bench.servers import MIB, ROUNDS, is_chosen, least
from tests.support import server
from tests.support.program import request

MEMBERS, MANY, NEW = 100_000, 1_000_000, 300_000
# so many words of one request, so many requests that are sent together, and how long a reply may take, in seconds
WORDS, TOGETHER, LATE = 5000, 64, 600
# the file is written anew with so many keys
REWRITTEN = (1_000, 100_000, MANY)
# so many requests with words of a MiB, and a reply of so many words of so many bytes
LARGE, WORDS_OF_REPLY, WORD = 50, 1_000, 1_000_000


class Played:
    """A server with one client: what its requests cost, by their names."""

    def __init__(self, running):
        self.server, self.client, self.costs = running, running.client(), {}
        self.client.socket.settimeout(LATE)

    def load(self, requests, together=TOGETHER):
        for at in range(0, len(requests), together):
            part = requests[at : at + together]
            self.client.send(b"".join(part))
            for _ in part:
                reply = self.client.reply()
                if reply.startswith(b"-"):
                    raise SystemExit(f"bench: a request is refused: {reply.decode().strip()}")

    def fill(self, name, key, items):
        for at in range(0, len(items), WORDS):
            self.client.asks(name, key, *items[at : at + WORDS])

    def took(self, requests, together=TOGETHER):
        """Microseconds of the server's processor time that each of these requests took."""
        before = self.server.used()
        self.load(requests, together)
        return (self.server.used() - before) / len(requests) * 1e6

    def cost(self, name, requests, together=TOGETHER):
        self.costs[name] = "%.1f us" % self.took(requests, together)

    def weigh(self, name):
        self.costs[name] = "%d MB" % (self.server.memory() / 1e6)


def names(count):
    return ["%06d" % it for it in range(count)]


def play(it):
    """The requests, on sets, lists, sorted sets and keys, one kind after another."""
    it.fill("SADD", "big", names(MEMBERS))
    it.client.asks("SADD", "two", "000005", "x")
    it.cost("SINTER of 100,000 with 2", 100 * [request("SINTER", "big", "two")])
    it.fill("RPUSH", "list", names(MEMBERS))
    it.cost("LREM of the first of 100,000", [request("LREM", "list", "1", name) for name in names(100)])
    it.fill("RPUSH", "long", names(MANY))
    it.cost("DEL of a list of a million", [request("DEL", "long")])
    it.fill("ZADD", "zset", [word for at, name in enumerate(names(MANY)) for word in ("%d" % (at * 7919 % 1_000_003), name)])
    it.cost("ZREMRANGEBYRANK of 1,000 of a million", 20 * [request("ZREMRANGEBYRANK", "zset", "0", "999")], 1)
    it.cost("ZREMRANGEBYRANK of all the others", [request("ZREMRANGEBYRANK", "zset", "0", "-1")])
    chance = random.Random(5)
    for name, words in (("INCR", ("key:%012d",)), ("SADD", ("set", "element:%012d")), ("HSET", ("hash", "element:%012d", "VXK"))):
        requests = [request(name, *(it % key if "%" in it else it for it in words)) for key in chance.sample(range(MANY), NEW)]
        it.cost(name + " of a new name, 64 at once", requests)
    it.load([request("SET", "key:%012d" % key, "VXK") for key in range(MANY)])
    it.cost("KEYS of a million", [request("KEYS", "*")])
    it.weigh("memory then")
    it.cost("FLUSHALL of all that", [request("FLUSHALL")])
    time.sleep(1)
    it.weigh("memory behind it")
    return it.costs


def large_words(it):
    """Microseconds that a SET of a MiB takes, another text each time, since one that is there already is no write in minired; and a GET of it. One of each isn't counted."""
    first, *others = [request("SET", "word", (b"%d" % at).ljust(MIB, b"x")) for at in range(1 + LARGE)]
    got = request("GET", "word")
    it.load([first, got])
    return it.took(others, 1), it.took(LARGE * [got], 1)


def large_reply(it):
    """The most memory that a server has while it answers many large words at once, in bytes."""
    it.client.asks("SET", "word", WORD * b"x")
    it.client.send(request("MGET", *WORDS_OF_REPLY * ["word"]))
    left = len(b"*%d\r\n" % WORDS_OF_REPLY) + WORDS_OF_REPLY * len(b"$%d\r\n%s\r\n" % (WORD, WORD * b"x"))
    while left:
        piece = it.client.socket.recv(min(left, MIB))
        if not piece:
            raise SystemExit("bench: the link ended within a reply")
        left -= len(piece)
    return it.server.peak()


class Boundless(server.RedisServer):
    """redis-server that lets a reply be as long as it is."""

    def words(self, *of):
        return super().words(*of) + ["--client-output-buffer-limit", "normal", "0", "0", "0"]


def on_each(play, *starts):
    """What is found on servers that are started so, one after another."""
    found = []
    for start in starts:
        it = Played(start())
        try:
            found.append(play(it))
        finally:
            it.server.stop()
    return found


def rewriting(size):
    """How long a server with so many keys answers nobody while it writes its file anew, by the clock, and of that its processor time; in milliseconds."""
    with tempfile.TemporaryDirectory() as folder:
        it = Played(server.Server(aof=os.path.join(folder, "data.aof"), sync="no"))
        it.load([request("SET", "key:%012d" % key, "VXK") for key in range(size)])
        began, used = time.monotonic(), it.server.used()
        it.client.asks("BGREWRITEAOF")
        took, used = time.monotonic() - began, it.server.used() - used
        it.server.stop()
    return took * 1000, used * 1000


def main(chosen):
    both = (server.Server, server.RedisServer)
    if is_chosen("collections", chosen):
        ours, theirs = on_each(play, *both)
        for name, cost in ours.items():
            print(f"| {name} | {cost} | {theirs[name]} |")
    if is_chosen("words", chosen):
        ours, theirs = map(least, zip(*(on_each(large_words, *both) for _ in range(ROUNDS))))
        for name, *cells in zip(("SET of 1 MiB, another each time", "GET of 1 MiB"), ours, theirs):
            print("| {} | {:.0f} us | {:.0f} us |".format(name, *cells))
    if is_chosen("reply", chosen):
        print("| MGET of {:,} times {:,} bytes, memory at most | {:.0f} MB | {:.0f} MB |".format(WORDS_OF_REPLY, WORD, *(it / 1e6 for it in on_each(large_reply, server.Server, Boundless))))
    if is_chosen("rewriting", chosen):
        for size in REWRITTEN:
            print("BGREWRITEAOF of {:,} keys: {:.1f} ms, of which {:.1f} of the processor".format(size, *least([rewriting(size) for _ in range(ROUNDS)])))


if __name__ == "__main__":
    main(sys.argv[1:])
