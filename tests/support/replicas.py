"""Servers that follow one another: what each says of itself and what it holds, a proxy that cuts their links, and random writes."""

import contextlib
import random
import re
import select
import socket
import struct
import threading
import time
from dataclasses import dataclass

from tests.support import server
from tests.support.handshake import GREETED, announces, continues
from tests.support.program import request
from tests.support.replies import OK, read
from tests.support.requests import FAR, LEAD, SET
from tests.support.server import HOST

# the deadlines of random writes that come soon have come after so many milliseconds
SOON = 30
# what is asked for the value of a key of each kind, behind the key's name
READS = {
    b"+string": lambda key: ("GET", key),
    b"+hash": lambda key: ("HGETALL", key),
    b"+list": lambda key: ("LRANGE", key, "0", "-1"),
    b"+set": lambda key: ("SMEMBERS", key),
    b"+zset": lambda key: ("ZRANGE", key, "0", "-1", "WITHSCORES"),
}
# values of a kind that no server promises in an order, as they are compared
SETTLED = {b"+hash": lambda items: sorted(zip(items[::2], items[1::2])), b"+set": sorted}
# so many bytes are carried at once at most
PIECE = 65_536
PSYNC = re.compile(rb"\*3\r\n\$5\r\nPSYNC\r\n\$\d+\r\n[^\r]+\r\n\$\d+\r\n-?\d+\r\n")


@dataclass(frozen=True)
class Said:
    """What a node says of itself by INFO."""

    role: str
    followers: int
    id: str
    second: str
    offset: int
    second_offset: int
    first: int
    held: int

    @property
    def shows(self):
        return self.id, self.offset


def said_in(reply):
    lines = read(reply)[0].decode().splitlines()
    told = dict(line.split(":") for line in lines if ":" in line)
    numbers = ("connected_slaves", "master_repl_offset", "second_repl_offset", "repl_backlog_first_byte_offset", "repl_backlog_histlen")
    followers, *offsets = (int(told[name]) for name in numbers)
    return Said(told["role"], followers, told["master_replid"], told["master_replid2"], *offsets)


@dataclass(frozen=True)
class Look:
    """What a node held while it showed one id and offset: each key's kind, deadline and value."""

    shows: tuple
    held: dict


class Node(server.Server):
    """A server that may begin as a replica of the node at a port, and a client of it."""

    def __init__(self, follows=None, backlog=None, timeout=None, idle=None, **how):
        self.given = {"--replicaof": follows and f"{HOST}:{follows}", "--backlog": backlog, "--repl-timeout": timeout, "--timeout": idle}
        self.link = None
        super().__init__(**how)

    def words(self, aof, sync, turns):
        return super().words(aof, sync, turns) + [str(it) for name, value in self.given.items() if value is not None for it in (name, value)]

    def stop(self):
        if self.link:
            self.link.close()
        super().stop()

    @property
    def asked(self):
        """The one client's link."""
        if not self.link:
            self.link = self.client()
        return self.link

    def asks(self, *words):
        return self.asked.asks(*words)

    def said(self):
        return said_in(self.asks("INFO", "replication"))

    def follow(self, port, host=HOST):
        """Has the node follow another, and says whether that was answered OK."""
        return self.asks("REPLICAOF", host, str(port)) == OK

    def promote(self):
        return self.asks("REPLICAOF", "NO", "ONE") == OK

    def promotes(self):
        """What the node says of itself right before it is promoted, and right behind it."""
        ask = request("INFO", "replication")
        self.asked.send(ask + LEAD + ask)
        before, answer, after = (self.asked.reply() for _ in range(3))
        if answer != OK:
            raise AssertionError(answer)
        return said_in(before), said_in(after)

    def all(self, requests):
        """The replies to requests that are sent together, as they are read."""
        self.asked.send(b"".join(request(*words) for words in requests))
        return [read(self.asked.reply())[0] for _ in requests]

    def holds(self):
        """Each key that isn't expired, with its kind, its deadline and its value."""
        keys = read(self.asks("KEYS", "*"))[0]
        kinds = self.all([("TYPE", key) for key in keys])
        there = [(key, kind) for key, kind in zip(keys, kinds) if kind != b"+none"]
        deadlines = self.all([("PEXPIRETIME", key) for key, _ in there])
        values = self.all([READS[kind](key) for key, kind in there])
        rows = zip(there, deadlines, values)
        return {key: (kind, deadline, SETTLED.get(kind, lambda it: it)(value)) for (key, kind), deadline, value in rows}

    def look(self):
        """What it holds, at one id and offset: it is looked at again where these change meanwhile."""
        while True:
            before, held = self.said(), self.holds()
            if self.said().shows == before.shows:
                return Look(before.shows, held)


class Carried:
    """One link that a proxy carries: the bytes that the master said on it, those that the replica said, and after how many of either it is cut."""

    def __init__(self, near, most_heard, most_said, resets):
        self.near, self.far, self.resets = near, None, resets
        self.heard, self.told = bytearray(), bytearray()
        self.most_heard, self.most_told = most_heard, most_said
        self.cut_now = threading.Event()

    def carry(self, port):
        """Carries until an end closes or the link is cut."""
        with contextlib.suppress(OSError):
            self.far = socket.create_connection((HOST, port))
            for it in (self.near, self.far):
                it.setsockopt(socket.IPPROTO_TCP, socket.TCP_NODELAY, 1)
            while not self.cut_now.is_set() and not self.is_full() and self.carry_once():
                pass
        self.close()

    def is_full(self):
        return any(most is not None and len(got) >= most for got, most in ((self.heard, self.most_heard), (self.told, self.most_told)))

    def carry_once(self):
        for end in select.select([self.near, self.far], [], [], 1)[0]:
            piece = end.recv(PIECE)
            if not piece or self.cut_now.is_set():
                return False
            is_master = end is self.far
            # asked once: it may be changed meanwhile, and behind bytes that are left out there must be none
            got, most = (self.heard, self.most_heard) if is_master else (self.told, self.most_told)
            left = None if most is None else max(0, most - len(got))
            (self.near if is_master else self.far).sendall(piece[:left])
            got += piece[:left]
            if left is not None and len(piece) >= left:
                return False
        return True

    def cut_after(self, count):
        """The link is cut once the master said so many bytes more, or at once."""
        if count:
            self.most_heard = len(self.heard) + count
        else:
            self.cut()

    def cut(self):
        self.cut_now.set()
        for it in (self.near, self.far):
            with contextlib.suppress(OSError, AttributeError):
                it.shutdown(socket.SHUT_RDWR)

    def close(self):
        for it in (self.near, self.far):
            with contextlib.suppress(OSError, AttributeError):
                if self.resets:
                    it.setsockopt(socket.SOL_SOCKET, socket.SO_LINGER, struct.pack("ii", 1, 0))
                it.close()


class Proxy:
    """Stands between replicas and the master at a port, carries what they say, and cuts links where it is told to."""

    def __init__(self, port):
        self.master, self.links = port, []
        # after how many bytes of the master and of the replica each of the next links is cut, and whether it is reset; the others aren't cut
        self.cuts = []
        # while this isn't set, links wait, but for the first so many
        self.lets_go, self.free = threading.Event(), 0
        self.lets_go.set()
        self.listener = socket.create_server((HOST, 0))
        self.port = self.listener.getsockname()[1]
        self.is_closed = False
        threading.Thread(target=self.accept_all, daemon=True).start()

    def accept_all(self):
        while not self.is_closed:
            try:
                near, _ = self.listener.accept()
            except OSError:
                return
            # another thread may put other cuts in the place of these
            cuts = self.cuts
            link = Carried(near, *(cuts.pop(0) if cuts else (None, None, False)))
            self.links.append(link)
            threading.Thread(target=self.carry, args=(link, len(self.links)), daemon=True).start()

    def carry(self, link, count):
        if count > self.free:
            self.lets_go.wait()
        link.carry(self.master)

    def heard(self):
        """What masters said, link by link."""
        return [bytes(it.heard) for it in self.links]

    def cut_no_more(self):
        """Links that are there aren't cut any more, nor are those that come, and none waits."""
        self.cuts = []
        for it in list(self.links):
            it.most_heard = it.most_told = None
        self.lets_go.set()

    def cut(self):
        """Cuts all links that there are."""
        for it in list(self.links):
            it.cut()

    def close(self):
        self.is_closed = True
        with contextlib.suppress(OSError):
            self.listener.shutdown(socket.SHUT_RDWR)
        self.listener.close()
        self.lets_go.set()
        self.cut()


class Fake:
    """A peer at a port that is no node: what it does with each link that is opened to it is handed in. It counts them."""

    def __init__(self, does, port=0):
        self.does, self.dials = does, 0
        self.listener = socket.create_server((HOST, port))
        self.port = self.listener.getsockname()[1]
        threading.Thread(target=self.accept_all, daemon=True).start()

    def accept_all(self):
        while True:
            try:
                link, _ = self.listener.accept()
            except OSError:
                return
            self.dials += 1
            threading.Thread(target=self.serve, args=(link,), daemon=True).start()

    def serve(self, link):
        with link, contextlib.suppress(OSError):
            link.settimeout(5)
            self.does(link)

    def close(self):
        with contextlib.suppress(OSError):
            self.listener.shutdown(socket.SHUT_RDWR)
        self.listener.close()


class Played:
    """What a `Fake` does as a master that the test plays: it answers each handshake, by going on from what is asked for under `a` or else with
    the snapshot, and then says what the test has it say. It keeps the links, and the last line of each handshake."""

    def __init__(self, snapshot=announces("a", 27, SET)):
        self.links, self.asked, self.snapshot = [], [], snapshot

    def __call__(self, link):
        # else small pieces would come together
        link.setsockopt(socket.IPPROTO_TCP, socket.TCP_NODELAY, 1)
        link.sendall(GREETED)
        heard, piece = b"", b"-"
        while piece and not (last := PSYNC.search(heard)):
            piece = link.recv(PIECE)
            heard += piece
        if not piece:
            return
        self.asked.append(last[0])
        link.sendall(continues("a") if b"a" * 40 in last[0] else self.snapshot)
        self.links.append(link)
        while link.recv(PIECE):
            pass

    def says(self, data):
        self.links[-1].sendall(data)

    def breaks(self):
        self.links[-1].shutdown(socket.SHUT_RDWR)


class Writes:
    """Random commands on a few keys of each kind. Their replies don't matter: what one changes on a master its replicas have to follow."""

    def __init__(self, seed):
        self.chance = random.Random(seed)
        # when all deadlines have come that come soon
        self.calm = 0

    def bytes(self):
        return self.chance.randbytes(self.chance.choice((0, 1, 8, 8, 40, 200)))

    def some(self, most=5):
        return [self.bytes() for _ in range(self.chance.randint(1, most))]

    def key(self, kind):
        return "%s%d" % (kind, self.chance.randrange(4))

    def any_key(self):
        return self.key(self.chance.choice(("text", "count", "hash", "list", "set", "zset")))

    def member(self):
        return "m%d" % self.chance.randrange(20)

    def score(self):
        return str(self.chance.randrange(-(2**53), 2**53))

    def place(self):
        return str(self.chance.randint(-6, 6))

    def side(self):
        return self.chance.choice(("LEFT", "RIGHT"))

    def command(self):
        return self.chance.choice(COMMANDS)(self)

    def commands(self, count):
        return [self.command() for _ in range(count)]

    def send(self, client, count):
        """Sends random writes, and doesn't wait for their replies."""
        client.send_what_goes(b"".join(request(*words) for words in self.commands(count)))
        self.note()

    def note(self):
        self.calm = max(self.calm, time.time() + 2 * SOON / 1000)

    def play(self, node, count):
        """Has the node do random writes."""
        self.send(node.asked, count)
        for _ in range(count):
            node.asked.reply()
        self.note()

    def are_calm(self):
        return time.time() > self.calm


COMMANDS = [
    lambda it: ("SET", it.key("text"), it.bytes()),
    lambda it: ("SET", it.key("text"), it.bytes(), "PX", str(it.chance.randint(1, SOON))),
    lambda it: ("SET", it.key("text"), it.bytes(), it.chance.choice(("KEEPTTL", "NX", "XX", "GET"))),
    lambda it: ("SET", it.key("text"), it.bytes(), "PXAT", str(FAR + it.chance.randrange(10))),
    lambda it: ("APPEND", it.key("text"), it.bytes()),
    lambda it: ("SETRANGE", it.key("text"), str(it.chance.randrange(50)), it.bytes()),
    lambda it: ("GETDEL", it.key("text")),
    lambda it: ("MSET", it.key("text"), it.bytes(), it.key("text"), it.bytes()),
    lambda it: ("INCRBY", it.key("count"), it.place()),
    lambda it: ("HSET", it.key("hash"), it.member(), it.bytes(), it.member(), it.bytes()),
    lambda it: ("HINCRBY", it.key("hash"), "n", it.place()),
    lambda it: ("HDEL", it.key("hash"), it.member(), it.member()),
    lambda it: ("LPUSH", it.key("list"), *it.some()),
    lambda it: ("RPUSH", it.key("list"), *it.some(70)),
    lambda it: ("LPOP", it.key("list"), str(it.chance.randrange(4))),
    lambda it: ("RPOP", it.key("list")),
    lambda it: ("LSET", it.key("list"), it.place(), it.bytes()),
    lambda it: ("LINSERT", it.key("list"), "BEFORE", "", it.bytes()),
    lambda it: ("LREM", it.key("list"), it.place(), ""),
    lambda it: ("LTRIM", it.key("list"), it.place(), it.place()),
    lambda it: ("LMOVE", it.key("list"), it.key("list"), it.side(), it.side()),
    lambda it: ("SADD", it.key("set"), it.member(), it.member(), it.bytes()),
    lambda it: ("SREM", it.key("set"), it.member(), it.member()),
    lambda it: ("SPOP", it.key("set"), str(it.chance.randrange(4))),
    lambda it: ("SMOVE", it.key("set"), it.key("set"), it.member()),
    lambda it: ("ZADD", it.key("zset"), it.score(), it.member(), it.score(), it.member()),
    lambda it: ("ZINCRBY", it.key("zset"), it.place(), it.member()),
    lambda it: ("ZREM", it.key("zset"), it.member()),
    lambda it: ("ZPOPMIN", it.key("zset")),
    lambda it: ("ZREMRANGEBYRANK", it.key("zset"), it.place(), it.place()),
    lambda it: ("PEXPIRE", it.any_key(), str(it.chance.randint(-1, SOON))),
    lambda it: ("PEXPIREAT", it.any_key(), str(FAR + it.chance.randrange(10))),
    lambda it: ("PERSIST", it.any_key()),
    lambda it: ("RENAME", it.any_key(), it.any_key()),
    lambda it: ("DEL", it.any_key(), it.any_key()),
    lambda it: ("FLUSHALL",) if it.chance.random() < 0.2 else ("DEL", it.any_key()),
]


def garbage(data):
    """A peer that says these bytes at once, and then reads what comes until the other end closes."""

    def does(link):
        link.sendall(data)
        while link.recv(PIECE):
            pass

    return does


def closes(link):
    """A peer that closes each link at once."""
