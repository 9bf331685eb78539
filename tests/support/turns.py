"""Turns of the event loop, as the built `rehearse_turns` plays them: a wire, a file and a source whose calls come to what is listed, and what went over each link."""

import unittest
from typing import NamedTuple

from tests.support.peers import Program, data_of
from tests.support.program import USUAL_BACKLOG, request
from tests.support.rehearsal import hexadecimal

# how a link comes to its end in a turn, in place of bytes
ENDS, FAILS = "end", "failed"
NOT_READY, ALL = "not-ready", "all"
# what a link is accepted or dialled in place of
FAILED = "failed"
# the request that has a node follow the master at an address
HOST = ("127.0.0.1", "6379")
ADDRESS, OBEY = ":".join(HOST), request("REPLICAOF", *HOST)
# no read gives more bytes
PIECE = 65_536


class Peer(NamedTuple):
    """A peer's end of a link: what its reads and its writes come to, one after another."""

    reads: list
    writes: list


def pieces(data):
    """The bytes in pieces that a read can give whole."""
    return [data[at : at + PIECE] for at in range(0, len(data), PIECE)] or [b""]


def peer(*comes, takes=30):
    """A peer of which something comes in each turn from its first on: bytes, nothing, or its end. It takes all in so many writes, or in each of these what it says."""
    reads = []
    for it in comes:
        if isinstance(it, bytes):
            reads += [*map(hexadecimal, pieces(it)), NOT_READY]
        else:
            reads.append(it or NOT_READY)
    return Peer(reads, [ALL] * takes if isinstance(takes, int) else list(takes))


class Link(NamedTuple):
    """What became of a link: whether it is `open`, `closed` or `failed`, how many bytes were read, what was written, and whom it was dialled to."""

    state: str
    read: int = 0
    written: bytes = b""
    address: str = ""


class Links(NamedTuple):
    """The links of a wire, in the order in which they came."""

    accepted: list
    dialled: list


def links_of(answer):
    """What a line says of all links."""
    found = Links([], [])
    for it in answer.split(";")[1:]:
        kind, state, *words = it.split(" ")
        link = Link(state) if state == FAILED else Link(state, int(words[0]), data_of(words[1]), *words[2:])
        getattr(found, kind).append(link)
    return found


class File(NamedTuple):
    """A node's file: its bytes, how many of them were synced, how many are read, and the commands that make what they hold."""

    held: bytes
    synced: int
    used: int
    commands: bytes


class Loop(Program):
    """The running program, with the node that it starts."""

    def __init__(self, **how):
        super().__init__("rehearse_turns", **how)

    def call(self, line):
        self.say(line.encode() + b"\n")
        return self.answer(line)

    def lists(self, line):
        answer = self.call(line)
        if answer != "listed":
            raise AssertionError("it isn't listed: " + line[:200])

    def start(self, accepts=(), connects=(), role="master", id="a", port=0, backlog=USUAL_BACKLOG, **lists):
        """Starts a node with peers that come, and peers that are there when they are dialled. Of anything else all words are listed."""
        for name, peers in (("accepts", accepts), ("connects", connects)):
            for it in peers:
                self.comes(name, it)
        for name, words in lists.items():
            words = words if isinstance(words, (list, tuple)) else [words]
            self.lists(" ".join([name, *(hexadecimal(it) if isinstance(it, bytes) else str(it) for it in words)]))
        return self.call("start %s %s %d %d" % (role, id * 40, port, backlog))

    def comes(self, name, it):
        """Lists a peer, or what there is in the place of one."""
        if isinstance(it, Peer):
            for kind, words in (("reads", it.reads), ("writes", it.writes)):
                if words:
                    self.lists(" ".join([kind, *map(str, words)]))
            it = "link"
        self.lists("%s %s" % (name, it))

    def links(self):
        return links_of(self.call("links"))

    def file(self):
        _, held, synced = self.call("file").split(" ")
        _, used, commands = self.call("loads").split(" ")
        return File(data_of(held), int(synced), int(used), data_of(commands))

    def shows(self):
        """The id and the offset, or None."""
        name, *shown = self.call("shows").split(" ")
        return (shown[0], int(shown[1])) if name == "shows" else None


class Turn(NamedTuple):
    """What a turn told, and what stood behind it."""

    told: str
    links: Links
    shows: tuple


def counts(turns):
    """How many steps used something in these turns, how many ids were used, and how many clients were given up."""
    told = [it.told.split(" ") for it in turns]
    return tuple(sum(int(it[at]) for it in told) for at in (2, 3, 4))


class Followed(NamedTuple):
    """What came of following a master: lines of the handshake that were answered, whole copies that were announced, those that are there with how many bytes
    rebuild them, how often the stream goes on, and how often the master was left for what it sent, before its stream and in it."""

    greeted: int = 0
    announced: int = 0
    copied: int = 0
    bytes: int = 0
    continued: int = 0
    refused: int = 0
    spoiled: int = 0


def followed(turns):
    """What came of following a master in these turns."""
    return Followed(*(sum(int(it) for it in column) for column in zip(*(it.told.split(" ")[5:12] for it in turns))))


def lacked(told):
    """How often memory ran out in a turn that told this, how many links were closed for it, and what was asked for as the last was."""
    times, links, last = told.split(" ")[12:]
    return int(times), int(links), last


class Playing(unittest.TestCase):
    """Plays turns, each on a run of the program of its own."""

    def loop(self, **lists):
        """A node that has started with what is listed."""
        it = Loop()
        self.addCleanup(lambda: self.assertEqual(it.end(), 0))
        self.assertEqual(it.start(**lists), "started")
        return it

    def turn(self, loop):
        return Turn(loop.call("turn"), loop.links(), loop.shows())

    def plays(self, turns, **lists):
        """So many turns of a node, and the node behind them."""
        it = self.loop(**lists)
        return [self.turn(it) for _ in range(turns)], it

    def shown(self, turn, id, offset):
        self.assertEqual(turn.shows, (id * 40 if len(id) == 1 else id, offset))
