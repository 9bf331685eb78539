"""Nodes that follow and are followed, as the built `rehearse_peers` plays them: calls on them, what these give out, and bytes that are carried from node to node."""

import os
import select
import subprocess
import unittest

from tests.support.program import LATE, USUAL_BACKLOG, built, request
from tests.support.rehearsal import hexadecimal
from tests.support.world_rows import info

# the fresh id of a step of which nothing else is said
FRESH = "1" * 40
# what a step comes to beside a list of outs
IDLE, CLOSED = "idle", "closed"


class PeerFault(Exception):
    """A node refuses a call: `stopped`, `no such link`, or `input full`."""


class Ended(AssertionError):
    """The program ended in place of an answer."""


class Program:
    """The running program, which answers one line after another."""

    def __init__(self, name="rehearse_peers", **how):
        self.running = subprocess.Popen([built(name)], stdin=subprocess.PIPE, stdout=subprocess.PIPE, bufsize=0, **how)
        self.unread, self.nodes = b"", 0

    def call(self, *words):
        """What came of a call, without its outs, and these."""
        line = " ".join(hexadecimal(it) if isinstance(it, bytes) else str(it) for it in words)
        self.say(line.encode() + b"\n")
        answer, *outs = self.answer(line).split(";")
        if answer.startswith("refused: "):
            raise PeerFault(answer[len("refused: ") :])
        return answer, [out_of(it) for it in outs]

    def say(self, data):
        try:
            while data:
                data = data[self.running.stdin.write(data) :]
        except BrokenPipeError:
            # what it answered before is still to be read
            pass

    def answer(self, line):
        output, parts = self.running.stdout.fileno(), [self.unread]
        while b"\n" not in parts[-1]:
            if not select.select([output], [], [], LATE)[0]:
                raise AssertionError("no answer to: " + line[:200])
            parts.append(os.read(output, 1 << 16))
            if not parts[-1]:
                raise Ended("the program ended at: " + line[:200])
        told, _, self.unread = b"".join(parts).partition(b"\n")
        return told.decode()

    def memory(self):
        """How many bytes it has in memory now."""
        with open(f"/proc/{self.running.pid}/status", encoding="ascii") as it:
            return next(int(line.split()[1]) << 10 for line in it if line.startswith("VmRSS:"))

    def end(self):
        """Lets the program end, and returns its status."""
        self.running.stdin.close()
        self.running.stdout.close()
        return self.running.wait(LATE)


def data_of(word):
    return b"" if word == "-" else bytes.fromhex(word)


def out_of(text):
    """An out by its name, with the number of its link, its bytes, or what else it names."""
    name, *words = text.split(" ")
    if name in ("grow", "append", "replace"):
        return name, data_of(*words)
    if name == "send":
        return name, int(words[0]), data_of(words[1])
    if name == "close":
        return name, int(*words)
    if name == "follow":
        return name, data_of(words[0]), int(words[1])
    return (name, *words)


class Peer:
    """A node of the running program, and its append-only file."""

    def __init__(self, program, id, is_replica=False, backlog=USUAL_BACKLOG, port=0, number=None, file=b""):
        self.program, self.number, self.file = program, program.nodes if number is None else number, file
        program.nodes = max(program.nodes, self.number + 1)
        answer, _ = program.call("start", self.number, id, "replica" if is_replica else "master", port, backlog, file)
        if answer != "started":
            raise AssertionError("a node of such a backlog doesn't start")

    # ---- calls

    def call(self, name, *words):
        """A call without outs, and what it answers."""
        return self.program.call(name, self.number, *words)[0]

    def open(self):
        """The number of the new link."""
        return int(self.call("open").removeprefix("opened "))

    def dial(self):
        """The number of the new link, and what is given out; None where the node doesn't wait."""
        answer, outs = self.program.call("dial", self.number)
        return None if answer == "no dial" else (int(answer.removeprefix("dialled ")), outs)

    def feed(self, link, data):
        self.call("feed", link, data)

    def step(self, link, now=0, fresh=FRESH, word=0):
        """`IDLE`, `CLOSED`, or the outs."""
        answer, outs = self.program.call("step", self.number, link, now, word, fresh)
        return self.filed(outs) if answer == "done" else answer

    def tick(self, now):
        return self.filed(self.program.call("tick", self.number, now)[1])

    def close(self, link):
        self.call("close", link)

    def file_failed(self):
        self.call("file_failed")

    def shows(self):
        """The id and the offset, or None."""
        name, *shown = self.call("shows").split(" ")
        return (shown[0], int(shown[1])) if name == "shows" else None

    def info(self):
        return data_of(self.call("info").removeprefix("text "))

    def role(self):
        return self.call("role")

    def waits(self):
        return self.call("waits") == "waits"

    def count(self, name, link):
        told = self.call(name, link)
        return None if told == "gone" else int(told.removeprefix(name + " "))

    def room(self, link):
        return self.count("room", link)

    def unread(self, link):
        return self.count("unread", link)

    def filed(self, outs):
        """Does to the file what these outs say."""
        for name, *words in outs:
            if name == "append":
                self.file += words[0]
            elif name == "replace":
                self.file = words[0]
        return outs

    # ---- a few calls at once

    def asks(self, link, data, now=0, fresh=FRESH):
        """What comes of a request, which a step uses."""
        self.feed(link, data if isinstance(data, bytes) else data.encode())
        return self.does(link, now, fresh)

    def does(self, link, now=0, fresh=FRESH):
        outs = self.step(link, now, fresh)
        if not isinstance(outs, list):
            raise AssertionError("a step is " + outs)
        return outs

    def answers(self, link, data, now=0, fresh=FRESH):
        """What a request is answered."""
        return sent(link, self.asks(link, data, now, fresh))

    def shapes(self, link, data, now=0, fresh=FRESH):
        return shape(self.asks(link, data, now, fresh))

    def is_closed(self, link):
        return self.step(link) == CLOSED

    def settles(self, link):
        """How many steps there are until one is idle."""
        return len(self.until_idle(link))

    def talks(self, link):
        """What is sent on the link until a step is idle."""
        return b"".join(sent(link, outs) for outs in self.until_idle(link))

    def until_idle(self, link):
        done = []
        while True:
            outs = self.step(link)
            if not isinstance(outs, list):
                return done
            done.append(outs)


def sent(link, outs):
    """What is sent on the link."""
    return b"".join(out[2] for out in outs if out[:2] == ("send", link))


def closes(link, outs):
    return ("close", link) in outs


def shape(outs):
    """The outs in order, each by its name, the number of its link, and how many bytes it has."""
    return ", ".join(shape_of(*out) for out in outs)


def shape_of(name, *words):
    return name if name in ("used", "follow") else " ".join([name, *(str(len(it)) if isinstance(it, bytes) else str(it) for it in words)])


def tells_info(*words, **more):
    """INFO's text."""
    return info(*words, **more).split(b"\r\n", 1)[1][:-2]


class Joined:
    """A link from a replica to its master: its numbers at both, what the replica asked in the end, and what it was answered."""

    def __init__(self, below, above, asked, answer):
        self.below, self.above, self.asked, self.answer = below, above, asked, answer


class Playing(unittest.TestCase):
    """Plays nodes on one run of the program."""

    @classmethod
    def setUpClass(cls):
        cls.program = Program()

    @classmethod
    def tearDownClass(cls):
        if cls.program.end():
            raise AssertionError("the program ended badly")

    def master(self, id="a", **how):
        return Peer(self.program, id * 40, **how)

    def replica(self, id="b", **how):
        return Peer(self.program, id * 40, is_replica=True, **how)

    def started(self, **how):
        """A master with one key, at offset 27, and the link of its client."""
        master = self.master(**how)
        client = master.open()
        master.asks(client, request("SET", "k", "v"))
        return master, client

    def dialled(self, replica):
        """A replica's link to a master that hasn't answered."""
        link, outs = replica.dial()
        self.assertEqual(outs, [("send", link, request("PING"))])
        return link

    def join(self, replica, master):
        """A replica comes to a master, up to the answer to PSYNC, which the replica hasn't taken yet."""
        below, above, line = self.dialled(replica), master.open(), request("PING")
        for _ in range(3):
            replica.feed(below, master.answers(above, line))
            line = sent(below, replica.does(below))
        return Joined(below, above, line, master.answers(above, line))

    def follow(self, replica, master):
        """The same, and the replica takes the answer."""
        joined = self.join(replica, master)
        replica.feed(joined.below, joined.answer)
        replica.settles(joined.below)
        return joined

    def shown(self, peer, id, offset):
        self.assertEqual(peer.shows(), (id * 40 if len(id) == 1 else id, offset))
