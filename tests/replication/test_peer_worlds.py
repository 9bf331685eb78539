"""Worlds of nodes beside the plain model: each call on a node is made on the model's too, and what comes of both is compared, out by out. Scripts of worlds with their
answers, and random ones.

    PEER_SECONDS=600 python3 -m unittest tests.replication.test_peer_worlds
    python3 -m tests.replication.test_peer_worlds SECONDS SEED

look at worlds for so long; the second one from this seed on, and it tells what there was. Meant otherwise than in the model: a link to its master that a node gave up
is gone at that node; a node's replicas stand in the order in which they became replicas; and an effect that passes the offset's limit is refused at its first byte past
the limit, as the follower's row has it, where the model waits for its last one."""

import os
import random
import sys
import time
from collections import Counter

from tests.models.dataset import Given, group_texts, load
from tests.models.node import LIMIT, MASTER, MOST_OFFSET, REPLICA, UNDECODABLE, Append, Close, Follow, Grow, Halt, Node, NodeFault, Refused, Replace, Send, Used
from tests.models.request import Wanted
from tests.models.world import Place, World, answer
from tests.models.world_scripts import Scripter
from tests.support.handshake import GREETED
from tests.support.peers import FRESH, Peer, PeerFault, Playing, Program
from tests.support.program import request
from tests.support.requests import EXEC, MULTI, PING, framed
from tests.support.world_rows import Rows

SECONDS = int(os.environ.get("PEER_SECONDS", "20"))
EVENTS_OF_A_WORLD = 1_500
ENDLESS = 2**64 - 1
# what a master played by chance sends: texts of effects, and what is none
EFFECTS = [PING, request("SET", "k", "v"), request("SET", "l", "w", "PXAT", "900"), request("DEL", "k"), request("SADD", "s", "a", "b"), request("RPUSH", "q", "x", "y")]
EFFECTS += [request("LPUSH", "q", "z"), request("LPOP", "q", "1"), request("SREM", "s", "a"), request("INCRBY", "n", "5"), request("PEXPIREAT", "k", "800"), request("FLUSHALL")]
SPOILED = [request("FOO"), request("GET", "k"), b"\r\n", b"+OK\r\n", b"*0\r\n", request("set", "k", "v"), request("LPOP", "none", "1"), request("PING", "x"), b"*1\r\n$4\r\nPINGxx"]
# what nearly always makes a group with others of these, and what is none
SURE = [request("SET", "k", "v"), request("SET", "l", "w", "PXAT", "900"), request("DEL", "k"), request("DEL", "q"), request("FLUSHALL"), request("SADD", "s", "a", "b")]
NO_GROUPS = [EXEC, framed(), framed(SURE[0]), MULTI + PING, MULTI + SURE[0] + PING, MULTI + MULTI, MULTI + request("GET", "k"), MULTI + b"*0", framed(SPOILED[6], SURE[0])]
BAD_ANSWERS = [b"+OK\r\n", b"-ERR no\r\n", b"$5\r\n", b"+CONTINUE \r\n", b"+FULLRESYNC %s -1\r\n" % (b"b" * 40), b"+FULLRESYNC %s 5 \r\n" % (b"b" * 40), b"x", b"+a\rb"]
BAD_ANSWERS += [b"+FULLRESYNC %s %d\r\n$0\r\n" % (b"b" * 40, MOST_OFFSET + 1), b"+FULLRESYNC %s 5\r\n+OK\r\n" % (b"b" * 40)]
# what stands at a replica's end, and what closes it
ACKNOWLEDGEMENTS = [request("REPLCONF", "ACK", "5"), request("REPLCONF", "ACK", "-1"), b"replconf ack 9223372036854775807\r\n", b"\r\n", b"*0\r\n", b"*-1\r\n", b" \t\n"]
NO_ACKNOWLEDGEMENTS = [PING, request("REPLCONF", "capa", "eof"), request("REPLCONF", "ACK", "x"), request("PSYNC", "?", "-1"), b"QUIT\r\n", b"*x", b"'a'b", b"*1\r\n:"]
# lines about as long as one may be
LONG_ANSWERS = [b"+" + count * b"x" + b"\r\n" for count in (1022, 1023, 1024, 1025)]
# what is there at an offset near the limit
PAST = request("SET", "l", "w", "PXAT", "900") + request("SET", "k", "v", "PXAT", "800") + request("SET", "m", "v", "PXAT", "800")


class Difference(AssertionError):
    """The node and the model differ."""


def plain(outs):
    """The model's outs as the program tells them, which counts links from 0."""
    return [OUTS[type(it)](*it) for it in outs]


OUTS = {
    Grow: lambda groups: ("grow", group_texts(groups)),
    Append: lambda data: ("append", data),
    Replace: lambda data: ("replace", data),
    Send: lambda link, data: ("send", link - 1, data),
    Close: lambda link: ("close", link - 1),
    Used: lambda id: ("used", id.decode()),
    Follow: lambda host, port: ("follow", host, port),
    Halt: lambda: ("halt",),
}


def outcome(call, kind):
    """What a call answers, or why it is refused."""
    try:
        return call(), None
    except kind as fault:
        return None, str(fault)


class Pair(Node):
    """A node of the model, and beside it one of the program, on which the same calls are made."""

    def __init__(self, peer, chance, counts, *words):
        super().__init__(*words)
        self.peer, self.chance, self.counts = peer, chance, counts
        # the replicas in the order in which they became some
        self.ranks = {}

    # ---- the calls

    def both(self, name, model, peer, told=lambda it: it):
        """What the call answers. The model's answer is told as the program's is."""
        answered, why = outcome(model, NodeFault)
        wanted = (None, why) if why else (told(answered), None)
        found = outcome(peer, PeerFault)
        self.counts[name + (": " + why if why else "")] += 1
        self.same(name, found, wanted)
        self.look()
        if why:
            raise NodeFault(why)
        return answered

    def same(self, name, found, wanted):
        if found != wanted:
            raise Difference("%s of node %d is %r, and of the model %r" % (name, self.peer.number, found, wanted))

    def open(self):
        return self.both("open", super().open, self.peer.open, lambda link: link - 1)

    def dial(self):
        return self.both("dial", super().dial, self.peer.dial, lambda it: (it[0] - 1, plain(it[1])))

    def feed(self, link, data):
        self.both("feed", lambda: Node.feed(self, link, data), lambda: self.peer.feed(link - 1, data))
        self.look_at(link)

    def step(self, link, given, fresh):
        def tell(done):
            return plain(done) if isinstance(done, list) else done

        done = self.both("step", lambda: self.stepped(link, given, fresh), lambda: self.peer.step(link - 1, given.now, fresh.decode(), given.word), tell)
        self.look_at(link)
        for out in done if isinstance(done, list) else []:
            self.counts["offset limit" if out == Send(link, LIMIT) else type(out).__name__] += 1
            if isinstance(out, Grow):
                self.counts["larger groups"] += len(out.groups[0]) > 1
        return done

    def stepped(self, link, given, fresh):
        """The model's step, behind which it is known who became a replica."""
        done = Node.step(self, link, given, fresh)
        if self.ends[link].kind == REPLICA:
            self.ranks.setdefault(link, len(self.ranks))
        return done

    def tick(self, given):
        outs = self.both("tick", lambda: Node.tick(self, given), lambda: self.peer.tick(given.now), plain)
        self.counts["deletes" if outs and any(isinstance(it, Append) for it in outs) else "beats" if outs else "ticks"] += 1
        return outs

    def close(self, link):
        """The link is tried a last time before it is closed, where nothing can come of that, and once behind it."""
        if link in self.ends and self.ends[link].is_closed:
            self.tries(link)
        super().close(link)
        self.peer.close(link - 1)
        self.look()
        self.tries(link)

    def tries(self, link):
        """Feeds and steps on a link that is closed or gone."""
        for call in (lambda: self.feed(link, self.chance.choice([b"", b"PING\r\n"])), lambda: self.step(link, Given(0), FRESH.encode())):
            try:
                call()
            except NodeFault:
                pass

    def file_failed(self):
        super().file_failed()
        self.peer.file_failed()
        self.look()

    # ---- what is meant otherwise than in the model

    def open_ends(self, kind):
        links = super().open_ends(kind)
        return sorted(links, key=lambda it: self.ranks.get(it, 0)) if kind == REPLICA else links

    def in_stream(self, link, end):
        try:
            return super().in_stream(link, end)
        except Wanted:
            if len(end.unread) > self.limit - self.offset:
                raise Refused(UNDECODABLE) from None
            raise

    # ---- what both show

    def look(self):
        shown = self.shows()
        self.same("shows", self.peer.shows(), shown and (shown[0].decode(), shown[1]))
        self.same("role", (self.peer.role(), self.peer.waits()), (self.role(), self.waits()))
        if self.chance.random() < 0.2:
            self.same("info", outcome(self.peer.info, PeerFault), outcome(self.info, NodeFault))

    def look_at(self, link):
        wanted = (self.room(link), self.unread(link))
        self.same("room, unread", (self.peer.room(link - 1), self.peer.unread(link - 1)), tuple(ENDLESS if it == float("inf") else it for it in wanted))


class Pairs(World):
    """A world of such pairs, without histories, in which a node is started with one of these ports."""

    def __init__(self, program, chance, counts, backlog, ports):
        super().__init__(backlog)
        self.program, self.chance, self.counts, self.ports = program, chance, counts, ports
        # by node, the link to a master that is none of the nodes, and what comes on it yet
        self.masters = {}

    def pair(self, number, id, is_replica, kept=b""):
        """A node with what this file makes."""
        self.book[id], port = None, self.chance.choice(self.ports)
        peer = Peer(self.program, id.decode(), is_replica, self.backlog, port, number, kept)
        return Pair(peer, self.chance, self.counts, id, load(kept)[0], is_replica, port, self.backlog)

    def start(self, id, is_replica):
        self.new_id(id)
        self.places.append(Place(self.pair(len(self.places), id, is_replica), is_replica))
        return len(self.places) - 1

    def restart(self, node, kept, id):
        self.new_id(id)
        place = self.place(node)
        for ends in self.links:
            for end in ends:
                if end.node == node and end.is_open:
                    self.close(end)
        self.masters.pop(node, None)
        place.node, place.file = self.pair(node, id, place.is_replica, kept), kept[: load(kept)[1]]

    def carry_out(self, number, outs):
        """Some links of the node are none of the world's."""
        ends = {end.name: end for pair in self.links for end in pair if end.node == number and end.is_open}
        for out in outs:
            if isinstance(out, Append):
                self.places[number].file += out.data
            elif isinstance(out, Replace):
                self.places[number].file = out.data
            elif isinstance(out, Send) and out.link in ends:
                ends[out.link].sent += out.data
            elif isinstance(out, Close) and out.link in ends:
                self.close(ends[out.link])
            elif isinstance(out, Used):
                self.book[out.id] = None

    # ---- what no script says

    def plays_master(self, number, id):
        """A node that waits dials somebody who says what masters say, or nearly so, and in any pieces; or more of that comes."""
        node, chance = self.node(number), self.chance
        if node.is_stopped:
            return
        if node.waits():
            said = self.master_says(node, id)
            self.masters[number] = node.dial()[0], self.changed(said) if chance.random() < 0.2 else said
        link, data = self.masters.pop(number, (None, b""))
        if link not in node.open_ends(MASTER):
            return
        data = self.heard(node, link, data or self.stream_says(), id)
        if chance.random() < 0.6:
            node.close(link)
        else:
            self.masters[number] = link, data

    def plays_replica(self, number, id):
        """Somebody says to a node what replicas say, or nearly so, and in any pieces."""
        node, chance = self.node(number), self.chance
        if node.is_stopped:
            return
        wanted = chance.choice([node.first(), node.offset + 1, node.offset + 2, node.second_offset, 28, -1])
        data = chance.choice([b"", request("REPLCONF", "listening-port", "7"), request("REPLCONF", "listening-port", "000007"), b"replconf ip-address ::1 capa eof\r\n"])
        data += request("PSYNC", chance.choice([node.id, node.id, node.second, b"?"]), str(wanted))
        data += b"".join(chance.choice(ACKNOWLEDGEMENTS) for _ in range(chance.randint(0, 5))) + chance.choice([b"", b"", *NO_ACKNOWLEDGEMENTS])
        link = node.open()
        self.heard(node, link, self.changed(data) if chance.random() < 0.1 else data, id)
        if chance.random() < 0.6:
            node.close(link)

    def heard(self, node, link, data, id):
        """Hands a node these bytes in pieces, and returns those that are left."""
        chance = self.chance
        while data and chance.random() < 0.97:
            count = chance.choice([1, 7, 12, 17, 30, len(data), len(data), chance.randint(1, len(data))])
            if not self.hears(node, link, data[:count], id):
                break
            data = data[count:]
        return data

    def changed(self, data):
        """The bytes, but for one of them."""
        at = self.chance.randrange(len(data))
        return data[:at] + bytes([self.chance.choice([self.chance.randrange(256), *b"01$*\r\n"])]) + data[at + self.chance.choice([0, 1, 1]) :]

    def hears(self, node, link, data, id):
        """Whether the node still listens after that."""
        chance = self.chance
        try:
            node.feed(link, data)
            for _ in range(chance.randint(0, 8)):
                node.step(link, Given(chance.randrange(1000)), id)
            if chance.random() < 0.2:
                node.tick(Given(chance.randrange(5000)))
        except NodeFault:
            return False
        return True

    def stream_says(self):
        return b"".join(self.group_says() if self.chance.random() < 0.25 else self.effect_says() for _ in range(self.chance.randint(0, 8)))

    def effect_says(self):
        return self.chance.choice(SPOILED if self.chance.random() < 0.04 else EFFECTS)

    def group_says(self):
        """Several effects in a frame, or nearly that. Where the last can be any it mostly can't be applied behind the others, now and then."""
        chance = self.chance
        if chance.random() < 0.04:
            return chance.choice(NO_GROUPS)
        last = EFFECTS[1:] if chance.random() < 0.1 else SURE
        return framed(*(chance.choice(SURE) for _ in range(chance.randint(1, 4))), chance.choice(last))

    def master_says(self, node, id):
        chance = self.chance
        if chance.random() < 0.2:
            return GREETED[: chance.choice([0, 7, 12, 17, 17])] + chance.choice([*BAD_ANSWERS, *LONG_ANSWERS, *LONG_ANSWERS])
        stream = self.stream_says()
        if chance.random() < 0.4:
            return GREETED + b"+CONTINUE %s\r\n" % chance.choice([node.id, id]) + stream
        snapshot = b"".join(chance.choice(SPOILED if chance.random() < 0.03 else EFFECTS[:-1]) for _ in range(chance.randint(0, 6)))
        length = len(snapshot) + chance.choice([0, 0, 0, 0, 0, 0, 1, -1])
        offset = chance.choice([0, 27, 1000, MOST_OFFSET - chance.randint(0, 300), MOST_OFFSET])
        return GREETED + b"+FULLRESYNC %s %d\r\n$%d\r\n" % (id, offset, max(0, length)) + snapshot + stream

    def nears_the_limit(self, number, id):
        """A node that waits comes to an offset near the limit, is promoted, and has a replica and keys that expire."""
        node, chance = self.node(number), self.chance
        if node.is_stopped or not node.waits():
            return
        link, _ = node.dial()
        full = b"+FULLRESYNC %s %d\r\n$%d\r\n" % (id[::-1], MOST_OFFSET - chance.randint(0, 100), len(PAST))
        node.feed(link, GREETED + full + PAST)
        for _ in range(5):
            node.step(link, Given(0), id)
        node.close(link)
        for asked in (request("REPLICAOF", "NO", "ONE"), request("PSYNC", "?", "-1")):
            link = node.open()
            node.feed(link, asked)
            node.step(link, Given(0), id)
        self.book[id] = self.book[id[::-1]] = None
        now = chance.choice([0, 0, 850, 2000])
        for _ in range(chance.randint(2, 6)):
            node.tick(Given(now))
            now += chance.choice([0, 1, 9_999, 10_000, 10_001])

    def stops(self, number, id):
        """A node whose file failed refuses each call, and is started anew."""
        node = self.node(number)
        links = list(node.ends)
        node.file_failed()
        for call in (node.open, lambda: node.tick(Given(0)), *([node.dial] if node.waits() else [])):
            try:
                call()
            except NodeFault:
                pass
        for link in links:
            node.tries(link)
        self.places[number].is_replica = self.chance.random() < 0.5
        self.restart(number, self.file(number), id)


# what no script says, each as often as this
OTHERS = [(Pairs.plays_master, 0.02), (Pairs.plays_replica, 0.01), (Pairs.nears_the_limit, 0.004), (Pairs.stops, 0.002)]


def other(chance):
    """One of these, or None."""
    drawn = chance.random()
    for play, often in OTHERS:
        if drawn < often:
            return play
        drawn -= often
    return None


def compared(program, seed, counts, until):
    """Plays random events on a world; each call on a node is compared. Returns whether there was time for all."""
    chance, scripter = random.Random(-1 - seed), Scripter(seed)
    world = scripter.world = Pairs(program, chance, counts, scripter.backlog, [0, 6379, 65_535])
    scripter.most_nodes = chance.randint(2, 4)
    lines = scripter.lines()
    for at in range(EVENTS_OF_A_WORLD):
        if time.monotonic() > until:
            return False
        play, line = other(chance) if world.places else None, None
        try:
            if play:
                play(world, chance.randrange(len(world.places)), b"%040x" % (2**100 + at))
            else:
                line = next(lines)
                answer(world, line)
        except Difference as found:
            raise AssertionError("seed %d, event %d, %r: %s" % (seed, at, line or play, found)) from None
        except NotImplementedError:
            # bytes by chance spell what the model leaves out
            return True
        counts["events"] += 1
    return True


def looks(program, seconds, seed):
    """Looks at worlds for so long, and counts what there was."""
    counts, until = Counter(), time.monotonic() + seconds
    while compared(program, seed + counts["worlds"], counts, until):
        counts["worlds"] += 1
    return counts


class WorldRows(Rows, Playing):
    """The scripts of worlds with their answers."""

    def answers_to(self, script, backlog):
        world = Pairs(self.program, random.Random(0), Counter(), backlog, [0])
        told = [answer(world, line.encode()) for line in script.splitlines()]
        return [it.decode() for it in told if it is not None]


class Worlds(Playing):
    def test_each_call_comes_to_what_the_model_says(self):
        counts = looks(self.program, SECONDS, 0)
        for what in ("Grow", "larger groups", "Append", "Replace", "Send", "Close", "Used", "Follow", "Halt", "beats", "deletes", "offset limit", "step: no such link", "step: stopped", "feed: stopped"):
            self.assertGreater(counts[what], 0, what)


if __name__ == "__main__":
    print(dict(looks(Program(), int(sys.argv[1]), int(sys.argv[2])).most_common()))
