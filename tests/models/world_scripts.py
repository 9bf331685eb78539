"""Random scripts of a world: for each seed the same lines, chosen by what a model of the world shows at that point.

`script(seed, count)` has the lines and what they are to be answered. They are made of starts, clients, requests, transactions, deliveries in any pieces, steps, ticks of
clocks that differ and go back, dials, links that are accepted late or never, breaks, restarts with a beginning of the file, promotions on both sides of a split,
returns, and events that are refused. Some seeds have effects of one size alone, so that offsets of different histories meet."""

import itertools
import random
from typing import NamedTuple

from tests.models.node import CLIENT, MASTER, REPLICA
from tests.models.world import MOST_NOW, OPENER, OTHER, USUAL_BACKLOG, World, answer

SIDES = b"ab"
# ids that one digit names; a world soon has them all, and drawing one again is refused
FEW = b"123456789abcdef"
FALSE_IDS = (b"f" * 40, b"A" * 40, b"?", b"0" * 40)
ODD_LINES = (b"", b" \t", b"start", b"start A", b"start ab", b"client -1", b"client 00", b"client +0", b"show 18446744073709551616", b"STEP 0 b 0 0 1", b"step 0 B 0 0 1")
ODD_LINES += (b"step 0 b 2305843009213693953 0 1", b"deliver 0 b", b"raw 0 a b", b'raw 0 "a', b"*1", b"send 0", b"send 0 'a'b", b"show 0 0", b"got x", b"tick 0 -1", b'show "0"')
ODD_LINES += (b"connect", b"connect 0 1", b"accept 0", b"accept 0 0 0")
# texts that a client sends in pieces, or that no request begins with
RAW = (b"GET k\r\n", b"\r\n", b"*0\r\n", b"*-1\r\n", b"*2\r\n$3\r\nGET\r\n$1\r\nk\r\n", b"*2\r\n$3\r\nGE", b"T\r\n$1\r\nk\r\n", b"*1\r\n$4\r\nROLE\r\n", b"set k 'a\\'b'\n")
PIECES = (b"ECHO ", b'"', b"'", b"\\", b"\\x4", b"41", b"\n", b"\r", b"\r\n", b" ", b"\t", b"\x0b", b"\0", b"x", b"*", b"$", b"1", b"0", b"-", b"*2\r\n$4\r\nECHO\r\n$1\r\n", b"GET k")
DOOMED = (b"*1\r\n$-5\r\n", b"*x", b"*1\r\n:3", b'"a"b\n', b"GET 'k\n", b"*1\r\n$01", b"*1048577", b"*1\r\n$536870913", b"*1\r\n$1\r\nkX")


def quoted(word):
    """A word of a script's line."""
    if word and all(0x21 <= byte <= 0x7E and byte not in b"\"'\\" for byte in word):
        return word
    return b'"' + b"".join(b"\\x%02x" % byte for byte in word) + b'"'


class Scripter:
    """Writes the lines for a seed. Whoever takes a line plays it on `world` before it takes the next."""

    def __init__(self, seed):
        self.random = random.Random(seed)
        self.backlog = self.random.choice([self.random.randint(1, 100), 27, 54, 100, USUAL_BACKLOG])
        self.world = World(self.backlog)
        self.most_nodes = self.random.randint(2, 6)
        # whether all effects of commands have one size
        self.is_even = self.random.random() < 0.4
        self.clocks, self.ids = {}, 0

    def chance(self, of):
        return self.random.random() < of

    def lines(self):
        yield b"start a"
        yield b"client 0"
        # each world does some things more often than others do
        weights = {action: weight * self.random.choice([0.2, 1, 1, 3]) for action, weight in WEIGHTS.items()}
        while True:
            yield from self.random.choices(list(weights), list(weights.values()))[0](self)

    # ---- what there is

    def nodes(self, *roles):
        return [number for number, place in enumerate(self.world.places) if not roles or place.node.role() in roles]

    def ends(self, wanted):
        """Links and sides of open ends for which this holds."""
        return [(link, side) for link, ends in enumerate(self.world.links) for side in (OPENER, OTHER) if ends[side].is_open and wanted(ends[side], ends[1 - side])]

    def of_node(self, end):
        """What the node says of its end."""
        return self.world.places[end.node].node.ends[end.name]

    def clients(self, *nodes):
        """Links of clients whose ends are both open, and which the node takes as a client's."""
        held = self.ends(lambda end, other: end.node in nodes and other.node is None and other.is_open and self.of_node(end).kind == CLIENT)
        return [link for link, _ in held]

    def id(self):
        if self.chance(0.04):
            return bytes([self.random.choice(FEW)])
        self.ids += 1
        return b"%040x" % (2**80 + self.ids)

    def now(self, node):
        """A reading of the node's clock, which mostly goes on."""
        clock = self.clocks.get(node, self.random.choice([0, 0, 5000, 10**12, MOST_NOW - 50_000]))
        return self.reads(node, clock + self.random.choice([0, 0, 0, 1, 3, 500, 1000, 10_000, 10_000, -1, -2000]))

    def reads(self, node, now):
        self.clocks[node] = min(max(0, now), MOST_NOW)
        return self.clocks[node]

    def any_of(self, items, otherwise=None):
        return self.random.choice(items) if items else otherwise

    # ---- single lines

    def step_line(self, link, side):
        ends = self.world.links[link]
        return b"step %d %c %d %d %s" % (link, SIDES[side], self.now(ends[side].node), self.random.choice([0, 1, 4, self.random.getrandbits(64)]), self.id())

    def pending(self, link, side):
        ends = self.world.links[link]
        return len(ends[1 - side].sent) - ends[side].taken

    # ---- actions

    def starts(self):
        if len(self.world.places) < self.most_nodes:
            yield b"%s %s" % (self.random.choice([b"start", b"replica", b"replica"]), self.id())

    def joins(self):
        yield b"client %d" % self.random.choice(self.nodes())

    def sends(self):
        link = self.any_of(self.clients(*self.nodes()))
        if link is None:
            yield from self.joins()
        elif self.chance(0.8):
            yield b"send %d %s" % (link, b" ".join(map(quoted, self.words())))
        elif self.chance(0.1):
            yield b"raw %d %s" % (link, quoted(b"".join(self.random.choices(PIECES, k=self.random.randint(1, 12)))))
        else:
            yield b"raw %d %s" % (link, quoted(self.random.choice(DOOMED if self.chance(0.1) else RAW)))

    def asks(self):
        """A request that is answered, with what stood before it on the link."""
        node = self.random.choice(self.nodes("master") if self.nodes("master") and self.chance(0.8) else self.nodes())
        yield from self.asked(node, self.words())

    def asked(self, node, words):
        link = self.any_of(self.clients(node))
        if link is None:
            yield b"client %d" % node
            link = len(self.world.links) - 1
        yield b"send %d %s" % (link, b" ".join(map(quoted, words)))
        yield from self.pumped(link, 1)
        if self.chance(0.3):
            yield b"got %d" % link

    def transacts(self):
        """A transaction, which mostly ends, and within which a node may change its role."""
        node = self.random.choice(self.nodes("master") if self.nodes("master") and self.chance(0.8) else self.nodes())
        link = self.any_of(self.clients(node))
        if link is None:
            yield b"client %d" % node
            link = len(self.world.links) - 1
        yield from self.within(link, [self.random.choice([b"MULTI", b"multi"])])
        for _ in range(self.random.choice([0, 1, 1, 2, 2, 3, 5])):
            # much else would mark it
            yield from self.within(link, self.words() if self.chance(0.2) else self.words_on_data())
        if self.chance(0.1):
            yield from self.random.choice([self.returns, self.promotes, self.restarts, self.breaks, self.outlives])()
        if self.chance(0.95):
            yield from self.within(link, self.random.choice([[b"EXEC"]] * 8 + [[b"DISCARD"], [b"exec"], [b"EXEC", b"x"]]))
            yield from self.pumped(link, 1)
        if self.chance(0.3):
            yield b"got %d" % link

    def within(self, link, words):
        """A request that may be answered at once, or as others are."""
        if self.world.links[link][OPENER].is_open:
            yield b"send %d %s" % (link, b" ".join(map(quoted, words)))
            if self.chance(0.6):
                yield from self.pumped(link, 1)

    def delivers(self):
        held = self.ends(lambda end, other: end.taken < len(other.sent))
        if held:
            link, side = self.random.choice(held)
            count = self.pending(link, side)
            yield b"deliver %d %c %d" % (link, SIDES[side], self.random.choice([self.random.randint(0, count), min(count, 27), count, count - 1]))

    def steps(self):
        held = self.ends(lambda end, other: end.node is not None and end.used < end.taken)
        if held:
            yield self.step_line(*self.random.choice(held))

    def pumps(self):
        held = self.ends(lambda end, other: end.node is not None and (end.used < end.taken or end.taken < len(other.sent)))
        if held:
            yield from self.pumped(self.random.choice(held)[0], self.random.randint(1, 7))

    def pumped(self, link, rounds):
        """Lets a link come forward, mostly by all that was sent."""
        for _ in range(rounds):
            for side in (OTHER, OPENER):
                end = self.world.links[link][side]
                if end.is_open and self.pending(link, side):
                    yield b"deliver %d %c %d" % (link, SIDES[side], self.pending(link, side) if self.chance(0.95) else self.random.randint(0, self.pending(link, side)))
                steps = 0
                while end.node is not None and end.is_open and end.used < end.taken and steps < 12 and not self.chance(0.02):
                    before, steps = end.used, steps + 1
                    yield self.step_line(link, side)
                    if end.used == before:
                        break

    def ticks(self):
        node = self.random.choice(self.nodes())
        yield b"tick %d %d" % (node, self.now(node))

    def beats(self):
        """A tick about the time at which a node that is heard has something to say."""
        heard = [number for number in self.nodes("master", "connected") if self.world.node(number).mark is not None]
        if heard:
            node = self.random.choice(heard)
            yield b"tick %d %d" % (node, self.reads(node, self.world.node(node).mark + self.random.choice([999, 1000, 9999, 10_000, -1])))

    def outlives(self):
        """A key whose deadline comes is read on both ends of a link, by clocks before it and behind it."""
        links = [ends for ends in self.world.links if ends[OPENER].node is not None and ends[OPENER].is_open and ends[OTHER].is_open]
        if not links:
            return
        opener, other = self.random.choice(links)
        deadline = self.clocks.get(other.node, 0) + self.random.randint(1, 3000)
        yield from self.asked(other.node, [b"SET", b"k", b"v", b"PXAT", b"%d" % deadline])
        yield from self.pumped(self.world.links.index((opener, other)), 1)
        for _ in range(self.random.randint(1, 5)):
            node = self.random.choice([opener.node, opener.node, other.node])
            self.reads(node, deadline + self.random.choice([-2, -1, 0, 1, 500]))
            if self.chance(0.3):
                yield b"tick %d %d" % (node, self.clocks[node])
            else:
                yield from self.asked(node, self.random.choice([[b"GET", b"k"], [b"PTTL", b"k"], [b"DBSIZE"], [b"SET", b"k", b"w", b"KEEPTTL"]]))

    def poses(self):
        """A client that does as a replica does, and what is then told of it."""
        node = self.random.choice(self.nodes("master") or self.nodes())
        link = self.any_of(self.clients(node))
        if link is not None:
            wanted = [self.to_synchronize() for _ in range(self.random.randint(1, 4))]
            for words in [*wanted, self.random.choice([[b"REPLCONF", b"ACK", b"%d" % self.random.randint(-1, 99)], [b"PING"], [b"REPLCONF", b"capa", b"eof"]])]:
                if self.world.links[link][OPENER].is_open:
                    yield b"send %d %s" % (link, b" ".join(map(quoted, words)))
                    yield from self.pumped(link, 1)
            yield b"got %d" % link
            yield from self.tells(node, b"ROLE")

    def tells(self, node, command):
        """What a node says of itself."""
        yield from self.asked(node, [command])
        link = self.any_of(self.clients(node))
        if link is not None:
            yield b"got %d" % link

    def dials(self):
        waiting = [node for node in self.nodes("connect")]
        if waiting:
            yield b"dial %d %d" % (self.random.choice(waiting), self.random.choice(self.nodes()))

    def connects(self):
        """A replica's link, which may wait for long, while the replica goes on."""
        waiting = [node for node in self.nodes("connect")]
        if waiting:
            yield b"connect %d" % self.random.choice(waiting)

    def accepts(self):
        """A link that waits is accepted by any node: the one that dialled may have left it or begun anew, or be the same."""
        waiting = [link for link, ends in enumerate(self.world.links) if ends[OTHER].waits]
        if waiting:
            yield b"accept %d %d" % (self.random.choice(waiting[-3:]), self.random.choice(self.nodes()))

    def heals(self):
        """A replica is joined to a master once more, or anew, and mostly comes up to it."""
        replica = self.any_of(self.nodes("connect", "sync", "connected"))
        masters = self.nodes("master")
        if replica is None or not masters:
            return
        yield from self.joined(replica, self.random.choice(masters))

    def joined(self, replica, master):
        for link, side in self.ends(lambda end, other: end.node == replica and self.of_node(end).kind == MASTER):
            yield b"break %d %c" % (link, SIDES[side])
        link = len(self.world.links)
        if self.chance(0.7):
            yield b"dial %d %d" % (replica, master)
        else:
            yield b"connect %d" % replica
            if self.chance(0.5):
                # a link that comes between has the first name at the master
                yield b"client %d" % master
            if self.chance(0.2):
                yield from self.random.choice([self.breaks, self.restarts, self.promotes, self.beats])()
            if self.chance(0.1):
                return
            yield b"accept %d %d" % (link, master)
        if link < len(self.world.links):
            yield from self.pumped(link, self.random.randint(3, 8))

    def breaks(self):
        wanted = self.random.choice([CLIENT, REPLICA, MASTER, None])
        held = self.ends(lambda end, other: wanted is None or (end.node is not None and self.of_node(end).kind == wanted))
        if held:
            link, side = self.random.choice(held)
            yield b"break %d %c" % (link, SIDES[side])

    def restarts(self):
        node = self.random.choice(self.nodes())
        size = len(self.world.file(node))
        yield b"restart %d %d %s" % (node, self.random.choice([0, size, size, 2**64 - 1, max(0, size - self.random.randint(1, 30)), self.random.randint(0, size)]), self.id())

    def promotes(self):
        replicas = self.nodes("connect", "sync", "connected")
        # one that holds something is more telling
        held = [node for node in replicas if self.world.node(node).offset]
        node = self.any_of(held if held and self.chance(0.7) else replicas)
        if node is not None:
            yield from self.asked(node, [self.random.choice([b"REPLICAOF", b"SLAVEOF", b"replicaof"]), b"NO", b"one"])

    def returns(self):
        """A master becomes the replica of another one, or of nobody who answers; or a replica turns to another."""
        masters = self.nodes("master")
        if len(masters) < 2 and self.chance(0.8):
            return
        node = self.random.choice(masters if masters and self.chance(0.7) else self.nodes())
        yield from self.asked(node, [b"REPLICAOF", self.random.choice([b"h", b"i"]), self.random.choice([b"1", b"2"])])
        others = [it for it in self.nodes("master") if it != node]
        if others and self.world.node(node).waits() and self.chance(0.8):
            yield from self.joined(node, self.random.choice(others))

    def shows(self):
        node = self.random.choice(self.nodes())
        kind = self.random.randrange(4)
        if kind == 0:
            yield b"show %d" % node
        elif kind == 1:
            yield b"got %d" % self.random.randrange(len(self.world.links) or 1)
        else:
            yield from self.tells(node, self.random.choice([b"INFO", b"ROLE"]))

    def goes_wrong(self):
        """Mostly events that are refused, or lines that are none."""
        links, nodes = len(self.world.links), len(self.world.places)
        link, node = self.random.randint(0, links), self.random.randint(0, nodes)
        yield self.random.choice([
            self.random.choice(ODD_LINES),
            b"deliver %d %c %d" % (link, self.random.choice(SIDES), self.random.choice([1, 100_000, 2**64 - 1])),
            b"step %d %c 0 0 %s" % (link, self.random.choice(SIDES), self.random.choice([self.id(), b"0", b"a"])),
            b"break %d %c" % (link, self.random.choice(SIDES) if self.chance(0.3) else ord("a")),
            b"dial %d %d" % (node, self.random.randint(0, nodes)),
            b"connect %d" % node,
            b"accept %d %d" % (link, self.random.randint(0, nodes)),
            b"tick %d 0" % node,
            b"client %d" % (nodes + 1),
            b"send %d PING" % link,
            b"show %d" % node,
            b"got %d" % link,
            b"restart %d 0 %s" % (nodes if self.chance(0.7) else node, self.random.choice([b"0", b"a"])),
            b"start %s" % self.random.choice([b"a", b"0"]),
        ])

    # ---- requests

    def words(self):
        kind = self.random.random()
        if kind < 0.05:
            return self.to_the_node()
        if kind < 0.12:
            return self.to_synchronize()
        return self.words_on_data()

    def words_on_data(self):
        key, value = bytes([self.random.choice(b"kl")]), bytes([self.random.choice(b"vwx")])
        if self.is_even:
            return [b"SET", key, value] if self.chance(0.9) else [b"GET", key]
        return self.random.choice(self.on_data())(key, value)

    def to_the_node(self):
        return self.random.choice([
            [b"PING"],
            [b"ping", b"a b"],
            [b"ECHO", bytes([self.random.randrange(256)])],
            [b"INFO", b"all"],
            [b"info", b"keyspace"],
            [b"ROLE"],
            [b"BGREWRITEAOF"],
            [b"SHUTDOWN"],
            [b"SHUTDOWN", b"NOW"],
            [b"QUIT"],
            [b"NOSUCH", b"x"],
            [b"GET"],
            [b"REPLICAOF", b"h", b"0"],
            [b"REPLICAOF", b"NO", b"ONE"],
            [b"REPLICAOF", b"h", b"1"],
            [b"REPLICAOF", b"no"],
            [b"EXEC"],
            [b"discard"],
            [b"EXEC", b"x"],
            [b"MULTI", b"x"],
        ])

    def to_synchronize(self):
        """What a replica says; a client who says it is one from then on."""
        kind = self.random.random()
        if kind < 0.5:
            return self.random.choice([
                [b"REPLCONF", b"listening-port", b"6379"],
                [b"replconf", b"IP-address", b"::1", b"capa", b"eof"],
                [b"REPLCONF", b"ACK", b"%d" % self.random.randint(0, 99)],
                [b"REPLCONF", b"ACK", b"x"],
                [b"REPLCONF"],
                [b"REPLCONF", b"capa"],
                [b"REPLCONF", b"rdb", b"1"],
            ])
        node = self.world.node(self.random.choice(self.nodes()))
        id = self.random.choice([node.id, node.id, node.second, self.random.choice(FALSE_IDS)])
        near = [node.offset + 1, node.offset + 2, node.first(), node.first() - 1, node.second_offset, node.second_offset + 1, 0, -1]
        return [b"PSYNC", id, b"x" if self.chance(0.02) else b"%d" % self.random.choice(near)]

    def on_data(self):
        one, pick = self.random.randint, self.random.choice
        clock = max(self.clocks.values(), default=0)
        return [
            lambda key, value: [b"SET", key, value],
            lambda key, value: [b"SET", key, bytes([one(0, 255)]) * one(0, 40)],
            lambda key, value: [b"SET", key, value, pick([b"PX", b"px"]), b"%d" % one(0, 3000)],
            lambda key, value: [b"SET", key, value, b"PXAT", b"%d" % max(1, clock + one(-1000, 3000))],
            lambda key, value: [b"SET", key, value, b"EXAT", b"%d" % (clock // 1000 + one(0, 5))],
            lambda key, value: [b"SET", key, value, pick([b"KEEPTTL", b"NX", b"XX", b"GET", b"EX"])],
            lambda key, value: [b"SET", key, b"%d" % pick([5, -7, 2**63 - 1, 2**63])],
            lambda key, value: [b"GET", key],
            lambda key, value: [b"DEL", key, pick([b"k", b"s", b"q"]), key],
            lambda key, value: [b"EXPIRE", pick([key, b"s"]), b"%d" % pick([1, 2, 5, 0, -1, 2**60]), *pick([[], [], [b"NX"], [b"xx"], [b"GT"], [b"LT"], [b"NO"]])],
            lambda key, value: [b"PTTL", pick([key, b"s"])],
            lambda key, value: [b"INCR", pick([key, b"n"])],
            lambda key, value: [b"SADD", b"s", *(bytes([it]) for it in self.random.sample(b"abcdef", one(1, 4)))],
            lambda key, value: [b"SREM", b"s", *(bytes([it]) for it in self.random.sample(b"abcdef", one(1, 4)))],
            lambda key, value: [b"SPOP", pick([b"s", key]), *pick([[], [b"%d" % one(-1, 3)]])],
            lambda key, value: [b"LPUSH", pick([b"q", key]), *([value] * pick([1, 2, 70]))],
            lambda key, value: [b"LPOP", pick([b"q", key]), *pick([[], [b"%d" % one(-1, 3)], [b"x"]])],
            lambda key, value: [b"FLUSHALL", *pick([[], [], [b"async"], [b"now"]])],
            lambda key, value: [b"DBSIZE"],
        ]


# how often each thing is done, beside the others
WEIGHTS = {
    Scripter.starts: 1,
    Scripter.joins: 2,
    Scripter.asks: 14,
    Scripter.sends: 6,
    Scripter.transacts: 5,
    Scripter.delivers: 10,
    Scripter.steps: 10,
    Scripter.pumps: 12,
    Scripter.ticks: 3,
    Scripter.beats: 2,
    Scripter.outlives: 0.7,
    Scripter.poses: 1,
    Scripter.dials: 2,
    Scripter.connects: 1,
    Scripter.accepts: 1,
    Scripter.heals: 5,
    Scripter.breaks: 1.5,
    Scripter.restarts: 0.5,
    Scripter.promotes: 1.5,
    Scripter.returns: 2.5,
    Scripter.shows: 4,
    Scripter.goes_wrong: 3,
}


def played(seed, count):
    """So many lines for this seed, without their ends, each with its answer by the model; None for one that has none."""
    scripter = Scripter(seed)
    for line in itertools.islice(scripter.lines(), count):
        yield line, answer(scripter.world, line)


class Played(NamedTuple):
    """With which backlog a world is to be started, the lines that it is asked, and what they are to be answered."""

    backlog: int
    script: bytes
    answers: list


def script(seed, count):
    """The script of so many lines for this seed."""
    lines = list(played(seed, count))
    return Played(Scripter(seed).backlog, b"".join(line + b"\n" for line, _ in lines), [told for _, told in lines if told is not None])


def shortened(lines, differs):
    """Some of the lines, of which none can be left out while this still holds of the rest: the shortest script, or nearly so, that shows the same."""
    size = len(lines)
    while size:
        at = 0
        while at < len(lines):
            rest = lines[:at] + lines[at + size :]
            if differs(rest):
                lines = rest
            else:
                at += size
        size //= 2
    return lines
