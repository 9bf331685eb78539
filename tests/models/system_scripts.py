"""Random schedules of servers that are joined: for each seed the same lines, chosen by what a model of them shows at that point.

`schedule(seed, count)` has the lines and what they are to be answered. They are made of starts with files of any beginning, kills, clients with their requests, transactions
and roles, dials that are accepted late or never, deliveries in any pieces, cuts, turns, and clocks that go on by themselves. After each event each server that may have
changed is shown."""

import random
from typing import NamedTuple

from tests.models.system import CLIENT, FIRST_PORT, OPENER, OTHER, SERVERS, WAITING, System, hexadecimal
from tests.support.program import USUAL_BACKLOG, request

# each start has so many ids, more than it draws
IDS_OF_A_START = 1_000_000
CHANGING = ("start", "turn")


class Scheduler:
    """Writes the lines for a seed, and plays each on a model before the next is written."""

    def __init__(self, seed):
        self.random, self.system = random.Random(seed), System()
        self.starts, self.clock = 0, self.random.choice([0, 10**12])
        # whether all effects of commands have one size, so that offsets of different histories meet
        self.is_even = self.random.random() < 0.5
        self.most = self.random.choice([7, 100, 100_000, 100_000, 100_000])
        self.backlog = self.random.choice([self.random.randint(1, 100), 27, 100, 1000, USUAL_BACKLOG])
        self.weights = {action: weight * self.random.choice([0.3, 1, 1, 3]) for action, weight in WEIGHTS.items()}

    def lines(self, count):
        """So many events, and lines that show what came of them; each line with its answer."""
        events = 0
        while events < count:
            for line in self.next_events():
                yield line, self.system.answer(line)
                events += 1
                name, number, *_ = line.split(" ")
                if name in CHANGING:
                    yield "show " + number, self.system.answer("show " + number)

    def next_events(self):
        if not any(self.system.servers):
            return self.begins()
        if not self.up("master") and self.chance(0.1):
            return self.promotes()
        return self.random.choices(list(self.weights), list(self.weights.values()))[0](self)

    # ---- what there is

    def chance(self, of):
        return self.random.random() < of

    def any_of(self, items):
        return self.random.choice(items) if items else None

    def up(self, *roles):
        held = [number for number, it in enumerate(self.system.servers) if it and not it.is_over]
        return [number for number in held if not roles or self.system.servers[number].node.role() in roles]

    def connections(self, wanted):
        return [number for number, it in enumerate(self.system.connections) if wanted(it)]

    def waiting(self):
        """Connections that can be accepted."""
        return self.connections(lambda it: it.holders[OTHER] == WAITING and it.holders[OPENER] != "nobody" and self.system.running(it.to))

    def deliverable(self):
        """Ends to which something can be delivered."""
        held = []
        for number, it in enumerate(self.system.connections):
            for side in (OPENER, OTHER):
                holder = it.holders[side]
                if it.ways[side] and (holder == CLIENT or isinstance(holder, int)) or self.is_news(it, number, side):
                    held.append((number, side))
        return held

    def is_news(self, connection, number, side):
        """Whether an end can be told that nothing more comes, and wasn't."""
        holder = connection.holders[side]
        if not connection.is_ended(side):
            return False
        return holder == CLIENT or (isinstance(holder, int) and self.system.servers[holder].ends[number, side].rest == "open")

    def clients(self, *servers):
        """Connections of clients that a server has accepted, or may."""
        return self.connections(lambda it: it.holders[OPENER] == CLIENT and it.to in servers and it.holders[OTHER] != "nobody")

    # ---- actions

    def begins(self):
        """A server that doesn't run is started."""
        down = [number for number, it in enumerate(self.system.servers) if not it]
        if down:
            self.starts += 1
            role = self.random.choice(["master", "master", "master", "replica"])
            sync = self.random.choice(["always", "no"])
            number = self.random.choice(down)
            yield "start %d %s %d %d %s %d" % (number, role, self.starts * IDS_OF_A_START, self.backlog, sync, self.most)
            yield "time %d %d" % (number, self.clock)
            if self.chance(0.6) and self.up():
                yield from self.asked(number, self.to_follow())

    def kills(self):
        running = [number for number, it in enumerate(self.system.servers) if it]
        number = self.random.choice(running)
        server = self.system.servers[number]
        unsynced = len(server.file) - server.synced
        yield "kill %d %d" % (number, self.random.choice([0, unsynced, unsynced, self.random.randint(0, unsynced), max(0, unsynced - 1)]))
        if self.chance(0.7):
            yield from self.begins()

    def turns(self):
        number = self.any_of(self.up())
        if number is not None:
            yield "turn %d" % number

    def accepts(self):
        number = self.any_of(self.waiting())
        if number is not None:
            yield "accept %d" % number

    def delivers(self):
        held = self.deliverable()
        if held:
            yield self.delivery(*self.random.choice(held))

    def delivery(self, number, side, most=0.5):
        there = len(self.system.connections[number].ways[side])
        count = there if self.chance(most) else self.random.choice([1, 27, self.random.randint(0, there), max(0, there - 1)])
        return "deliver %d %s %d" % (number, side, count)

    def opens(self):
        number = self.any_of(self.up())
        if number is not None and len(self.clients(number)) < 4:
            yield "client %d" % number

    def sends(self):
        number = self.any_of(self.clients(*self.up()))
        if number is not None:
            yield self.sending(number, self.words())

    def sending(self, number, *requests):
        return "send %d %s" % (number, hexadecimal(b"".join(request(*words) for words in requests)))

    def asks(self):
        """A request, or a transaction, that a server has at once."""
        masters = self.up("master")
        number = self.random.choice(masters) if masters and self.chance(0.8) else self.any_of(self.up())
        if number is not None:
            yield from self.asked(number, *self.some())

    def asked(self, number, *requests):
        held = [it for it in self.clients(number) if self.system.connections[it].holders[OTHER] == number]
        client = self.any_of(held)
        if client is None:
            yield "client %d" % number
            client = len(self.system.connections) - 1
            yield "accept %d" % client
            yield "turn %d" % number
        yield self.sending(client, *requests)
        yield "deliver %d %s 100000" % (client, OTHER)
        yield "turn %d" % number
        if self.chance(0.5):
            yield "deliver %d %s 100000" % (client, OPENER)

    def pumps(self):
        """Some rounds in which nearly all is accepted and delivered, so that replicas come forward."""
        for _ in range(self.random.randint(1, 8)):
            for number in self.waiting():
                if self.chance(0.9):
                    yield "accept %d" % number
            for number, side in self.deliverable():
                if self.chance(0.95):
                    yield self.delivery(number, side, 0.9)
            for number in self.up():
                yield "turn %d" % number

    def passes(self):
        """Time goes on, mostly the same everywhere."""
        self.clock += self.random.choice([1, 50, 100, 150, 1000, 1000, 5000, 10_000])
        for number in self.up():
            if self.chance(0.8):
                yield "time %d %d" % (number, self.clock + self.random.choice([0, 0, 0, 300]))

    def cuts(self):
        number = self.any_of(self.connections(lambda it: set(it.holders.values()) != {"nobody"}))
        if number is not None:
            yield "cut %d" % number

    def cuts_links(self):
        """The link of a replica to its master breaks, which mostly has more to tell when it comes back."""
        replica = self.any_of(self.up("connected"))
        held = self.connections(lambda it: it.holders[OPENER] == replica and it.holders[OTHER] != "nobody")
        if replica is None or not held:
            return
        to = self.system.connections[held[-1]].to
        if self.chance(0.5) and to in self.up():
            yield from self.asked(to, *self.some())
        yield "cut %d" % held[-1]
        if self.chance(0.7):
            yield from self.pumps()
            yield from self.pumps()

    def leaves(self):
        number = self.any_of(self.connections(lambda it: it.holders[OPENER] == CLIENT))
        if number is not None:
            yield "close %d" % number

    def follows(self):
        """A server is told to follow another one, or itself, or nobody who is there."""
        masters = self.up("master")
        number = self.any_of(masters if len(masters) > 1 and self.chance(0.7) else self.up())
        if number is not None and (len(masters) > 1 or self.chance(0.1)):
            yield from self.asked(number, self.to_follow(number))
            yield from self.pumps()

    def to_follow(self, number=None):
        """The request to follow another one, and now and then oneself, a replica, or nobody."""
        others = [it for it in self.up("master") if it != number]
        to = self.random.choice(others) if others and self.chance(0.95) else self.random.randrange(SERVERS + 1)
        return ["REPLICAOF", self.random.choice(["127.0.0.1", "localhost"]) if self.chance(0.98) else "h", str(FIRST_PORT + to)]

    def promotes(self):
        held = self.up("connect", "sync", "connected")
        telling = [it for it in held if self.system.servers[it].node.offset]
        number = self.any_of(telling if telling and self.chance(0.7) else held)
        if number is not None:
            yield from self.asked(number, ["REPLICAOF", "NO", "ONE"])

    def gathers(self):
        """All follow one master, and mostly come up to it. Then it has more to tell, of which some have more than others."""
        master = self.any_of(self.up("master"))
        if master is None:
            return
        for number in self.up():
            if number != master and self.system.servers[number].node.host_port != FIRST_PORT + master:
                yield from self.asked(number, ["REPLICAOF", "127.0.0.1", str(FIRST_PORT + master)])
        for _ in range(3):
            yield from self.pumps()
        if master in self.up():
            for _ in range(self.random.randint(1, 3)):
                yield from self.asked(master, *self.some())
            for number, side in self.deliverable():
                if self.chance(0.5):
                    yield self.delivery(number, side)
            for number in self.up():
                if number != master and self.chance(0.8):
                    yield "turn %d" % number
        if self.chance(0.7):
            yield from self.fails_over()

    def fails_over(self):
        """A replica is promoted as it stands; each goes on by itself; and the old master, which may be killed, and others come back as its replicas."""
        replica = self.any_of(self.up("connected"))
        if replica is None:
            return
        yield from self.asked(replica, ["REPLICAOF", "NO", "ONE"])
        master = self.system.servers[replica].node.host_port - FIRST_PORT
        if 0 <= master < SERVERS and self.system.servers[master] and self.chance(0.3):
            yield "kill %d 100000" % master
            yield from self.begins()
        for number in self.up("master") * 2:
            if self.chance(0.7):
                yield from self.asked(number, *self.some())
        others = [it for it in self.up() if it != replica]
        for number in self.random.sample(others, len(others)):
            if self.chance(0.8):
                yield from self.asked(number, ["REPLICAOF", "127.0.0.1", str(FIRST_PORT + replica)])
        for _ in range(self.random.randint(1, 3)):
            yield from self.pumps()

    # ---- requests

    def some(self):
        """A request, several, or a transaction."""
        if self.chance(0.05 if self.is_even else 0.25):
            inside = [self.words_on_data() for _ in range(self.random.randint(0, 4))]
            return [["MULTI"], *inside, ["EXEC" if self.chance(0.9) else "DISCARD"]]
        return [self.words() for _ in range(self.random.choice([1, 1, 1, 2, 5]))]

    def words(self):
        if self.chance(0.06):
            return self.random.choice(TO_THE_NODE)
        if self.chance(0.002):
            return ["SHUTDOWN"]
        return self.words_on_data()

    def words_on_data(self):
        one, pick = self.random.randint, self.random.choice
        key, value = pick("kl"), pick("vwx")
        if self.is_even:
            return ["SET", key, value] if self.chance(0.9) else ["GET", key]
        return pick([
            lambda: ["SET", key, value],
            lambda: ["SET", key, value * one(0, 40)],
            lambda: ["SET", key, value, "PX", str(one(1, 3000))],
            lambda: ["SET", key, value, pick(["KEEPTTL", "NX", "XX", "GET"])],
            lambda: ["GET", key],
            lambda: ["DEL", key, pick("ksq")],
            lambda: ["EXPIRE", pick("klsqz"), str(pick([1, 2, 5, 0, -1]))],
            lambda: ["PTTL", pick("klsqz")],
            lambda: ["INCR", pick("kn")],
            lambda: ["SADD", "s", *self.random.sample("abcdef", one(1, 4))],
            lambda: ["SREM", "s", *self.random.sample("abcdef", one(1, 4))],
            lambda: ["SPOP", pick("sk"), *pick([[], [str(one(-1, 3))]])],
            lambda: ["LPUSH", "q", *([value] * pick([1, 2, 70]))],
            lambda: ["LPOP", "q", *pick([[], [str(one(-1, 3))]])],
            lambda: ["ZADD", pick("zk"), *(word for member in self.random.sample("abcdef", one(1, 4)) for word in (str(one(-9, 9)), member))],
            lambda: ["FLUSHALL"],
            lambda: ["DBSIZE"],
        ])()


TO_THE_NODE = [
    ["PING"],
    ["INFO", "all"],
    ["ROLE"],
    ["BGREWRITEAOF"],
    ["BGREWRITEAOF"],
    ["QUIT"],
    ["NOSUCH", "x"],
    ["GET"],
    ["EXEC"],
    ["MULTI"],
    ["PSYNC", "?", "-1"],
    ["REPLCONF", "ACK", "5"],
]

# how often each thing is done, beside the others
WEIGHTS = {
    Scheduler.begins: 0.6,
    Scheduler.kills: 0.25,
    Scheduler.turns: 7,
    Scheduler.accepts: 2.5,
    Scheduler.delivers: 6,
    Scheduler.opens: 0.7,
    Scheduler.sends: 3,
    Scheduler.asks: 5,
    Scheduler.pumps: 4,
    Scheduler.passes: 1,
    Scheduler.cuts: 0.2,
    Scheduler.cuts_links: 0.6,
    Scheduler.leaves: 0.3,
    Scheduler.follows: 1,
    Scheduler.promotes: 0.35,
    Scheduler.fails_over: 0.3,
    Scheduler.gathers: 0.5,
}


class Schedule(NamedTuple):
    """The lines of a schedule, and what they are to be answered."""

    lines: list
    answers: list


def schedule(seed, count):
    """The schedule of about so many events for this seed."""
    lines, answers = zip(*Scheduler(seed).lines(count))
    return Schedule(list(lines), list(answers))
