"""A slow, plain world of nodes and links, with the book of histories: what `minired world` is compared with.

Written from the description alone. `python3 -m tests.models.world [--backlog N] < SCRIPT` answers a script's lines as the program must. Requests stand in
`request.py`, effects and commands in `dataset.py`, a node in `node.py`, random scripts in `world_scripts.py`."""

import sys
from typing import NamedTuple

from tests.models.dataset import Given, apply_all, group_text, load, strict
from tests.models.node import CLOSED, IDLE, NO_ID, Append, Close, Grow, Node, NodeFault, Replace, Send, Used
from tests.models.request import MOST_OF_A_LINE, Bad, Skip, next_request
from tests.support.program import request

# why an event is refused: an id that was drawn before or is zeros, no such node or link, more bytes than were sent, no room
DRAWN, NOWHERE, UNSENT, FULL = 1, 2, 3, 5
USUAL_BACKLOG = 1_048_576
MOST_BACKLOG = 1_073_741_824
MOST_COUNT = 2**64 - 1
MOST_NOW = 2**61
OPENER, OTHER = 0, 1


class Refusal(Exception):
    """An event is refused, for the reason with this number, and has changed nothing."""


class End:
    """A link's end: the node there and its name for the end, or None twice for a client; what was sent from here, and how many of the other end's bytes were
    taken here, and how many of these used. It may wait for a node to open it."""

    def __init__(self, node, name, waits=False):
        self.node, self.name, self.waits = node, name, waits
        self.sent, self.taken, self.used, self.is_open = b"", 0, 0, not waits


class Place:
    """A node with its file, and the role in which it is started."""

    def __init__(self, node, is_replica):
        self.node, self.is_replica, self.file = node, is_replica, b""


class History:
    """What a replication id stood for: the dataset that it began with, and groups of effects. `at` are the datasets at the ends of groups, by offset."""

    def __init__(self, start, groups=()):
        self.start, self.groups, self.offset, self.told, self.at = start, [], 0, b"", {0: start}
        for group in groups:
            self.extend(group)

    def extend(self, group):
        held = apply_all(self.at[self.offset], group)
        self.groups.append(group)
        self.told += group_text(group)
        self.offset = len(self.told)
        self.at[self.offset] = held

    def cut(self, offset):
        """The history up to an end of a group."""
        if offset not in self.at:
            raise AssertionError("a history is cut inside of a group")
        ends, groups = 0, []
        for group in self.groups:
            ends += len(group_text(group))
            if ends > offset:
                break
            groups.append(group)
        return History(self.start, groups)


class World:
    def __init__(self, backlog=USUAL_BACKLOG, **limits):
        self.backlog, self.limits = backlog, limits
        self.places, self.links, self.book = [], [], {}
        # how many of the histories began as a part of another
        self.branches = 0

    # ---- what is asked of it

    def node(self, number):
        return self.places[number].node if number < len(self.places) else None

    def file(self, number):
        return self.places[number].file if number < len(self.places) else None

    def took(self, link, side):
        if link >= len(self.links):
            return None
        return self.links[link][1 - side].sent[: self.links[link][side].taken]

    # ---- events. Causes are looked at in the order of their numbers

    def start(self, id, is_replica):
        """The number of the new node."""
        self.new_id(id)
        self.places.append(Place(self.started(id, {}, is_replica), is_replica))
        return len(self.places) - 1

    def client(self, node):
        """The number of the new link, or None where the node is stopped."""
        place = self.place(node)
        if place.node.is_stopped:
            return None
        return self.joined(End(None, None), End(node, place.node.open()))

    def command(self, link, data):
        end = self.open_end(link, OPENER)
        if end.node is not None:
            raise Refusal(NOWHERE)
        end.sent += data

    def deliver(self, link, side, count):
        end, other = self.open_end(link, side), self.links[link][1 - side]
        if end.taken + count > len(other.sent):
            raise Refusal(UNSENT)
        if end.node is not None:
            node = self.places[end.node].node
            if node.is_stopped:
                return
            try:
                node.feed(end.name, other.sent[end.taken : end.taken + count])
            except NodeFault:
                raise Refusal(FULL) from None
        end.taken += count

    def step(self, link, side, given, fresh):
        if self.is_drawn(fresh):
            raise Refusal(DRAWN)
        end = self.open_end(link, side)
        if end.node is None:
            raise Refusal(NOWHERE)
        node = self.places[end.node].node
        if node.is_stopped:
            return
        done = node.step(end.name, given, fresh)
        if done == CLOSED:
            raise AssertionError("an end that is open here is closed for its node")
        if done != IDLE:
            # what is unread of a link that closes doesn't count
            end.used = end.taken - node.unread(end.name)
            self.carry_out(end.node, done)

    def tick(self, node, given):
        place = self.place(node)
        if not place.node.is_stopped:
            self.carry_out(node, place.node.tick(given))

    def break_end(self, link, side):
        end = self.open_end(link, side)
        if end.node is not None and self.places[end.node].node.is_stopped:
            return
        self.close(end)

    def dial(self, node, to):
        """The number of the new link, or None where one of the nodes is stopped."""
        place, other = self.place(node), self.place(to)
        if not place.node.waits():
            raise Refusal(NOWHERE)
        if place.node.is_stopped or other.node.is_stopped:
            return None
        name, outs = place.node.dial()
        link = self.joined(End(node, name), End(to, other.node.open()))
        self.carry_out(node, outs)
        return link

    def connect(self, node):
        """The number of the new link, which waits for a node to accept it, or None where the node is stopped."""
        place = self.place(node)
        if not place.node.waits():
            raise Refusal(NOWHERE)
        if place.node.is_stopped:
            return None
        name, outs = place.node.dial()
        link = self.joined(End(node, name), End(None, None, waits=True))
        self.carry_out(node, outs)
        return link

    def accept(self, link, node):
        """A link that waits is served by this node from now on, whatever became of the one that dialled."""
        if link >= len(self.links) or not self.links[link][OTHER].waits:
            raise Refusal(NOWHERE)
        place = self.place(node)
        if not place.node.is_stopped:
            end = self.links[link][OTHER]
            end.node, end.name, end.waits, end.is_open = node, place.node.open(), False, True

    def restart(self, node, kept, id):
        if self.is_drawn(id):
            raise Refusal(DRAWN)
        place = self.place(node)
        self.new_id(id)
        for ends in self.links:
            for end in ends:
                if end.node == node and end.is_open:
                    self.close(end)
        held, used = load(kept)
        place.node, place.file = self.started(id, held, place.is_replica), kept[:used]

    # ---- their parts

    def is_drawn(self, id):
        return id in self.book or id == NO_ID

    def new_id(self, id):
        if self.is_drawn(id):
            raise Refusal(DRAWN)

    def started(self, id, held, is_replica):
        self.book[id] = History(held)
        return Node(id, held, is_replica, 0, self.backlog, **self.limits)

    def place(self, node):
        if node >= len(self.places):
            raise Refusal(NOWHERE)
        return self.places[node]

    def open_end(self, link, side):
        if link >= len(self.links) or not self.links[link][side].is_open:
            raise Refusal(NOWHERE)
        return self.links[link][side]

    def joined(self, opener, other):
        self.links.append((opener, other))
        return len(self.links) - 1

    def close(self, end):
        """Closes an end, which loses what it hasn't used."""
        end.is_open = False
        if end.node is not None:
            self.places[end.node].node.close(end.name)

    def carry_out(self, number, outs):
        """Does what a node gave out, in its order."""
        place = self.places[number]
        ends = {end.name: end for pair in self.links for end in pair if end.node == number and end.is_open}
        for out in outs:
            if isinstance(out, Grow):
                for group in out.groups:
                    self.book[place.node.id].extend(group)
            elif isinstance(out, Append):
                place.file += out.data
            elif isinstance(out, Replace):
                place.file = out.data
            elif isinstance(out, Send):
                ends[out.link].sent += out.data
            elif isinstance(out, Close):
                self.close(ends[out.link])
            elif isinstance(out, Used):
                self.book[out.id] = self.book[place.node.second].cut(place.node.offset)
                self.branches += 1


# ---- scripts


class BadLine(Exception):
    """A line that is no event."""


def digits_of(word):
    """The id that a word of a script names."""
    if len(word) not in (1, 40) or any(byte not in b"0123456789abcdef" for byte in word):
        raise BadLine
    return word * 40 if len(word) == 1 else word


def count_of(word, most=MOST_COUNT):
    value = strict(word, 0, most)
    if value is None:
        raise BadLine
    return value


def side_of(word):
    if word not in (b"a", b"b"):
        raise BadLine
    return OPENER if word == b"a" else OTHER


def now_of(word):
    return count_of(word, MOST_NOW)


class Words(NamedTuple):
    """How the words behind an event's name are read; with `rest` at least one more stands behind them."""

    play: object
    reads: tuple
    rest: bool = False


def numbered(name, number):
    return b"ok" if number is None else b"%s %d" % (name, number)


def plays_start(world, id):
    return numbered(b"node", world.start(id, False))


def plays_replica(world, id):
    return numbered(b"node", world.start(id, True))


def plays_client(world, node):
    return numbered(b"link", world.client(node))


def plays_dial(world, node, to):
    return numbered(b"link", world.dial(node, to))


def plays_connect(world, node):
    return numbered(b"link", world.connect(node))


def plays_send(world, link, *words):
    world.command(link, request(*words))


def plays_step(world, link, side, now, word, fresh):
    world.step(link, side, Given(now, word), fresh)


def plays_restart(world, node, count, id):
    world.restart(node, (world.file(node) or b"")[:count], id)


def plays_show(world, number):
    node = world.node(number)
    if not node:
        raise Refusal(NOWHERE)
    shown = node.shows()
    return b"%d %s %d" % (number, *shown) if shown else b"%d stopped" % number


def plays_got(world, link):
    if link >= len(world.links) or world.links[link][OPENER].node is not None:
        raise Refusal(NOWHERE)
    return printable(world.took(link, OPENER))


def printable(data):
    return b"".join(b"%c" % byte if 0x20 <= byte <= 0x7E and byte != ord("\\") else b"\\x%02x" % byte for byte in data)


EVENTS = {
    b"start": Words(plays_start, (digits_of,)),
    b"replica": Words(plays_replica, (digits_of,)),
    b"client": Words(plays_client, (count_of,)),
    b"send": Words(plays_send, (count_of,), rest=True),
    b"raw": Words(World.command, (count_of, bytes)),
    b"deliver": Words(World.deliver, (count_of, side_of, count_of)),
    b"step": Words(plays_step, (count_of, side_of, now_of, count_of, digits_of)),
    b"tick": Words(lambda world, node, now: world.tick(node, Given(now)), (count_of, now_of)),
    b"break": Words(World.break_end, (count_of, side_of)),
    b"dial": Words(plays_dial, (count_of, count_of)),
    b"connect": Words(plays_connect, (count_of,)),
    b"accept": Words(World.accept, (count_of, count_of)),
    b"restart": Words(plays_restart, (count_of, count_of, digits_of)),
    b"show": Words(plays_show, (count_of,)),
    b"got": Words(plays_got, (count_of,)),
}


def event_of(words):
    """What plays the event with these words on a world, or a bad line."""
    event = EVENTS.get(words[0])
    if not event or len(words) - 1 < len(event.reads) + event.rest or (not event.rest and len(words) - 1 > len(event.reads)):
        raise BadLine
    read = [reads(word) for reads, word in zip(event.reads, words[1:])]
    return lambda world: event.play(world, *read, *words[1 + len(read) :])


def answer(world, line):
    """Plays a line, without its end, and returns its answer; None for one without words."""
    if len(line) > MOST_OF_A_LINE or line[:1] == b"*":
        return b"bad line"
    read = next_request(line + b"\n")
    if isinstance(read, Bad):
        return b"bad line"
    if isinstance(read, Skip):
        return None
    try:
        told = event_of(read.words)(world)
        return b"ok" if told is None else told
    except BadLine:
        return b"bad line"
    except Refusal as refusal:
        return b"refused %d" % refusal.args


def answers(script, backlog=USUAL_BACKLOG):
    """The answers to a script's whole lines, on a world of its own."""
    world = World(backlog)
    told = (answer(world, line) for line in script.split(b"\n")[:-1])
    return [it for it in told if it is not None]


def main(words):
    backlog = USUAL_BACKLOG
    if words:
        backlog = strict(words[1].encode(), 1, MOST_BACKLOG) if len(words) == 2 and words[0] == "--backlog" else None
    if backlog is None:
        print(__doc__, file=sys.stderr)
        return 1
    sys.stdout.buffer.write(b"".join(it + b"\n" for it in answers(sys.stdin.buffer.read(), backlog)))
    return 0


if __name__ == "__main__":
    sys.exit(main(sys.argv[1:]))
