"""What holds of a world after each event, whatever it was: no two nodes differ in silence. `python3 -m tests.models.world_watch EVENTS [SEED]` looks at random worlds.

Nodes are compared with the histories in the book, which are folded by themselves; a replica with its master, where all that was sent was taken and used."""

import copy
import random
import sys
import time
from collections import Counter

from tests.models.dataset import Given, load
from tests.models.node import IDLE, NO_ID, REPLICA
from tests.models.world import Refusal, answer
from tests.models.world_scripts import Scripter

# a world's links grow in number, and so does what each event costs
EVENTS_OF_A_WORLD = 2_000


class Watch:
    """Looks at a world after each of its events."""

    def __init__(self, world):
        self.world = world
        # what was told of each history, and what each pair of id and offset that was ever shown stood for
        self.told, self.shown = {}, {}
        # the node, its file and its dataset, as they were last found good
        self.good = {}
        self.counts = Counter()

    def look(self):
        self.look_at_book()
        for number, place in enumerate(self.world.places):
            if not place.node.is_stopped:
                self.look_at_node(number, place)
        extending = [place.node.id for place in self.world.places if not place.node.is_stopped and not place.node.is_replica]
        self.holds(len(extending) == len(set(extending)), "two masters go on under one id")
        for opener, other in self.world.links:
            self.look_at_end(opener, other)
            self.look_at_end(other, opener)
            if self.is_caught_up(opener, other):
                self.look_at_replica(self.world.node(opener.node), self.world.node(other.node))

    def holds(self, is_so, what):
        if not is_so:
            raise AssertionError(what)

    def look_at_book(self):
        book = self.world.book
        self.holds(self.told.keys() <= book.keys(), "an id is gone from the book")
        for id, history in book.items():
            start, told = self.told.get(id, (history.start, b""))
            self.holds(history.start is start, "a history begins anew")
            self.holds(history.told is told or history.told.startswith(told), "a history lost a group")
            self.told[id] = (start, history.told)

    def look_at_node(self, number, place):
        node = place.node
        now = (node, node.id, node.offset, node.held, place.file, node.ring, node.second, node.second_offset)
        if all(it is was for it, was in zip(now, self.good.get(number, [None]))):
            return
        history = self.world.book[node.id]
        self.holds(node.offset in history.at, "an offset inside of a group is shown")
        self.holds(node.held == history.at[node.offset], "a node's dataset isn't that of its id and offset")
        self.holds(self.shown.setdefault(node.shows(), node.held) == node.held, "two datasets under one id and offset")
        self.holds(history.told[: node.offset].endswith(node.ring) and len(node.ring) <= node.capacity, "a backlog has other bytes than the stream's last")
        self.holds(load(place.file) == (node.held, len(place.file)), "a file isn't read as the node's dataset")
        if node.second != NO_ID:
            shared, before = node.second_offset - 1, self.world.book[node.second]
            self.holds(before.told[:shared] == history.told[:shared] and before.start == history.start, "the second id has another history")
            self.holds(shared <= min(before.offset, node.offset), "the second offset is behind the stream")
        self.good[number] = now

    def look_at_end(self, end, other):
        """An end's unread bytes are those sent to it, from the count used to the count taken."""
        if end.is_open and end.node is not None:
            node = self.world.node(end.node)
            self.holds(node.ends[end.name].unread == other.sent[end.used : end.taken], "bytes were used that don't count, or count and weren't used")

    def is_caught_up(self, opener, other):
        if opener.node is None or not (opener.is_open and other.is_open) or opener.taken < len(other.sent):
            return False
        replica, master = self.world.node(opener.node), self.world.node(other.node)
        if replica.is_stopped or master.is_stopped or master.ends[other.name].kind != REPLICA:
            return False
        return not replica.ends[opener.name].unread or copy.deepcopy(replica).step(opener.name, Given(0), NO_ID) == IDLE

    def look_at_replica(self, replica, master):
        self.counts["caught up"] += 1
        self.holds(replica.shows() == master.shows(), "a replica that is caught up shows something else than its master")
        self.holds(replica.held == master.held, "a replica that is caught up differs from its master")


def corrupted(world, chance):
    """Bytes that a node's file may be found as."""
    data = chance.choice(world.places).file
    at = chance.randint(0, len(data))
    return chance.choice([
        data[:at] + bytes([chance.randrange(256)]) + data[at + 1 :],
        data[:at] + data[chance.randint(0, len(data)) :],
        data[:at] + b"*1\r\n$3\r\nFOO\r\n" + data[at:],
        data + b"*1\r\n$4\r\nPING\r\n*2\r\n$3\r\nDEL\r\n",
        data + data,
    ])


def watched(seed, count):
    """Plays that many random events on a world, files that are corrupted among them; how often each gave which answer."""
    scripter, chance = Scripter(seed), random.Random(-1 - seed)
    world, lines = scripter.world, scripter.lines()
    watch = Watch(world)
    for _ in range(count):
        if chance.random() < 0.003 and world.places:
            restarted(world, chance, scripter.id())
            watch.counts["corrupted file"] += 1
        else:
            line = next(lines)
            told = answer(world, line)
            watch.counts[told.decode() if told in (b"bad line",) or (told or b"").startswith(b"refused") else line.split(b" ")[0].decode()] += 1
        watch.look()
    watch.counts["histories"] += len(world.book)
    watch.counts["branches"] += world.branches
    watch.counts["larger groups"] += sum(len(group) > 1 for history in world.book.values() for group in history.groups)
    return watch.counts


def restarted(world, chance, id):
    try:
        world.restart(chance.randrange(len(world.places)), corrupted(world, chance), id)
    except Refusal:
        # the id was drawn before
        pass


def main(words):
    events, seed = int(words[0]), int(words[1]) if words[1:] else 0
    counts, began = Counter(), time.monotonic()
    for world in range(seed, seed + max(1, events // EVENTS_OF_A_WORLD)):
        try:
            counts += watched(world, min(events, EVENTS_OF_A_WORLD))
        except AssertionError as found:
            print("seed %d: %s" % (world, found))
            raise
    print("%d seconds; %s" % (time.monotonic() - began, dict(counts.most_common())))


if __name__ == "__main__":
    main(sys.argv[1:])
