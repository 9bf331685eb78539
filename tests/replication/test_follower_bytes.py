"""Random bytes of masters, mostly good ones changed a little, in random pieces: the proved follower and a plain one hear the same, refuse the
same at the same place, and keep the same bytes.

    python3 -m tests.replication.test_follower_bytes COUNT SEED

compares them on so many bytes."""

import random
import sys
import unittest

from tests.models.follower import MOST, TORN, Entries, Fault, PlainFollower
from tests.support.program import request
from tests.support.rehearsal import texts_of
from tests.support.requests import EXEC, MULTI, framed
from tests.support.values import Playing, spelled

COUNT, SEED = 1_000_000, 20
# so many masters in one run of the program
AT_ONCE = 400
IDS = [letter * 40 for letter in "ab"]
KEYS = [b"k", b"l", b"h", b"s", b"z", b"", b"\r\n"]
WORDS = [b"", b"v", b"w", b"10", b"-3", b"x" * 40, b"\r\n$1\r\n"]
NUMBERS = [b"1", b"2", b"0", b"-1", b"3", b"7", b"9007199254740992", b"9007199254740993", b"4611686018427387904", b"9223372036854775807"]
# the words behind a key, a letter for each (`word`)
SHAPES = {
    "SET": ["w", "wPn", "wK"],
    "APPEND": ["w"],
    "SETRANGE": ["nw"],
    "INCRBY": ["n"],
    "DEL": [""],
    "PEXPIREAT": ["n"],
    "PERSIST": [""],
    "RENAME": ["k"],
    "HSET": ["ww", "wwww"],
    "HDEL": ["w", "ww"],
    "LPUSH": ["w", "www"],
    "RPUSH": ["w", "www"],
    "LPOP": ["i"],
    "RPOP": ["i"],
    "LSET": ["iw"],
    "LINSERT": ["Bww"],
    "LREM": ["nw"],
    "LTRIM": ["ii"],
    "LMOVE": ["kSS"],
    "SADD": ["w", "www"],
    "SREM": ["w", "ww"],
    "SMOVE": ["kw"],
    "ZADD": ["nw", "nwnw"],
    "ZREM": ["w", "ww"],
}
NAMES = sorted(SHAPES)
# where a kind of value mostly stands
LISTS = ("LPUSH", "RPUSH", "LPOP", "RPOP", "LSET", "LINSERT", "LREM", "LTRIM", "LMOVE")
OWN = {**{name: b"l" for name in LISTS}, **{name: b"s" for name in ("SADD", "SREM", "SMOVE")}, "HSET": b"h", "HDEL": b"h", "ZADD": b"z", "ZREM": b"z"}


class Masters:
    """What masters send, and how it comes."""

    def __init__(self, seed):
        self.random = random.Random(seed)

    def words(self):
        """The words of an effect, or of what is nearly one."""
        chosen = self.random.random()
        if chosen < 0.05:
            return [b"PING"]
        if chosen < 0.07:
            return [b"FLUSHALL"]
        if chosen < 0.12:
            return [b"MSET", *(word for _ in range(self.random.randint(1, 2)) for word in (self.random.choice(KEYS), self.random.choice(WORDS)))]
        name = self.random.choice(NAMES)
        key = self.random.choice(KEYS) if self.random.random() < 0.2 else OWN.get(name, b"k")
        return [name.encode(), key, *map(self.word, self.random.choice(SHAPES[name]))]

    def word(self, shape):
        return self.random.choice({
            "w": WORDS,
            "n": NUMBERS,
            "i": [*NUMBERS, b"0", b"1", b"1", b"2", b"2"],
            "k": KEYS,
            "P": [b"PXAT"],
            "K": [b"KEEPTTL"],
            "B": [b"BEFORE", b"AFTER"],
            "S": [b"LEFT", b"RIGHT"],
        }[shape])

    def effects(self, held, count):
        """Texts of effects, of which nearly all can be applied one after another."""
        return b"".join(self.texts(held, count))

    def texts(self, held, count, bad=0.01):
        """The same one by one: of those that can't be applied so many are there."""
        texts = []
        for _ in range(count):
            words = self.words()
            try:
                held.apply(words)
            except Fault:
                if self.random.random() >= bad:
                    continue
            texts.append(request(*words))
        return texts

    def stream(self, held, count):
        """Texts of groups, of which most can be applied one after another: effects by themselves, and several in a frame."""
        return b"".join(self.group(held) if self.random.random() < 0.4 else self.effects(held, 1) for _ in range(count))

    def group(self, held):
        """The text of a group of more than one effect, or nearly: a later one may be such as can't be applied, or something else is wrong with it."""
        before = dict(held.entries)
        texts = [text for text in self.texts(held, self.random.randint(2, 8), bad=0.1) if text != request("PING")]
        chosen = self.random.random()
        if chosen < 0.05:
            return self.wrong(texts)
        if len(texts) < 2 and chosen < 0.95:
            held.entries = before
            return b""
        return framed(*texts)

    def wrong(self, texts):
        """Something that is no group's text, with these effects' texts in it."""
        bad = self.random.choice([MULTI, EXEC, request("PING"), request("FOO"), request("multi"), request("SET", "k"), b"\r\n", b"SET k v\r\n", b""])
        place = self.random.randint(0, len(texts))
        text = framed(*texts[:place], bad, *texts[place:])
        return self.random.choice([text, text, text[len(MULTI) :], text[: -len(EXEC)]])

    def sent(self, offers):
        """All that a master sends on a link."""
        answers = b"+PONG\r\n+OK\r\n+OK\r\n"
        if self.random.random() < 0.05:
            last = self.random.choice([b"-ERR no", b"+" + b"x" * self.random.randint(1020, 1026)])
            return answers[: self.random.choice([0, 7, 12, 17])] + last + b"\r\n"
        digits = self.random.choice(IDS).encode()
        held = Entries()
        if offers and self.random.random() < 0.5:
            return answers + b"+CONTINUE %s\r\n" % digits + self.stream(held, self.random.randint(0, 12))
        snapshot = self.effects(held, self.random.randint(0, 10))
        snapshot = held.texts() if self.random.random() < 0.5 else snapshot
        length = len(snapshot)
        if self.random.random() < 0.5:
            snapshot, length = self.lying(snapshot)
        offset = self.random.choice([0, 27, 10**6, MOST - 300, MOST - 100, MOST])
        full = b"+FULLRESYNC %s %d\r\n$%d\r\n" % (digits, offset, length)
        return answers + full + snapshot + self.stream(held, self.random.randint(0, 12))

    def lying(self, snapshot):
        """The bytes of a snapshot and their length, of which one isn't what it was."""
        how, at = self.random.randrange(4), self.random.randint(0, len(snapshot))
        if how == 0:
            # a length by a little too small or too great, or one that nobody sends
            length = len(snapshot) + self.random.choice([-27, -2, -1, 1, 2, 27, MOST - len(snapshot)])
            return snapshot, max(length, 0)
        if how == 1:
            return snapshot[:at], at
        if how == 2:
            # what is no effect, or one that can't be applied there; groups don't stand in a snapshot
            bad = [request("FOO"), request("GET", "k"), request("PERSIST", "none"), request("LPOP", "k", "1"), b"SET k v\r\n", b"\r\n"]
            bad = self.random.choice([*bad, MULTI, framed(request("SET", "k", "v"), request("DEL", "k"))])
            texts = list(texts_of(snapshot))
            place = self.random.randint(0, len(texts))
            snapshot = b"".join(texts[:place]) + bad + b"".join(texts[place:])
            return snapshot, len(snapshot)
        data = bytearray(snapshot)
        if data:
            data[min(at, len(data) - 1)] = self.random.randrange(256)
        return bytes(data), len(data)

    def changed(self, data):
        """The bytes, or the bytes with a few of them changed, taken away, moved or put in, mostly behind the first lines."""
        data, first = bytearray(data), self.random.choice([0, 17, 74, 74])
        for _ in range(self.random.choice([1, 1, 1, 2, 4])):
            at, end = sorted(self.random.randint(min(first, len(data)), len(data)) for _ in range(2))
            end = min(end, at + 8)
            piece = self.random.choice([b"", b"\r", b"\n", b"0", b"1", b"+", b"-", b"$", b"*", b"\r\n", bytes([self.random.randrange(256)]), bytes(data[at:end])])
            how = self.random.randrange(3)
            if how == 0:
                data[at : at + len(piece)] = piece
            elif how == 1:
                data[at:end] = piece
            else:
                data[at:at] = piece
        return bytes(data)

    def noise(self):
        """Bytes of which most mean something on a link."""
        marks = b"+-$*\r\n0123456789 SETkv"
        size = self.random.randint(1, 120)
        return bytes(self.random.choice(marks) if self.random.random() < 0.95 else self.random.randrange(256) for _ in range(size))

    def pieces(self, data):
        while data:
            size = self.random.choice([1, 2, 5, 20, 100, 1000])
            size = min(len(data), self.random.randint(1, size))
            yield data[:size]
            data = data[size:]

    def link(self):
        """A link from its first line on: its steps, each with what a plain follower answers to it, and how many bytes were fed."""
        follower, port = PlainFollower(), self.random.choice([0, 6380, 65535])
        steps, count = [], 0
        offer = self.random.choice([None, *IDS])
        if offer:
            follower.offset = self.random.choice([0, 27, MOST - 60, MOST])
            steps.append(("at %d" % follower.offset, "stands"))
            steps.append(("offer %s %d" % (offer, port), follower.begin(port, offer)))
        else:
            steps.append(("begin %d" % port, follower.begin(port)))
        chosen = self.random.random()
        data = self.noise() if chosen < 0.1 else self.sent(offer) if chosen < 0.4 else self.changed(self.sent(offer))
        for piece in self.pieces(data):
            steps.append(("feed " + spelled(piece), follower.feed(piece)))
            count += len(piece)
            heard = None
            while heard != "idle" and not (heard or "").startswith("refuses"):
                heard = follower.step()
                steps.append(("step", heard))
            if heard != "idle":
                break
        return [*steps, ("shows", follower.shows())], count


def compare(test, count, seed):
    """Compares the followers on so many bytes, and returns what was heard: how often each answer came."""
    masters, heard = Masters(seed), {}
    while count > 0:
        links = []
        while count > 0 and len(links) < AT_ONCE:
            steps, fed = masters.link()
            links.append(steps)
            count -= fed
        answers = test.answers_to(*("follower " + ";".join(step for step, _ in steps) for steps in links))
        test.assertEqual(len(answers), sum(map(len, links)))
        place = 0
        for number, steps in enumerate(links):
            for step, wanted in steps:
                test.assertEqual(answers[place], wanted, (seed, number, step, [it for it, _ in steps]))
                what = kind_of(wanted)
                heard[what] = heard.get(what, 0) + 1
                place += 1
    return heard


def kind_of(answer):
    """What an answer counts as."""
    if answer.startswith("refuses"):
        return answer
    if answer.startswith("applies " + MULTI.hex()):
        return "a group"
    return " ".join(answer.split(" ")[: 2 if answer.startswith("shows") else 1])


# what has to have come often enough for the comparison to say something
OFTEN = [
    "applies",
    "announces",
    "continues",
    "installs",
    "idle",
    "refuses: bad line",
    "refuses: refused by the master",
    "refuses: undecodable stream",
    "refuses: " + TORN,
    "a group",
]


class RandomBytes(Playing):
    def test_a_plain_follower_hears_the_same(self):
        heard = compare(self, COUNT, SEED)
        for what in OFTEN:
            self.assertGreaterEqual(heard.get(what, 0), 20, what)


if __name__ == "__main__":
    if len(sys.argv) == 3:
        print(compare(RandomBytes(), int(sys.argv[1]), int(sys.argv[2])))
    else:
        unittest.main()
