"""Sets against a plain model: random calls, and every member that is drawn by its place compared."""

import bisect
import random
import unittest

from tests.support.names import name_of
from tests.support.replies import NIL, NONE, Playing, array, bulk, number

CALLS = 60_000
# the random words with which a server is run: what is drawn begins at the place that is the word modulo the number of members
WORDS = (0, 7, 1_234_567, 2 ** 64 - 1)
# how many members the set at each key tends to
SIZES = {b"none": 0, b"one": 1, b"few": 20, b"chunk": 250, b"chunks": 1_000, b"many": 5_000}


class Player:
    """Makes calls on sets, each a list in byte order, and says what is wanted of each."""

    def __init__(self, word):
        self.chance = random.Random(word)
        self.word = word
        self.sets = {key: [] for key in SIZES}

    def member(self, key):
        return name_of(self.chance.randrange(max(2 * SIZES[key], 2)))

    def drawn(self, members, count):
        place = self.word % len(members) if members else 0
        return (members[place:] + members[:place])[:count]

    def call(self):
        key = self.chance.choice(list(SIZES))
        members = self.sets[key]
        if len(members) < SIZES[key] and self.chance.random() < 0.5:
            return self.add(key, members)
        return self.chance.choice(CALLS_ON_SETS)(self, key, members)

    def add(self, key, members):
        words = [self.member(key) for _ in range(self.chance.randint(1, 20))]
        new = 0
        for word in words:
            if not is_in(members, word):
                bisect.insort(members, word)
                new += 1
        return (b"SADD", key, *words), number(new)

    def remove(self, key, members):
        words = [self.member(key) for _ in range(self.chance.randint(1, 4))]
        gone = {word for word in words if is_in(members, word)}
        for word in gone:
            members.remove(word)
        return (b"SREM", key, *words), number(len(gone))

    def is_member(self, key, members):
        word = self.member(key)
        return (b"SISMEMBER", key, word), number(int(is_in(members, word)))

    def card(self, key, members):
        return (b"SCARD", key), number(len(members))

    def pop(self, key, members):
        drawn = self.drawn(members, 1)
        for member in drawn:
            members.remove(member)
        return (b"SPOP", key), bulk(drawn[0]) if drawn else NIL

    def pop_some(self, key, members):
        count = self.chance.randint(0, 12)
        drawn = self.drawn(members, count)
        for member in drawn:
            members.remove(member)
        return (b"SPOP", key, b"%d" % count), array(*drawn) if drawn else NONE

    def draw(self, key, members):
        drawn = self.drawn(members, 1)
        return (b"SRANDMEMBER", key), bulk(drawn[0]) if drawn else NIL

    def draw_some(self, key, members):
        # seldom more than there are
        count = len(members) + 1 if self.chance.random() < 0.01 else self.chance.randint(0, 12)
        drawn = self.drawn(members, count)
        return (b"SRANDMEMBER", key, b"%d" % count), array(*drawn) if drawn else NONE


def is_in(members, word):
    at = bisect.bisect_left(members, word)
    return at < len(members) and members[at] == word


CALLS_ON_SETS = (
    Player.add, Player.remove, Player.remove, Player.is_member, Player.is_member, Player.card, Player.pop, Player.pop_some, Player.draw,
    Player.draw_some,
)


class Draws(Playing):
    def draws(self, word):
        player = Player(word)
        calls = [player.call() for _ in range(CALLS)]
        # at the end each set is told whole
        for key, members in player.sets.items():
            calls.append(((b"SMEMBERS", key), array(*members) if members else NONE))
        self.assertGreater(len(player.sets[b"many"]), 4_000)
        self.plays(calls, "--word", "%d" % word)

    def test_random_calls_have_the_replies_of_the_model(self):
        for word in WORDS:
            with self.subTest(word=word):
                self.draws(word)


if __name__ == "__main__":
    unittest.main()
