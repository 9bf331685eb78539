"""Sorted sets against a plain model: random calls, and every range, rank and count compared."""

import bisect
import random
import unittest

from tests.support.names import name_of
from tests.support.replies import NIL, NONE, Playing, array, bulk, number

CALLS = 300_000
# how many members the set at each key tends to
SIZES = {b"none": 0, b"one": 1, b"scanned": 10, b"few": 20, b"chunk": 250, b"chunks": 1_000, b"many": 5_000}
MOST = 2 ** 53


class Model:
    """A sorted set as a dictionary beside a list of all pairs in order."""

    def __init__(self):
        self.scores = {}
        self.pairs = []

    def remove(self, member):
        score = self.scores.pop(member)
        del self.pairs[bisect.bisect_left(self.pairs, (score, member))]

    def put(self, member, score):
        if member in self.scores:
            self.remove(member)
        self.scores[member] = score
        bisect.insort(self.pairs, (score, member))

    def take(self, pairs):
        for _, member in pairs:
            self.remove(member)

    def places(self, first, last):
        """The pairs from one place to another, both included, where places below 0 count from the end."""
        count = len(self.pairs)
        first = max(first + count if first < 0 else first, 0)
        last = last + count if last < 0 else last
        return self.pairs[first:last + 1] if first <= last else []

    def within(self, low, high):
        return [pair for pair in self.pairs if low.is_from(pair[0]) and high.is_to(pair[0])]


class Bound:
    """A bound on scores, and its text."""

    def __init__(self, chance):
        self.score = some_score(chance)
        self.excluded = chance.random() < 0.3
        self.text = (b"(" if self.excluded else b"") + b"%d" % self.score
        if chance.random() < 0.1:
            sign = chance.choice((-1, 1))
            self.score, self.excluded = sign * 2 * MOST, False
            self.text = b"-inf" if sign < 0 else b"+inf"

    def is_from(self, score):
        return self.score < score or (self.score == score and not self.excluded)

    def is_to(self, score):
        return score < self.score or (self.score == score and not self.excluded)


def some_score(chance):
    return chance.choice((-MOST, MOST)) if chance.random() < 0.01 else chance.randint(-200, 200)


def listed(pairs, with_scores):
    words = []
    for score, member in pairs:
        words += [member, b"%d" % score] if with_scores else [member]
    return array(*words) if words else NONE


class Player:
    """Makes calls, and says what is wanted of each."""

    def __init__(self, seed):
        self.chance = random.Random(seed)
        self.sets = {key: Model() for key in SIZES}

    def member(self, key):
        return name_of(self.chance.randrange(max(2 * SIZES[key], 2)))

    def place(self, model):
        return self.chance.randint(-len(model.pairs) - 2, len(model.pairs) + 2)

    def window(self, model):
        """Two places, mostly near to each other, seldom around all."""
        if self.chance.random() < 0.002:
            return 0, -1
        first = self.place(model)
        return first, first + self.chance.randint(-1, 12)

    def call(self):
        key = self.chance.choice(list(SIZES))
        model = self.sets[key]
        if len(model.pairs) < SIZES[key] and self.chance.random() < 0.5:
            return self.add(key, model)
        return self.chance.choice(CALLS_ON_SETS)(self, key, model)

    def add(self, key, model):
        before, words = len(model.scores), []
        for _ in range(self.chance.randint(1, 4)):
            member, score = self.member(key), some_score(self.chance)
            model.put(member, score)
            words += [b"%d" % score, member]
        return (b"ZADD", key, *words), number(len(model.scores) - before)

    def increment(self, key, model):
        member, step = self.member(key), self.chance.randint(-30, 30)
        score = model.scores.get(member, 0) + step
        if abs(score) > MOST:
            return (b"ZINCRBY", key, b"%d" % step, member), b"-ERR resulting score is out of range\r\n"
        model.put(member, score)
        return (b"ZINCRBY", key, b"%d" % step, member), bulk(b"%d" % score)

    def remove(self, key, model):
        member = self.member(key)
        there = member in model.scores
        if there:
            model.remove(member)
        return (b"ZREM", key, member), number(int(there))

    def rank(self, key, model):
        member, turned = self.member(key), self.chance.random() < 0.5
        name = b"ZREVRANK" if turned else b"ZRANK"
        if member not in model.scores:
            return (name, key, member), NIL
        place = model.pairs.index((model.scores[member], member))
        return (name, key, member), number(len(model.pairs) - 1 - place if turned else place)

    def score(self, key, model):
        member = self.member(key)
        score = model.scores.get(member)
        return (b"ZSCORE", key, member), NIL if score is None else bulk(b"%d" % score)

    def by_places(self, key, model):
        (first, last), turned, scores = self.window(model), self.chance.random() < 0.5, self.chance.random() < 0.5
        pairs = model.places(first, last)
        if turned:
            # places are counted from the greatest pair
            other = Model()
            other.pairs = model.pairs[::-1]
            pairs = other.places(first, last)
        words = (b"ZREVRANGE" if turned else b"ZRANGE", key, b"%d" % first, b"%d" % last)
        return words + ((b"WITHSCORES",) if scores else ()), listed(pairs, scores)

    def by_scores(self, key, model):
        low, high, turned = Bound(self.chance), Bound(self.chance), self.chance.random() < 0.5
        offset, count = self.chance.randint(-1, 30), self.chance.randint(-1, 12)
        if self.chance.random() < 0.9:
            count = abs(count)
        pairs = model.within(low, high)
        pairs = pairs[::-1] if turned else pairs
        pairs = [] if offset < 0 else pairs[offset:] if count < 0 else pairs[offset:offset + count]
        bounds = (high.text, low.text) if turned else (low.text, high.text)
        words = (b"ZREVRANGEBYSCORE" if turned else b"ZRANGEBYSCORE", key, *bounds)
        return words + (b"LIMIT", b"%d" % offset, b"%d" % count), listed(pairs, False)

    def count(self, key, model):
        low, high = Bound(self.chance), Bound(self.chance)
        return (b"ZCOUNT", key, low.text, high.text), number(len(model.within(low, high)))

    def card(self, key, model):
        return (b"ZCARD", key), number(len(model.pairs))

    def pop(self, key, model):
        least, count = self.chance.random() < 0.5, self.chance.randint(1, 3)
        pairs = (model.pairs if least else model.pairs[::-1])[:count]
        model.take(pairs)
        return (b"ZPOPMIN" if least else b"ZPOPMAX", key, b"%d" % count), listed(pairs, True)

    def remove_places(self, key, model):
        first = self.place(model)
        last = first + self.chance.randint(-1, 2)
        pairs = model.places(first, last)
        model.take(pairs)
        return (b"ZREMRANGEBYRANK", key, b"%d" % first, b"%d" % last), number(len(pairs))

    def remove_scores(self, key, model):
        low = Bound(self.chance)
        pairs = model.within(low, low)
        model.take(pairs)
        return (b"ZREMRANGEBYSCORE", key, low.text, low.text), number(len(pairs))


CALLS_ON_SETS = (
    Player.add, Player.add, Player.increment, Player.increment, Player.remove, Player.rank, Player.rank, Player.score, Player.by_places, Player.by_places,
    Player.by_scores, Player.by_scores, Player.count, Player.card, Player.pop, Player.remove_places, Player.remove_scores,
)


class Ranks(Playing):
    def test_random_calls_have_the_replies_of_the_model(self):
        player = Player(17)
        calls = [player.call() for _ in range(CALLS)]
        # at the end each set is told whole, in both orders
        for key, model in player.sets.items():
            calls.append(((b"ZRANGE", key, b"0", b"-1", b"WITHSCORES"), listed(model.pairs, True)))
            calls.append(((b"ZREVRANGEBYSCORE", key, b"+inf", b"-inf"), listed(model.pairs[::-1], False)))
        self.assertGreater(len(player.sets[b"many"].pairs), 4_000)
        self.plays(calls)


if __name__ == "__main__":
    unittest.main()
