"""Hashes against a plain model: random calls, and every field and value compared."""

import random
import re
import unittest

from tests.support.names import name_of
from tests.support.replies import NIL, NONE, Playing, array, array_of, bulk, number

CALLS = 60_000
# how many fields the hash at each key tends to
SIZES = {b"none": 0, b"one": 1, b"few": 20, b"chunk": 250, b"chunks": 1_000, b"many": 5_000}
# the one spelling of a whole number
NUMBER = re.compile(rb"0|-?[1-9][0-9]*")
NO_NUMBER = b"-ERR hash value is not an integer\r\n"


class Player:
    """Makes calls on hashes, each a dictionary, and says what is wanted of each."""

    def __init__(self, seed):
        self.chance = random.Random(seed)
        self.hashes = {key: {} for key in SIZES}

    def field(self, key):
        return name_of(self.chance.randrange(max(2 * SIZES[key], 2)))

    def value(self):
        return self.chance.choice((b"", b"7", name_of(self.chance.randrange(1_000))))

    def call(self):
        key = self.chance.choice(list(SIZES))
        fields = self.hashes[key]
        if len(fields) < SIZES[key] and self.chance.random() < 0.5:
            return self.put(key, fields)
        return self.chance.choice(CALLS_ON_HASHES)(self, key, fields)

    def put(self, key, fields):
        pairs, before = [(self.field(key), self.value()) for _ in range(self.chance.randint(1, 10))], len(fields)
        fields.update(pairs)
        return (b"HSET", key, *(word for pair in pairs for word in pair)), number(len(fields) - before)

    def put_new(self, key, fields):
        field, value = self.field(key), self.value()
        is_new = field not in fields
        fields.setdefault(field, value)
        return (b"HSETNX", key, field, value), number(int(is_new))

    def increase(self, key, fields):
        field, by = self.field(key), self.chance.randint(-20, 20)
        if not is_number(fields.get(field, b"0")):
            return (b"HINCRBY", key, field, b"%d" % by), NO_NUMBER
        fields[field] = b"%d" % (int(fields.get(field, b"0")) + by)
        return (b"HINCRBY", key, field, b"%d" % by), number(int(fields[field]))

    def remove(self, key, fields):
        words = [self.field(key) for _ in range(self.chance.randint(1, 4))]
        return (b"HDEL", key, *words), number(sum(fields.pop(word, None) is not None for word in words))

    def get(self, key, fields):
        field = self.field(key)
        return (b"HGET", key, field), told(fields.get(field))

    def get_some(self, key, fields):
        words = [self.field(key) for _ in range(self.chance.randint(1, 4))]
        return (b"HMGET", key, *words), array_of(*(told(fields.get(it)) for it in words))

    def is_there(self, key, fields):
        field = self.field(key)
        return (b"HEXISTS", key, field), number(int(field in fields))

    def length(self, key, fields):
        field = self.field(key)
        return (b"HSTRLEN", key, field), number(len(fields.get(field, b"")))

    def count(self, key, fields):
        return (b"HLEN", key), number(len(fields))


def is_number(text):
    """Whether this is the one spelling of a whole number of 64 bits."""
    return bool(NUMBER.fullmatch(text)) and -(2 ** 63) <= int(text) < 2 ** 63


def told(value):
    return NIL if value is None else bulk(value)


CALLS_ON_HASHES = (
    Player.put, Player.put_new, Player.increase, Player.remove, Player.remove, Player.get, Player.get, Player.get_some, Player.is_there,
    Player.length, Player.count,
)


class Fields(Playing):
    def test_random_calls_have_the_replies_of_the_model(self):
        player = Player(23)
        calls = [player.call() for _ in range(CALLS)]
        # at the end each hash is told whole, its fields in byte order
        for key, fields in player.hashes.items():
            pairs = sorted(fields.items())
            calls.append(((b"HGETALL", key), array(*(word for pair in pairs for word in pair)) if pairs else NONE))
            calls.append(((b"HKEYS", key), array(*(field for field, _ in pairs)) if pairs else NONE))
            calls.append(((b"HVALS", key), array(*(value for _, value in pairs)) if pairs else NONE))
        self.assertGreater(len(player.hashes[b"many"]), 4_000)
        self.plays(calls)


if __name__ == "__main__":
    unittest.main()
