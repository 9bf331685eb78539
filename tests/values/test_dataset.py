"""Effects on a dataset: what they leave, by reference and moved in, and what is refused. Their texts, and words that spell none."""

import random
import unittest

from tests.support.rehearsal import Rehearsing, asked, effect, holding
from tests.support.replies import array, bulk, number

# the lengths that the command reference gives
LENGTHS = {
    "SET k v": 27, "DEL k": 20, "SADD s a b c": 42, "SREM s b": 28, "SADD s a": 28, "LPUSH l a b c": 43, "LPOP l 3": 28, "RPUSH s a b": 36,
    "LMOVE s s LEFT RIGHT": 50, "MSET a 2": 28, "MSET a 2 b 3": 42, "APPEND k v": 30, "SETRANGE k 5 v": 39, "INCRBY n 3": 30,
    "INCRBY n -3": 31, "RENAME a b": 30, "FLUSHALL": 18, "PING": 14, "PEXPIREAT k 11000": 37, "SET a 1 PXAT 5": 44, "ZADD z 1 a 1 b 2 c": 63, "ZADD z -3 a": 36, "ZREM z a": 28,
}

# further effects, so that each kind is there
OTHERS = [
    "HSET h f v g w", "HDEL h f", "RPOP l 12", "LSET l 0 x", "LINSERT l AFTER p x", "LINSERT l BEFORE p x", "LREM l -2 x", "LTRIM l 1 3",
    "SMOVE s d m", "SETRANGE k 0 v", "INCRBY n -9223372036854775808", "ZADD z 1 a -3 b", "ZADD z 9007199254740992 a",
    "ZADD z -9007199254740992 a", "ZREM z a b", "SET k v PXAT 1", "SET k v PXAT 4611686018427387904", "SET k v KEEPTTL",
    "PEXPIREAT k 1", "PERSIST k",
]

# words that spell no effect; SPOP, whose member would be left to chance, among them
NO_EFFECTS = [
    "", "set k v", "SET k", "SET k v w", "HSET h f", "HSET h f v g", "HDEL h", "SADD s", "LPOP l", "LPOP l 03",
    "LPOP l +3", "RPOP l 9223372036854775808", "LSET l -1 x", "LINSERT l before p x", "LREM l -0 x", "LTRIM l 1",
    "LMOVE s d LEFT UP", "LMOVE s d LEFT", "SMOVE s d", "SPOP s", "MSET", "MSET a", "MSET a 2 b", "APPEND k",
    "APPEND k v w", "SETRANGE k v", "SETRANGE k -1 v", "SETRANGE k 05 v", "SETRANGE k 9223372036854775808 v",
    "INCRBY n", "INCRBY n +3", "INCRBY n 3.0", "INCRBY n 9223372036854775808", "RENAME a", "RENAME a b c",
    "FLUSHALL ASYNC", "flushall", "ZADD z", "ZADD z 1", "ZADD z a 1", "ZADD z 1 a 2", "ZADD z 1.0 a", "ZADD z +1 a",
    "ZADD z inf a", "ZADD z 9007199254740993 a", "ZADD z -9007199254740993 a", "ZADD z 1 a 9007199254740993 b",
    "ZADD NX z 1 a", "ZREM z", "SET k v PXAT 0", "SET k v PXAT 4611686018427387905", "SET k v PXAT 01", "SET k v PXAT", "SET k v pxat 1",
    "SET k v PX 1", "SET k v keepttl", "SET k v KEEPTTL x", "SET k v PXAT 1 KEEPTTL", "PEXPIREAT k", "PEXPIREAT k 0", "PEXPIREAT k -1",
    "PEXPIREAT k 4611686018427387905", "PEXPIREAT k 1 NX", "EXPIRE k 1", "PERSIST", "PERSIST k x", "PING x",
]

# what a key of each kind is asked
CONTENTS = ["EXISTS k", "TYPE k", "GET k", "LRANGE k 0 -1", "HGETALL k", "SMEMBERS k", "ZRANGE k 0 -1 WITHSCORES", "DBSIZE"]


class Effects(Rehearsing):
    def leaves(self, rows):
        """Each effect, a request behind it and its reply."""
        for way in ("lend", "give"):
            calls = []
            for line, question, reply in rows:
                calls += [(way + " " + effect(line).hex(), "applied"), (asked(question), "replied " + reply.hex())]
            self.rehearses(calls)

    def refuses(self, before, lines):
        """Behind the first effects, each line is refused, and changes nothing at the key k and no number of keys."""
        calls = [("give " + effect(line).hex(), "applied") for line in before]
        told = self.answers_to([*(call for call, _ in calls), *map(asked, CONTENTS)])[len(calls) :]
        for line in lines:
            for way in ("lend", "give"):
                calls.append((way + " " + effect(line).hex(), "refused: the effect does not apply"))
                calls += [(asked(question), answer) for question, answer in zip(CONTENTS, told, strict=True)]
        self.rehearses(calls)

    def test_texts_are_spelled_and_have_these_lengths(self):
        for line, length in LENGTHS.items():
            self.assertEqual(len(effect(line)), length, line)
        self.rehearses([("spell " + effect(line).hex(), "spelled " + effect(line).hex()) for line in [*LENGTHS, *OTHERS]])

    def test_what_follows_a_text_is_left(self):
        self.rehearses([("spell " + (effect("DEL k") + b"*").hex(), "spelled " + effect("DEL k").hex())])

    def test_near_misses_are_no_effects(self):
        self.rehearses([("spell " + effect(line).hex(), "no effect") for line in NO_EFFECTS])

    def test_texts_that_spell_no_number_are_refused(self):
        for text in ("abc", "01", "9223372036854775808"):
            self.refuses(["SET k " + text], ["INCRBY k 1"])

    def test_texts_are_set_and_grow(self):
        self.leaves([
            ("MSET a 1 k 2 a 3", "GET a", bulk("3")),
            ("MSET k x", "GET k", bulk("x")),
            ("APPEND k yz", "GET k", bulk("xyz")),
            ("APPEND n 12", "GET n", bulk("12")),
            ("APPEND e ", "GET e", bulk("")),
        ])

    def test_texts_are_written_over(self):
        self.leaves([
            ("SETRANGE k 2 ab", "GET k", bulk("\0\0ab")),
            ("SETRANGE k 0 xy", "GET k", bulk("xyab")),
            ("SETRANGE k 3 cd", "GET k", bulk("xyacd")),
            ("SETRANGE k 9 ", "GET k", bulk("xyacd")),
            ("SETRANGE n 536870913 ", "EXISTS n", number(0)),
        ])

    def test_numbers_are_increased(self):
        self.leaves([
            ("INCRBY k 5", "GET k", bulk("5")),
            ("INCRBY k -12", "GET k", bulk("-7")),
            ("INCRBY n 0", "GET n", bulk("0")),
            ("INCRBY m -9223372036854775808", "GET m", bulk("-9223372036854775808")),
        ])

    def test_deadlines_come_and_go(self):
        self.leaves([
            ("SET k v PXAT 7", "PEXPIRETIME k", number(7)),
            ("SET k w KEEPTTL", "PEXPIRETIME k", number(7)),
            ("APPEND k x", "PEXPIRETIME k", number(7)),
            ("PEXPIREAT k 9", "PEXPIRETIME k", number(9)),
            ("RENAME k n", "PEXPIRETIME n", number(9)),
            ("PERSIST n", "PEXPIRETIME n", number(-1)),
            ("PERSIST n", "GET n", bulk("wx")),
            ("PEXPIREAT n 9", "PEXPIRETIME n", number(9)),
            ("PING", "PEXPIRETIME n", number(9)),
            ("SET n v", "PEXPIRETIME n", number(-1)),
            ("SET m v KEEPTTL", "PEXPIRETIME m", number(-1)),
        ])

    def test_an_absent_key_gets_no_deadline(self):
        self.refuses(["SET k v"], ["PEXPIREAT n 9", "PERSIST n"])

    def test_keys_are_renamed_and_cleared(self):
        self.leaves([
            ("RPUSH k a b", "LRANGE k 0 -1", array("a", "b")),
            ("RENAME k k", "LRANGE k 0 -1", array("a", "b")),
            ("RENAME k n", "LRANGE n 0 -1", array("a", "b")),
            ("MSET k x", "GET k", bulk("x")),
            ("RENAME k n", "GET n", bulk("x")),
            ("DEL k", "EXISTS k", number(0)),
            ("FLUSHALL", "EXISTS n", number(0)),
        ])

    def test_other_kinds_are_refused(self):
        lines = [
            "APPEND k x",
            "SETRANGE k 0 x",
            "SETRANGE k 0 ",
            "INCRBY k 1",
            "RENAME x k",
            "RENAME x x",
        ]
        self.refuses(["LPUSH k a"], lines)

    def test_sums_past_64_bits_are_refused(self):
        self.refuses(["SET k 9223372036854775807"], ["INCRBY k 1"])
        self.refuses(["SET k -9223372036854775808"], ["INCRBY k -1"])

    def test_texts_past_the_limit_are_refused(self):
        lines = ["APPEND k y", "APPEND k yz", "SETRANGE k 536870912 y", "SETRANGE n 536870911 yz", "SETRANGE n 9223372036854775807 y"]
        for way in ("lend", "give"):
            self.rehearses([
                *holding("SETRANGE k 536870911 x"),
                *((way + " " + effect(line).hex(), "refused: the effect does not apply") for line in lines),
                *((asked(question), "replied " + reply.hex()) for question, reply in (
                    ("STRLEN k", number(536_870_912)), ("GETRANGE k -2 -1", bulk("\0x")), ("DBSIZE", number(1)),
                )),
            ])

    def test_hashes(self):
        self.leaves([
            ("HSET k g 1 f 2 g 3", "HGETALL k", array("f", "2", "g", "3")),
            ("HDEL k f x", "HGETALL k", array("g", "3")),
            ("HDEL k x", "HGETALL k", array("g", "3")),
            ("HDEL k g", "EXISTS k", number(0)),
            ("HDEL k g", "EXISTS k", number(0)),
        ])

    def test_hashes_are_the_same_when_they_grow(self):
        """Up to 128 fields of 64 bytes with values of 64 are packed: what is past that has a place for each field from then on."""
        for seed, most in enumerate((12, 127, 128, 129, 140)):
            with self.subTest(most=most):
                self.leaves(self.changes(random.Random(seed), most))

    def changes(self, drawn, most):
        """A hash grows to so many fields, a few come and go, and in the end a field or a value is too long. Behind each change all that it has."""
        names = [("%03d" % n).ljust(64 if n % 40 == 0 else 3, "x") for n in range(most)]
        drawn.shuffle(names)
        held, rows = {}, []
        for turn in range(60):
            left = [name for name in names if name not in held]
            if left and (turn < 20 or drawn.random() < 0.6):
                line = self.put(held, left[: 40 if turn < 10 else 1], drawn.choice((1, 2, 63, 64)))
            elif turn > 50:
                line = self.put(held, [drawn.choice((names[0], "y" * 65))], drawn.choice((1, 65, 255, 256)))
            elif drawn.random() < 0.5:
                line = self.put(held, drawn.sample(names, 2), drawn.choice((1, 2, 63, 64)))
            else:
                gone = drawn.sample(sorted(held), drawn.choice((1, 2)))
                line = " ".join(["HDEL k", *gone])
                held = {name: value for name, value in held.items() if name not in gone}
            rows.append((line, "HGETALL k", array(*(word for name in sorted(held) for word in (name, held[name])))))
        return rows

    def put(self, held, names, length):
        """The effect that gives these fields a value of so many bytes."""
        held.update((name, "v" * length) for name in names)
        return " ".join(["HSET k", *(word for name in names for word in (name, held[name]))])

    def test_pushes_and_pops(self):
        self.leaves([
            ("LPUSH k a b c", "LRANGE k 0 -1", array("c", "b", "a")),
            ("RPUSH k d e", "LRANGE k 0 -1", array("c", "b", "a", "d", "e")),
            ("LPOP k 2", "LRANGE k 0 -1", array("a", "d", "e")),
            ("RPOP k 1", "LRANGE k 0 -1", array("a", "d")),
            ("RPOP k 2", "EXISTS k", number(0)),
        ])

    def test_items_of_lists(self):
        self.leaves([
            ("RPUSH k a b a c a", "LRANGE k 0 -1", array("a", "b", "a", "c", "a")),
            ("LSET k 3 d", "LRANGE k 0 -1", array("a", "b", "a", "d", "a")),
            ("LINSERT k BEFORE a x", "LRANGE k 0 -1", array("x", "a", "b", "a", "d", "a")),
            ("LINSERT k AFTER a y", "LRANGE k 0 -1", array("x", "a", "y", "b", "a", "d", "a")),
            ("LREM k -1 a", "LRANGE k 0 -1", array("x", "a", "y", "b", "a", "d")),
            ("LREM k 1 a", "LRANGE k 0 -1", array("x", "y", "b", "a", "d")),
            ("LREM k 0 q", "LRANGE k 0 -1", array("x", "y", "b", "a", "d")),
            ("LTRIM k 1 3", "LRANGE k 0 -1", array("y", "b", "a")),
            ("LTRIM k 2 2", "LRANGE k 0 -1", array("a")),
            ("LREM k 0 a", "EXISTS k", number(0)),
            ("LREM k 0 a", "EXISTS k", number(0)),
        ])

    def test_items_move(self):
        self.leaves([
            ("RPUSH s a b c", "LRANGE s 0 -1", array("a", "b", "c")),
            ("LMOVE s d LEFT RIGHT", "LRANGE d 0 -1", array("a")),
            ("LMOVE s d RIGHT RIGHT", "LRANGE d 0 -1", array("a", "c")),
            ("LMOVE s d RIGHT LEFT", "LRANGE d 0 -1", array("b", "a", "c")),
            ("LMOVE d d LEFT RIGHT", "LRANGE d 0 -1", array("a", "c", "b")),
            ("LMOVE d d RIGHT LEFT", "LRANGE d 0 -1", array("b", "a", "c")),
            ("LMOVE d d LEFT LEFT", "LRANGE d 0 -1", array("b", "a", "c")),
            ("LTRIM d 1 1", "LRANGE d 0 -1", array("a")),
            ("LMOVE d d LEFT RIGHT", "LRANGE d 0 -1", array("a")),
            ("DEL d", "EXISTS s", number(0)),
        ])

    def test_sets(self):
        self.leaves([
            ("SADD k c a b a", "SMEMBERS k", array("a", "b", "c")),
            ("SREM k b x", "SMEMBERS k", array("a", "c")),
            ("SMOVE k d c", "SMEMBERS d", array("c")),
            ("SMOVE k k a", "SMEMBERS k", array("a")),
            ("SMOVE k d a", "SMEMBERS d", array("a", "c")),
            ("SREM d c a", "EXISTS k", number(0)),
            ("SREM d c", "EXISTS d", number(0)),
        ])

    def test_sorted_sets(self):
        self.leaves([
            ("ZADD k 7 b 1 b 2 a", "ZRANGE k 0 -1 WITHSCORES", array("b", "1", "a", "2")),
            ("ZADD k -3 b 4 c", "ZRANGE k 0 -1 WITHSCORES", array("b", "-3", "a", "2", "c", "4")),
            ("ZREM k a x", "ZRANGE k 0 -1 WITHSCORES", array("b", "-3", "c", "4")),
            ("ZREM k x", "ZRANGE k 0 -1 WITHSCORES", array("b", "-3", "c", "4")),
            ("ZREM k c b", "EXISTS k", number(0)),
            ("ZREM k b", "EXISTS k", number(0)),
        ])

    def test_greatest_and_least_scores(self):
        self.leaves([
            ("ZADD k 9007199254740992 m", "ZRANGE k 0 -1 WITHSCORES", array("m", "9007199254740992")),
            ("ZADD k -9007199254740992 m", "ZRANGE k 0 -1 WITHSCORES", array("m", "-9007199254740992")),
        ])

    def test_lists_refuse(self):
        lines = [
            "LPOP k 0",
            "LPOP k 3",
            "RPOP k -1",
            "LSET k 2 x",
            "LINSERT k AFTER c x",
            "LTRIM k 1 2",
            "LTRIM k -1 1",
            "LTRIM k 1 0",
            "LMOVE k m LEFT LEFT",
            "HSET k f v",
            "SADD k a",
            "SREM k a",
            "HDEL k a",
            "SMOVE m k a",
        ]
        self.refuses(["RPUSH k a b", "SADD m a"], lines)

    def test_absent_keys_and_sets_refuse(self):
        lines = [
            "LPOP x 1",
            "LSET x 0 x",
            "LINSERT x AFTER c x",
            "LTRIM x 0 0",
            "LMOVE x k LEFT LEFT",
            "LMOVE x x LEFT RIGHT",
            "SMOVE x k a",
            "SMOVE k x b",
            "SMOVE k t a",
            "SMOVE t t a",
            "LPUSH k a",
            "LREM k 0 a",
            "LPUSH t a",
        ]
        self.refuses(["SADD k a", "SET t a"], lines)

    def test_sorted_sets_refuse(self):
        lines = [
            "SADD k a",
            "SREM k a",
            "SMOVE s k a",
            "SMOVE k s a",
            "HSET k f v",
            "HDEL k a",
            "LPUSH k a",
            "LREM k 0 a",
            "LMOVE k k LEFT RIGHT",
        ]
        self.refuses(["ZADD k 1 a", "SADD s a"], lines)

    def test_other_kinds_refuse_scores(self):
        lines = [
            "ZADD k 1 a",
            "ZREM k a",
            "ZADD t 1 a",
            "ZREM t a",
            "ZADD h 1 a",
            "ZREM h a",
            "ZADD l 1 a",
            "ZREM l a",
        ]
        self.refuses(["SADD k a", "SET t a", "HSET h a 1", "RPUSH l a"], lines)


if __name__ == "__main__":
    unittest.main()
