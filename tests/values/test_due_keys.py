"""Ticks, and the first expired key: which keys are due after their deadlines were set, moved and taken off, and in which order they go."""

import unittest

from tests.support.program import request
from tests.support.rehearsal import ID, Rehearsing, done, effect, holding
from tests.support.replies import NIL, OK, bulk, number

# as many milliseconds as a request may name, and the last moment
MOST = 2**61


def dels(keys):
    return b"".join(effect("DEL", key) for key in keys)


def at(now):
    return "given %d 0" % now, "given"


def ticks(now, *gone):
    """A tick at this moment deletes these keys, in this order."""
    return [at(now), ("tick", done(b"", dels(gone)))]


def begin(*held):
    """A master on what these effects make, with a client's link."""
    return [*holding(*held), ("master", "started"), ("open", "opened")]


def asks(now, *lines):
    """Requests at this moment, whatever they answer."""
    fed = b"".join(request(*line.split(" ")) for line in lines)
    return [at(now), ("feed 0 " + fed.hex(), "fed"), *[("step 0", None)] * len(lines)]


class Ticking(Rehearsing):
    def test_a_tick_deletes_in_order_of_deadline_and_then_of_key(self):
        sets = [effect("SET a 1 PXAT 5"), effect("SET b 1 PXAT 5"), effect("SET c 1 PXAT 4")]
        self.assertEqual([len(it) for it in sets], [44, 44, 44])
        self.rehearses([
            ("open", "opened"),
            ("feed 0 " + (request("SET", "a", "1", "PX", "5") + request("SET", "b", "1", "PX", "5") + request("SET", "c", "1", "PX", "4")).hex(), "fed"),
            *[("step 0", done(OK, it)) for it in sets],
            *ticks(3),
            *ticks(5, "c", "a", "b"),
            *ticks(5),
            ("shows", "shows %s 192" % ID),
        ])

    def test_a_key_is_expired_from_its_deadline_on(self):
        self.rehearses([*begin("SET a v PXAT 5"), *ticks(4), *ticks(5, "a")])
        self.rehearses([*begin("SET a v PXAT 5"), *ticks(6, "a"), *ticks(5)])
        self.rehearses([*begin("SET a v PXAT 1", "SET b v PXAT 2"), *ticks(0), *ticks(1, "a"), *ticks(MOST, "b")])
        self.rehearses([*begin("SET a v PXAT %d" % MOST, "SET b v PXAT %d" % (2 * MOST)), *ticks(MOST - 1), *ticks(MOST, "a"), *ticks(MOST)])

    def test_a_tick_deletes_64_keys_at_most(self):
        keys = ["k%02d" % it for it in range(70)]
        self.rehearses([
            ("open", "opened"),
            ("feed 0 " + b"".join(request("SET", it, "v", "PX", "1") for it in keys).hex(), "fed"),
            *[("step 0", None)] * 70,
            *ticks(1, *keys[:64]),
            *ticks(1, *keys[64:]),
            *ticks(1),
        ])

    def test_of_many_keys_the_first_64_go_by_deadline(self):
        keys = ["k%02d" % it for it in range(70)]
        held = ["SET %s v PXAT %d" % (key, 100 - it) for it, key in enumerate(keys)]
        self.rehearses([*begin(*held), *ticks(100, *keys[:5:-1]), *ticks(100, *keys[5::-1]), *ticks(100)])

    def test_of_64_keys_all_go_at_once(self):
        keys = ["k%02d" % it for it in range(64)]
        for more in ([], ["SET later v PXAT 8"], ["SET stays v"]):
            self.rehearses([*begin(*("SET %s v PXAT 7" % key for key in keys), *more), *ticks(7, *keys), *ticks(7)])

    def test_keys_of_one_deadline_go_in_byte_order(self):
        keys = ["", "\0", "A", "a", "aa", "ab", "b", "\x7f"]
        held = ["SET %s v PXAT 7" % key for key in reversed(keys)]
        self.rehearses([*begin(*held), *ticks(7, *keys)])

    def test_signs_and_digits_of_deadlines_do_not_order_them(self):
        self.rehearses([*begin("SET a v PXAT 10", "SET b v PXAT 9", "SET c v PXAT 100"), *ticks(100, "b", "a", "c")])

    def test_keys_without_a_deadline_stay(self):
        self.rehearses([
            *begin("SET a 1", "SET b 1 PXAT 9"),
            *ticks(8),
            *ticks(9, "b"),
            ("feed 0 " + request("GET", "a").hex(), "fed"),
            ("step 0", done(bulk("1"))),
        ])

    def test_keys_of_every_kind_go(self):
        made = ["SET a v", "HSET b f v", "RPUSH c v", "SADD d v", "ZADD e 1 v"]
        held = [line for line in made] + ["PEXPIREAT %s 7" % key for key in "abcde"]
        self.rehearses([*begin(*held), *ticks(6), *ticks(7, *"abcde"), *asks(0, "DBSIZE"), *ticks(7)])

    def test_a_key_that_a_command_deleted_is_not_deleted_again(self):
        self.rehearses([
            *begin("SET a v PXAT 5", "SET b v PXAT 5"),
            at(5),
            ("feed 0 " + request("GET", "a").hex(), "fed"),
            ("step 0", done(NIL, dels("a"))),
            *ticks(5, "b"),
            *ticks(5),
        ])

    def test_a_text_that_is_expired_at_once_goes(self):
        self.rehearses([*begin(), *asks(9, "SET a v PXAT 3"), *ticks(9, "a"), *ticks(9)])

    def test_a_clock_that_goes_back_deletes_less(self):
        self.rehearses([*begin("SET a v PXAT 5", "SET b v PXAT 7"), *ticks(5, "a"), *ticks(3), *ticks(7, "b")])

    def test_a_replica_deletes_no_expired_key(self):
        held = ["SET a v PXAT 5", "SET b v PXAT 7", "RPUSH c v", "PEXPIREAT c 5"]
        self.rehearses([*holding(*held), ("replica", "started"), *ticks(4), *ticks(5), *ticks(MOST), ("shows", "shows %s 0" % ID)])


# commands at 0 on keys of which some have deadlines, and the keys that ticks then find: those at 4, at 5, and at the last moment
MOVED = [
    # a deadline that was moved
    (["SET k v PXAT 5"], ["PEXPIRE k 9"], [], [], ["k"]),
    (["SET k v PXAT 5"], ["PEXPIREAT k 6"], [], [], ["k"]),
    (["SET k v PXAT 5"], ["PEXPIRE k 4"], ["k"], [], []),
    (["SET k v PXAT 9"], ["EXPIRE k 1", "PEXPIRE k 5"], [], ["k"], []),
    (["SET k v PXAT 5"], ["EXPIRE k 9", "PEXPIRE k 5"], [], ["k"], []),
    (["SET k v PXAT 5"], ["PEXPIRE k 9 NX", "PEXPIRE k 3 GT", "PEXPIRE k 9 LT"], [], ["k"], []),
    (["SET k v PXAT 5"], ["PEXPIRE k 9 GT"], [], [], ["k"]),
    (["SET k v PXAT 5"], ["PEXPIRE k 4 LT"], ["k"], [], []),
    (["SET k v"], ["PEXPIRE k 5"], [], ["k"], []),
    (["SET j v PXAT 5", "SET k v PXAT 5"], ["PEXPIRE j 9"], [], ["k"], ["j"]),
    (["SET j v PXAT 5", "SET k v PXAT 5"], ["PEXPIRE k 4"], ["k"], ["j"], []),
    # one that was taken off
    (["SET k v PXAT 5"], ["PERSIST k"], [], [], []),
    (["SET k v PXAT 5"], ["PERSIST k", "PEXPIRE k 4"], ["k"], [], []),
    (["SET k v PXAT 5", "SET j v PXAT 5"], ["PERSIST k"], [], ["j"], []),
    # a key that was overwritten
    (["SET k v PXAT 5"], ["SET k w"], [], [], []),
    (["SET k v PXAT 5"], ["SET k v"], [], [], []),
    (["SET k v PXAT 5"], ["SET k w KEEPTTL"], [], ["k"], []),
    (["SET k v PXAT 5"], ["SET k w PX 4"], ["k"], [], []),
    (["SET k v PXAT 5"], ["SET k w PX 9"], [], [], ["k"]),
    (["SET k v PXAT 5"], ["SET k w PXAT 5"], [], ["k"], []),
    (["SET k v PXAT 5"], ["PSETEX k 4 w"], ["k"], [], []),
    (["SET k v PXAT 5"], ["SETEX k 1 v"], [], [], ["k"]),
    (["SET k v PXAT 5"], ["SET k w XX"], [], [], []),
    (["SET k v PXAT 5"], ["SET k w NX"], [], ["k"], []),
    (["SET k v PXAT 5"], ["SETNX k w"], [], ["k"], []),
    (["SET k v PXAT 5"], ["GETSET k w"], [], [], []),
    (["SET k v PXAT 5"], ["MSET j v k w"], [], [], []),
    (["SET k v PXAT 5"], ["MSET k v"], [], [], []),
    (["SET j v PXAT 5", "SET k v PXAT 5"], ["MSETNX i v k w", "MSET j w"], [], ["k"], []),
    (["RPUSH k v", "PEXPIREAT k 5"], ["SET k v"], [], [], []),
    (["ZADD k 1 v", "PEXPIREAT k 5"], ["SET k v PX 4"], ["k"], [], []),
    # a key that was deleted, and made anew
    (["SET k v PXAT 5"], ["DEL k"], [], [], []),
    (["SET k v PXAT 5"], ["DEL k", "SET k v"], [], [], []),
    (["SET k v PXAT 5"], ["UNLINK k", "APPEND k v"], [], [], []),
    (["SET k v PXAT 5"], ["GETDEL k", "RPUSH k v"], [], [], []),
    (["SET k v PXAT 5"], ["DEL k", "SET k v PX 4"], ["k"], [], []),
    (["SET k v PXAT 5"], ["PEXPIRE k 0", "SADD k v"], [], [], []),
    (["SET j v PXAT 5", "SET k v PXAT 5"], ["FLUSHALL"], [], [], []),
    (["SET j v PXAT 5", "SET k v PXAT 5"], ["FLUSHDB", "MSET j v k v", "PEXPIRE j 9"], [], [], ["j"]),
    # a key that was renamed
    (["SET k v PXAT 5"], ["RENAME k j"], [], ["j"], []),
    (["SET k v PXAT 5"], ["RENAME k j", "SET k v"], [], ["j"], []),
    (["SET k v PXAT 5"], ["RENAME k k"], [], ["k"], []),
    (["SET k v PXAT 5"], ["RENAMENX k j"], [], ["j"], []),
    (["SET k v PXAT 5"], ["RENAMENX k k"], [], ["k"], []),
    (["SET k v", "SET j v PXAT 5"], ["RENAME k j"], [], [], []),
    (["SET k v PXAT 5", "SET j v"], ["RENAME k j"], [], ["j"], []),
    (["SET k v PXAT 9", "SET j v PXAT 5"], ["RENAME k j"], [], [], ["j"]),
    (["SET k v PXAT 5", "SET j v PXAT 9"], ["RENAME k j"], [], ["j"], []),
    (["SET k v PXAT 5", "SET j v PXAT 5"], ["RENAME k j"], [], ["j"], []),
    (["SET k v PXAT 5", "SET j v PXAT 4"], ["RENAMENX k j"], ["j"], ["k"], []),
    (["SET k v PXAT 5"], ["RENAME k j", "RENAME j i", "PERSIST i"], [], [], []),
    # a value that was changed
    (["SET k 1 PXAT 5"], ["INCR k", "APPEND k 0", "SETRANGE k 5 x"], [], ["k"], []),
    (["HSET k f 1", "PEXPIREAT k 5"], ["HSET k g 1", "HINCRBY k f 1", "HDEL k f"], [], ["k"], []),
    (["RPUSH k a", "PEXPIREAT k 5"], ["LPUSH k b c", "LSET k 0 d", "RPOP k", "LTRIM k 0 0"], [], ["k"], []),
    (["RPUSH k a", "PEXPIREAT k 5"], ["LMOVE k k LEFT RIGHT", "RPOPLPUSH k k"], [], ["k"], []),
    (["SADD k a", "PEXPIREAT k 5"], ["SADD k b", "SPOP k", "SMOVE k k b"], [], ["k"], []),
    (["ZADD k 1 a", "PEXPIREAT k 5"], ["ZADD k 2 b", "ZINCRBY k 1 a", "ZPOPMIN k"], [], ["k"], []),
    # a collection that lost its last element, and was made anew
    (["HSET k f v", "PEXPIREAT k 5"], ["HDEL k f"], [], [], []),
    (["HSET k f v", "PEXPIREAT k 5"], ["HDEL k f", "HSET k f v"], [], [], []),
    (["RPUSH k a", "PEXPIREAT k 5"], ["LPOP k"], [], [], []),
    (["RPUSH k a", "PEXPIREAT k 5"], ["RPOP k", "RPUSH k a"], [], [], []),
    (["RPUSH k a a", "PEXPIREAT k 5"], ["LREM k 0 a", "LPUSH k a"], [], [], []),
    (["RPUSH k a", "PEXPIREAT k 5"], ["LTRIM k 1 0", "SET k v"], [], [], []),
    (["SADD k a b", "PEXPIREAT k 5"], ["SREM k a b", "SADD k a"], [], [], []),
    (["SADD k a", "PEXPIREAT k 5"], ["SPOP k", "SADD k a"], [], [], []),
    (["ZADD k 1 a", "PEXPIREAT k 5"], ["ZREM k a", "ZADD k 1 a"], [], [], []),
    (["ZADD k 1 a", "PEXPIREAT k 5"], ["ZPOPMAX k", "ZADD k 1 a"], [], [], []),
    (["ZADD k 1 a", "PEXPIREAT k 5"], ["ZREMRANGEBYRANK k 0 -1"], [], [], []),
    (["ZADD k 1 a", "PEXPIREAT k 5"], ["ZREMRANGEBYSCORE k 1 1", "SET k v PX 4"], ["k"], [], []),
    (["RPUSH k a", "PEXPIREAT k 5"], ["LMOVE k j LEFT LEFT"], [], [], []),
    (["RPUSH k a", "PEXPIREAT k 5", "RPUSH j a", "PEXPIREAT j 4"], ["RPOPLPUSH k j", "RPUSH k a"], ["j"], [], []),
    (["SADD k a", "PEXPIREAT k 5"], ["SMOVE k j a", "SADD k a"], [], [], []),
    (["SADD k a", "PEXPIREAT k 5", "SADD j b", "PEXPIREAT j 9"], ["SMOVE k j a"], [], [], ["j"]),
]

# effects one after another, the last moment before the first key is due, and that key; or no key at all
FIRST_DUE = [
    ([], None),
    (["SET a v"], None),
    (["SET a v PXAT 7"], (6, "a")),
    (["SET b v PXAT 7", "SET a v PXAT 7"], (6, "a")),
    (["SET b v PXAT 6", "SET a v PXAT 7"], (5, "b")),
    (["SET a v PXAT 7", "PEXPIREAT a 9"], (8, "a")),
    (["SET a v PXAT 7", "PEXPIREAT a 3"], (2, "a")),
    (["SET a v PXAT 7", "SET b v PXAT 8", "PEXPIREAT a 9"], (7, "b")),
    (["SET a v PXAT 7", "SET b v PXAT 8", "PERSIST a"], (7, "b")),
    (["SET a v PXAT 7", "PERSIST a"], None),
    (["SET a v PXAT 7", "SET a v"], None),
    (["SET a v PXAT 7", "SET a w KEEPTTL"], (6, "a")),
    (["SET a v PXAT 7", "SET a w PXAT 9"], (8, "a")),
    (["SET a v PXAT 7", "MSET b v a w"], None),
    (["SET a v PXAT 7", "APPEND a w"], (6, "a")),
    (["SET a v PXAT 7", "SETRANGE a 0 w"], (6, "a")),
    (["SET a 1 PXAT 7", "INCRBY a 1"], (6, "a")),
    (["SET a v PXAT 7", "DEL a"], None),
    (["SET a v PXAT 7", "DEL b", "PING"], (6, "a")),
    (["SET a v PXAT 7", "DEL a", "SET a v"], None),
    (["SET a v PXAT 7", "SET b v PXAT 8", "FLUSHALL"], None),
    (["SET a v PXAT 7", "FLUSHALL", "SET a v", "SET b v PXAT 9"], (8, "b")),
    (["SET a v PXAT 7", "RENAME a b"], (6, "b")),
    (["SET a v PXAT 7", "RENAME a a"], (6, "a")),
    (["SET a v PXAT 7", "SET b v PXAT 3", "RENAME a b"], (6, "b")),
    (["SET a v", "SET b v PXAT 3", "RENAME a b"], None),
    (["SET a v PXAT 7", "SET b v", "RENAME b a"], None),
    (["HSET a f v", "PEXPIREAT a 7", "HSET a g v", "HDEL a f"], (6, "a")),
    (["HSET a f v", "PEXPIREAT a 7", "HDEL a f"], None),
    (["HSET a f v", "PEXPIREAT a 7", "HDEL a f", "HSET a f v"], None),
    (["RPUSH a x y", "PEXPIREAT a 7", "LPOP a 1"], (6, "a")),
    (["RPUSH a x y", "PEXPIREAT a 7", "RPOP a 2"], None),
    (["RPUSH a x", "PEXPIREAT a 7", "LREM a 0 x", "LPUSH a x"], None),
    (["RPUSH a x y", "PEXPIREAT a 7", "LTRIM a 1 1"], (6, "a")),
    (["RPUSH a x", "PEXPIREAT a 7", "LMOVE a a LEFT RIGHT"], (6, "a")),
    (["RPUSH a x", "PEXPIREAT a 7", "LMOVE a b LEFT RIGHT"], None),
    (["RPUSH a x", "PEXPIREAT a 7", "RPUSH b x", "PEXPIREAT b 9", "LMOVE a b LEFT RIGHT"], (8, "b")),
    (["SADD a x y", "PEXPIREAT a 7", "SREM a x"], (6, "a")),
    (["SADD a x y", "PEXPIREAT a 7", "SREM a x y", "SADD a x"], None),
    (["SADD a x", "PEXPIREAT a 7", "SMOVE a a x"], (6, "a")),
    (["SADD a x", "PEXPIREAT a 7", "SMOVE a b x"], None),
    (["ZADD a 1 x", "PEXPIREAT a 7", "ZADD a 2 x", "ZADD a 3 y", "ZREM a x"], (6, "a")),
    (["ZADD a 1 x", "PEXPIREAT a 7", "ZREM a x", "ZADD a 1 x"], None),
    (["SET a v PXAT %d" % MOST], (MOST - 1, "a")),
    (["SET a v PXAT %d" % (MOST + 1)], None),
]

# an effect that is refused leaves the deadlines as they were
REFUSED = ["PEXPIREAT b 3", "PERSIST b", "APPEND l v", "INCRBY a 1", "RENAME b a", "RENAME b l", "HSET a f v", "LPUSH a x", "LPOP l 9",
           "LMOVE l a LEFT LEFT", "LMOVE a l LEFT LEFT", "SADD l x", "SMOVE l a x", "ZADD l 1 x"]


class Due(Rehearsing):
    def test_ticks_find_the_deadlines_that_commands_left(self):
        for held, lines, at_4, at_5, later in MOVED:
            calls = [*begin(*held), *asks(0, *lines), *ticks(4, *at_4), *ticks(5, *at_5), *ticks(MOST, *later), *ticks(MOST)]
            with self.subTest(held=held, lines=lines):
                self.rehearses(calls)

    def test_the_first_expired_key_is_due(self):
        for lines, first in FIRST_DUE:
            before, key = first or (MOST, None)
            for way in ("lend ", "give "):
                calls = [(way + effect(line).hex(), "applied") for line in lines] + [at(before), ("due", "nothing due")]
                if key:
                    calls += [at(before + 1), ("due", "due " + key.encode().hex()), at(MOST), ("due", "due " + key.encode().hex())]
                with self.subTest(lines=lines, way=way):
                    self.rehearses(calls)

    def test_what_is_refused_leaves_the_deadlines(self):
        held = holding("SET a v PXAT 7", "RPUSH l x", "PEXPIREAT l 8")
        for line in REFUSED:
            for way in ("lend ", "give "):
                with self.subTest(line=line, way=way):
                    self.rehearses([
                        *held,
                        (way + effect(line).hex(), "refused: the effect does not apply"),
                        at(6), ("due", "nothing due"),
                        at(7), ("due", "due 61"),
                        *holding("DEL a"),
                        ("due", "nothing due"),
                        at(8), ("due", "due 6c"),
                    ])

    def test_one_expired_key_after_another_is_due(self):
        self.rehearses([
            *holding("SET a v PXAT 7", "SET c v PXAT 5", "SET b v PXAT 5", "SET d v"),
            at(4), ("due", "nothing due"),
            at(5), ("due", "due 62"),
            *holding("DEL b"),
            ("due", "due 63"),
            *holding("PERSIST c"),
            ("due", "nothing due"),
            at(7), ("due", "due 61"),
        ])

    def test_what_a_request_asks_is_seen_at_its_moment(self):
        calls = holding("SET a v PXAT 7")
        for now, reply in ((6, bulk("v")), (7, NIL), (8, NIL)):
            calls += [at(now), ("ask " + request("GET", "a").hex(), "replied " + reply.hex())]
        self.rehearses([*calls, at(0), ("ask " + request("TTL", "a").hex(), "replied " + number(0).hex())])


if __name__ == "__main__":
    unittest.main()
