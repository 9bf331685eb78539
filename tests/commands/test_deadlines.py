"""Deadlines: commands at moments. A row is a moment in milliseconds, a command, its reply, and the effects that it has."""

import unittest

from tests.support.program import request
from tests.support.rehearsal import ID, Rehearsing, done, effect, holding, texts_of
from tests.support.replies import INTEGER, NIL, OK, SYNTAX, WRONG_KIND, arity, bulk, number

# the last moment, and as many milliseconds as a request may name
MOST = 2**61


def invalid(name):
    return b"-ERR invalid expire time in '%s' command\r\n" % name.encode()


class AtMoments(Rehearsing):
    def plays_at(self, rows):
        """Commands one after another, each with its reply and behind that its effects. The effects' bytes are what the offset counts."""
        calls, offset = [("open", "opened")], 0
        for now, line, reply, *wanted in rows:
            effects = b"".join(effect(it) for it in wanted)
            calls.append(("given %d 0" % now, "given"))
            calls.append(("feed 0 " + request(*line.split(" ")).hex(), "fed"))
            calls.append(("step 0", done(reply, effects)))
            offset += len(effects)
        calls.append(("shows", "shows %s %d" % (ID, offset)))
        self.rehearses(calls)

    def plays_all_at(self, now, rows):
        self.plays_at([(now, *row) for row in rows])


class Rebuilding(AtMoments):
    def rebuilds(self, effects, commands):
        """Whatever the moment is: expired keys are rebuilt too."""
        texts = b"".join(effect(*it) for it in commands)
        for now in (0, 8, MOST):
            calls = [("give " + effect(*it).hex(), "applied") for it in effects]
            self.rehearses([*calls, ("given %d 0" % now, "given"), ("rebuild", "rebuilt " + (texts.hex() or "-"))])

    def test_nothing_is_rebuilt_by_nothing(self):
        self.rebuilds([], [])

    def test_keys_are_rebuilt_in_byte_order_with_their_deadlines(self):
        self.rebuilds([
            ("SET b x PXAT 7",),
            ("RPUSH a 2 1",),
            ("SADD c y x",),
            ("ZADD d 2 m 1 n",),
            ("HSET e g 2 f 1",),
            ("PEXPIREAT d 9",),
        ], [
            ("RPUSH a 2 1",),
            ("SET b x",),
            ("PEXPIREAT b 7",),
            ("SADD c x y",),
            ("ZADD d 2 m 1 n",),
            ("PEXPIREAT d 9",),
            ("HSET e f 1 g 2",),
        ])

    def test_keys_of_one_kind_each_with_a_deadline(self):
        self.rebuilds([
            ("HSET a f v",),
            ("PEXPIREAT a 1",),
            ("RPUSH b v",),
            ("PEXPIREAT b 4611686018427387904",),
            ("SADD c v",),
            ("PEXPIREAT c 7",),
            ("SET d v PXAT 7",),
            ("ZADD e 1 v",),
            ("PEXPIREAT e 7",),
        ], [
            ("HSET a f v",),
            ("PEXPIREAT a 1",),
            ("RPUSH b v",),
            ("PEXPIREAT b 4611686018427387904",),
            ("SADD c v",),
            ("PEXPIREAT c 7",),
            ("SET d v",),
            ("PEXPIREAT d 7",),
            ("ZADD e 1 v",),
            ("PEXPIREAT e 7",),
        ])

    def test_deadlines_that_were_moved_or_taken_off(self):
        self.rebuilds([
            ("MSET a v b v c v",),
            ("PEXPIREAT a 9",),
            ("PEXPIREAT a 7",),
            ("PEXPIREAT b 9",),
            ("PERSIST b",),
            ("PEXPIREAT c 9",),
            ("RENAME c d",),
            ("SET e v PXAT 9",),
            ("SET e v",),
        ], [
            ("SET a v",),
            ("PEXPIREAT a 7",),
            ("SET b v",),
            ("SET d v",),
            ("PEXPIREAT d 9",),
            ("SET e v",),
        ])

    def test_what_is_rebuilt_is_rebuilt_again(self):
        names = ["%02d" % it for it in range(65)]
        held = [
            ("SET", "", "\r\n*1", "PXAT", "7"),
            ("HSET", "h", *(word for it in names for word in (it, "v"))),
            ("PEXPIREAT h 9",),
            ("RPUSH", "l", *names),
            ("SADD", "s", *names),
            ("ZADD", "z", *(word for it in names for word in (it.lstrip("0") or "0", it))),
            ("PEXPIREAT z 9",),
        ]
        calls = [*[("give " + effect(*it).hex(), "applied") for it in held], ("rebuild", None)]
        rebuilt = self.answers_to([call for call, _ in calls])[-1]
        texts = bytes.fromhex(rebuilt.removeprefix("rebuilt "))
        parts = list(texts_of(texts))
        self.assertEqual(len(parts), 12)
        again = [("give " + it.hex(), "applied") for it in parts]
        self.rehearses([
            *again,
            ("rebuild", rebuilt),
            ("given 8 0", "given"),
            ("due", "due -"),
            ("give " + effect("DEL", "").hex(), "applied"),
            ("due", "nothing due"),
            ("given 9 0", "given"),
            ("due", "due 68"),
            ("ask " + request("DBSIZE").hex(), "replied " + number(2).hex()),
        ])

    def test_a_command_has_64_items_at_most(self):
        names = ["%02d" % it for it in range(65)]
        self.rebuilds([("RPUSH", "l", *names), ("SADD", "s", *names)], [
            ("RPUSH", "l", *names[:64]),
            ("RPUSH", "l", "64"),
            ("SADD", "s", *names[:64]),
            ("SADD", "s", "64"),
        ])


class Expiring(AtMoments):
    def test_a_key_is_expired_from_its_deadline_on(self):
        expire = b"*3\r\n$9\r\nPEXPIREAT\r\n$1\r\nk\r\n$5\r\n11000\r\n"
        self.assertEqual(len(expire), 37)
        self.rehearses([
            ("open", "opened"),
            ("given 1000 0", "given"),
            ("feed 0 " + request("SET", "k", "v").hex(), "fed"),
            ("step 0", done(OK, effect("SET k v"))),
            ("feed 0 " + request("EXPIRE", "k", "10").hex(), "fed"),
            ("step 0", done(number(1), expire)),
            ("shows", "shows %s 64" % ID),
            ("given 10999 0", "given"),
            ("feed 0 " + request("GET", "k").hex(), "fed"),
            ("step 0", done(bulk("v"))),
            ("given 11000 0", "given"),
            ("feed 0 " + request("GET", "k").hex(), "fed"),
            ("step 0", done(NIL, effect("DEL k"))),
            ("shows", "shows %s 84" % ID),
        ])

    def test_keys_are_counted_that_are_not_expired(self):
        def set_at(key, deadline):
            return (1000, f"SET {key} v PXAT {deadline}", OK, f"SET {key} v PXAT {deadline}")

        self.plays_at([
            (1000, "DBSIZE", number(0)),
            (1000, "SET a v", OK, "SET a v"),
            *(set_at(key, deadline) for key, deadline in (("b", 3000), ("c", 2000), ("d", 2001), ("e", 2000), ("f", 4000))),
            *((now, "DBSIZE", number(left)) for now, left in ((1000, 6), (1999, 6), (2000, 4), (2001, 3), (2999, 3), (3000, 2), (3999, 2), (4000, 1), (5000, 1), (1000, 6))),
            (3000, "GET c", NIL, "DEL c"),
            (3000, "DBSIZE", number(2)),
            (1000, "DBSIZE", number(5)),
            (3000, "PERSIST f", number(1), "PERSIST f"),
            (9000, "DBSIZE", number(2)),
        ])

    def test_deadlines_are_named_in_each_unit(self):
        self.plays_at([
            (1000, "SET k v", OK, "SET k v"),
            (1000, "EXPIRE k 10", number(1), "PEXPIREAT k 11000"),
            (1000, "PEXPIRE k 10", number(1), "PEXPIREAT k 1010"),
            (1000, "EXPIREAT k 20", number(1), "PEXPIREAT k 20000"),
            (1000, "PEXPIREAT k 1020", number(1), "PEXPIREAT k 1020"),
            (1000, "expire k 1", number(1), "PEXPIREAT k 2000"),
        ])

    def test_the_same_deadline_has_no_effect(self):
        self.plays_at([
            (1000, "SET k v", OK, "SET k v"),
            (1000, "EXPIRE k 1", number(1), "PEXPIREAT k 2000"),
            (1000, "EXPIRE k 1", number(1)),
            (1500, "PEXPIRE k 500", number(1)),
            (1500, "PEXPIRE k 501", number(1), "PEXPIREAT k 2001"),
        ])

    def test_a_deadline_that_is_not_ahead_deletes(self):
        self.plays_all_at(1000, [
            ("SET k v", OK, "SET k v"),
            ("EXPIRE k 0", number(1), "DEL k"),
            ("EXPIRE k 0", number(0)),
            ("SET k v", OK, "SET k v"),
            ("EXPIRE k -5", number(1), "DEL k"),
            ("SET k v", OK, "SET k v"),
            ("PEXPIRE k -2305843009213693952", number(1), "DEL k"),
            ("SET k v", OK, "SET k v"),
            ("EXPIREAT k 1", number(1), "DEL k"),
            ("SET k v", OK, "SET k v"),
            ("PEXPIREAT k 1001", number(1), "PEXPIREAT k 1001"),
            ("PEXPIREAT k 1000", number(1), "DEL k"),
            ("EXISTS k", number(0)),
        ])

    def test_an_absent_key_gets_no_deadline(self):
        self.plays_all_at(1000, [
            ("EXPIRE k 10", number(0)),
            ("PEXPIRE k 10 NX", number(0)),
            ("EXPIREAT k 10 LT", number(0)),
            ("PEXPIREAT k -1", number(0)),
            ("PERSIST k", number(0)),
        ])

    def test_conditions(self):
        self.plays_all_at(1000, [
            ("SET k v", OK, "SET k v"),
            ("EXPIRE k 10 XX", number(0)),
            ("EXPIRE k 10 GT", number(0)),
            ("EXPIRE k 10 NX", number(1), "PEXPIREAT k 11000"),
            ("EXPIRE k 20 NX", number(0)),
            ("EXPIRE k 9 GT", number(0)),
            ("EXPIRE k 10 GT", number(0)),
            ("EXPIRE k 10 LT", number(0)),
            ("EXPIRE k 10 XX", number(1)),
            ("EXPIRE k 11 GT", number(1), "PEXPIREAT k 12000"),
            ("EXPIRE k 12 LT", number(0)),
            ("EXPIRE k 5 lt", number(1), "PEXPIREAT k 6000"),
            ("EXPIRE k 7 Xx", number(1), "PEXPIREAT k 8000"),
            ("PERSIST k", number(1), "PERSIST k"),
            ("EXPIRE k 10 LT", number(1), "PEXPIREAT k 11000"),
        ])

    def test_a_condition_comes_before_a_deadline_that_is_not_ahead(self):
        self.plays_all_at(1000, [
            ("SET k v", OK, "SET k v"),
            ("EXPIRE k 0 XX", number(0)),
            ("EXPIRE k -1 GT", number(0)),
            ("EXPIRE k 10", number(1), "PEXPIREAT k 11000"),
            ("EXPIRE k 0 NX", number(0)),
            ("EXPIRE k 0 GT", number(0)),
            ("EXPIRE k 0 LT", number(1), "DEL k"),
            ("SET k v", OK, "SET k v"),
            ("PEXPIREAT k 1000 NX", number(1), "DEL k"),
        ])

    def test_an_expired_key_is_deleted_first(self):
        self.plays_at([
            (1000, "SET k v", OK, "SET k v"),
            (1000, "EXPIRE k 1", number(1), "PEXPIREAT k 2000"),
            (2000, "EXPIRE k 10", number(0), "DEL k"),
            (2000, "SET k v", OK, "SET k v"),
            (2000, "PEXPIRE k 1", number(1), "PEXPIREAT k 2001"),
            (2001, "PERSIST k", number(0), "DEL k"),
            (2001, "SET k v", OK, "SET k v"),
            (2001, "PEXPIRE k 1", number(1), "PEXPIREAT k 2002"),
            (9000, "TTL k", number(-2), "DEL k"),
            (9000, "TTL k", number(-2)),
        ])

    def test_deadlines_are_taken_off(self):
        self.plays_at([
            (1000, "SET k v", OK, "SET k v"),
            (1000, "PERSIST k", number(0)),
            (1000, "EXPIRE k 1", number(1), "PEXPIREAT k 2000"),
            (1999, "PERSIST k", number(1), "PERSIST k"),
            (1999, "PERSIST k", number(0)),
            (5000, "GET k", bulk("v")),
            (5000, "TTL k", number(-1)),
        ])

    def test_bad_arguments(self):
        self.plays_all_at(1000, [
            ("EXPIRE k", arity("expire")),
            ("PEXPIREAT", arity("pexpireat")),
            ("EXPIRE k 10 NX XX", SYNTAX),
            ("EXPIRE k 10 NX NX", SYNTAX),
            ("EXPIRE k x ZZ", SYNTAX),
            ("EXPIRE k x", INTEGER),
            ("PEXPIRE k 1.5 GT", INTEGER),
            ("EXPIREAT k 9223372036854775808", INTEGER),
            ("EXPIRE k 9223372036854775807", invalid("expire")),
            ("EXPIRE k 2305843009213694", invalid("expire")),
            ("PEXPIRE k 2305843009213693953", invalid("pexpire")),
            ("EXPIREAT k -2305843009213694", invalid("expireat")),
            ("PEXPIREAT k -2305843009213693953", invalid("pexpireat")),
            ("EXPIRE k 2305843009213693", number(0)),
            ("PEXPIREAT k -2305843009213693952", number(0)),
            ("PERSIST", arity("persist")),
            ("PERSIST k k", arity("persist")),
            ("TTL", arity("ttl")),
            ("PTTL k k", arity("pttl")),
            ("EXPIRETIME k k", arity("expiretime")),
            ("PEXPIRETIME", arity("pexpiretime")),
        ])

    def test_the_greatest_deadlines(self):
        self.plays_at([
            (1000, "SET k v", OK, "SET k v"),
            (1000, "EXPIRE k 2305843009213693", number(1), "PEXPIREAT k 2305843009213694000"),
            (1000, "PEXPIRE k 2305843009213693952", number(1), "PEXPIREAT k 2305843009213694952"),
            (MOST, "PEXPIRE k 2305843009213693952", number(1), "PEXPIREAT k 4611686018427387904"),
            (MOST, "PTTL k", number(2305843009213693952)),
            (MOST, "TTL k", number(2305843009213694)),
            (MOST, "PEXPIRETIME k", number(4611686018427387904)),
            (MOST, "EXPIRETIME k", number(4611686018427388)),
        ])


class Telling(AtMoments):
    def test_no_key_and_no_deadline(self):
        self.plays_all_at(1000, [
            ("TTL k", number(-2)),
            ("PTTL k", number(-2)),
            ("EXPIRETIME k", number(-2)),
            ("PEXPIRETIME k", number(-2)),
            ("SET k v", OK, "SET k v"),
            ("TTL k", number(-1)),
            ("PTTL k", number(-1)),
            ("EXPIRETIME k", number(-1)),
            ("PEXPIRETIME k", number(-1)),
        ])

    def test_seconds_are_rounded_to_the_nearest(self):
        self.plays_at([
            (1000, "SET k v", OK, "SET k v"),
            (1000, "PEXPIREAT k 12499", number(1), "PEXPIREAT k 12499"),
            (1000, "PTTL k", number(11499)),
            (1000, "TTL k", number(11)),
            (1000, "PEXPIRETIME k", number(12499)),
            (1000, "EXPIRETIME k", number(12)),
            (1000, "PEXPIREAT k 12500", number(1), "PEXPIREAT k 12500"),
            (1000, "PTTL k", number(11500)),
            (1000, "TTL k", number(12)),
            (1000, "EXPIRETIME k", number(13)),
            (12000, "TTL k", number(1)),
            (12001, "TTL k", number(0)),
            (12499, "PTTL k", number(1)),
            (12499, "TTL k", number(0)),
            (12500, "PTTL k", number(-2), "DEL k"),
        ])


# what makes the key k, and what then is asked and keeps its deadline
KEPT = [
    ("SET k 5", ["INCR k", "DECR k", "INCRBY k 0", "DECRBY k 7", "APPEND k 1", "APPEND k ", "SETRANGE k 0 1", "SETRANGE k 9 ", "SET k 5 KEEPTTL",
                 "SET k 6 KEEPTTL XX GET", "SET k v NX", "SET k v NX EX 1", "SETNX k v", "MSETNX j v k v", "SETRANGE k 536870912 v", "LPUSH k v"]),
    ("SET k v", ["INCR k", "RENAME k k", "RENAMENX k k", "RENAMENX k h", "EXPIRE k 1 NX", "EXPIRE k 99 LT", "EXPIRE k 0 GT", "PEXPIREAT k 9000",
                 "GET k", "STRLEN k", "MGET k", "EXISTS k", "TYPE k", "TTL k", "RENAME x k", "DEL x", "KEYS *", "FLUSHALL x"]),
    ("HSET k f 1 g 2", ["HSET k h 3", "HSET k f 9", "HMSET k f 8", "HSETNX k i 4", "HINCRBY k f 1", "HDEL k g", "HGETALL k", "SET k v GET"]),
    ("RPUSH k a b c", ["LPUSH k d", "RPUSH k e", "LPUSHX k f", "RPUSHX k g", "LPOP k", "RPOP k 2", "LSET k 0 z", "LINSERT k AFTER z y", "LREM k 0 z",
                       "LTRIM k 0 1", "LMOVE k k LEFT RIGHT", "LMOVE k j LEFT RIGHT", "LMOVE l k LEFT LEFT", "RPOPLPUSH l k", "LRANGE k 0 -1"]),
    ("SADD k a b c", ["SADD k d", "SREM k d", "SPOP k", "SMOVE k j b", "SMOVE s k m", "SMOVE k k c", "SMEMBERS k", "SUNION k s"]),
    ("ZADD k 1 a 2 b 3 c 4 d 5 e", ["ZADD k 6 f", "ZADD k XX 7 f", "ZINCRBY k 1 f", "ZREM k f", "ZPOPMIN k", "ZPOPMAX k", "ZREMRANGEBYRANK k 0 0",
                                    "ZREMRANGEBYSCORE k 3 3", "ZRANGE k 0 -1"]),
]

# what makes the key k anew, or takes its deadline off
CLEARED = ["SET k v", "SET k 5", "SET k v XX", "SET k v GET", "GETSET k v", "GETSET k 5", "MSET k v", "MSET j v k 5", "PERSIST k", "RENAME h k"]


class Keeping(AtMoments):
    def told(self, held, lines, question, reply):
        """What is answered at 1000, after these effects and commands."""
        fed = b"".join(request(*line.split(" ")) for line in [*lines, question])
        calls = [*holding(*held), ("master", "started"), ("given 1000 0", "given"), ("open", "opened"), ("feed 0 " + fed.hex(), "fed")]
        with self.subTest(held=held, lines=lines):
            self.rehearses([*calls, *[("step 0", None)] * len(lines), ("step 0", done(reply))])

    def test_a_value_is_changed_and_its_deadline_stays(self):
        others = ["HSET h f v", "RPUSH l x y", "SADD s m"]
        for made, lines in KEPT:
            for end in range(1, len(lines) + 1):
                self.told([made, *others, "PEXPIREAT k 9000"], lines[:end], "PEXPIRETIME k", number(9000))

    def test_a_key_is_made_anew_without_a_deadline(self):
        for line in CLEARED:
            for made in ("SET k 5", "RPUSH k 5"):
                if made == "SET k 5" or "GET" not in line:
                    self.told([made, "HSET h f v", "PEXPIREAT k 9000"], [line], "PEXPIRETIME k", number(-1))

    def test_a_deleted_key_leaves_no_deadline(self):
        for line in ("DEL k", "UNLINK k", "GETDEL k", "RENAME k j", "EXPIRE k 0", "FLUSHALL"):
            self.told(["SET k 5 PXAT 9000"], [line], "PEXPIRETIME k", number(-2))
            for anew in ("SET k 5", "APPEND k 5", "RPUSH k v", "SADD k v", "SETNX k v", "MSETNX k v", "SET k v KEEPTTL"):
                self.told(["SET k 5 PXAT 9000"], [line, anew], "PEXPIRETIME k", number(-1))

    def test_an_emptied_collection_leaves_no_deadline(self):
        rows = [("HSET k f v", "HDEL k f"), ("RPUSH k v", "LPOP k"), ("RPUSH k v v", "LREM k 0 v"), ("RPUSH k v", "LTRIM k 1 0"), ("RPUSH k v", "RPOPLPUSH k j"),
                ("SADD k v", "SREM k v"), ("SADD k v", "SPOP k"), ("SADD k v", "SMOVE k j v"), ("ZADD k 1 v", "ZREM k v"), ("ZADD k 1 v", "ZPOPMIN k"),
                ("ZADD k 1 v", "ZREMRANGEBYRANK k 0 0"), ("ZADD k 1 v", "ZREMRANGEBYSCORE k 1 1")]
        for made, line in rows:
            self.told([made, "PEXPIREAT k 9000"], [line], "PEXPIRETIME k", number(-2))
            self.told([made, "PEXPIREAT k 9000"], [line, made], "PEXPIRETIME k", number(-1))

    def test_a_renamed_key_takes_its_deadline_along(self):
        for name in ("RENAME", "RENAMENX"):
            self.told(["SET k v PXAT 9000"], [name + " k j"], "PEXPIRETIME j", number(9000))
            self.told(["SET k v"], [name + " k j"], "PEXPIRETIME j", number(-1))
        self.told(["SET k v PXAT 9000", "RPUSH j v", "PEXPIREAT j 7000"], ["RENAME k j"], "PEXPIRETIME j", number(9000))
        self.told(["SET k v PXAT 9000", "SET j v"], ["RENAME k j"], "PEXPIRETIME j", number(9000))
        self.told(["SET k v", "SET j v PXAT 7000"], ["RENAME k j"], "PEXPIRETIME j", number(-1))

    def test_a_new_item_gets_no_deadline_from_its_source(self):
        self.told(["RPUSH k a b", "PEXPIREAT k 9000"], ["LMOVE k j LEFT LEFT"], "PEXPIRETIME j", number(-1))
        self.told(["SADD k a b", "PEXPIREAT k 9000"], ["SMOVE k j a"], "PEXPIRETIME j", number(-1))


class SetUntil(AtMoments):
    def test_texts_get_deadlines(self):
        self.plays_all_at(1000, [
            ("SET k v EX 10", OK, "SET k v PXAT 11000"),
            ("SET k v ex 10", OK),
            ("SET k v PXAT 11000", OK),
            ("SET k v PX 10", OK, "SET k v PXAT 1010"),
            ("SET k v EXAT 11", OK, "SET k v PXAT 11000"),
            ("SET k v PXAT 11500", OK, "SET k v PXAT 11500"),
            ("PEXPIRETIME k", number(11500)),
            ("SET k v", OK, "SET k v"),
            ("TTL k", number(-1)),
        ])

    def test_texts_keep_deadlines(self):
        self.plays_all_at(1000, [
            ("SET k v KEEPTTL", OK, "SET k v KEEPTTL"),
            ("TTL k", number(-1)),
            ("SET k v keepttl", OK),
            ("SET k v", OK),
            ("EXPIRE k 10", number(1), "PEXPIREAT k 11000"),
            ("SET k v KEEPTTL", OK),
            ("SET k w KEEPTTL", OK, "SET k w KEEPTTL"),
            ("PEXPIRETIME k", number(11000)),
        ])

    def test_options_stand_together(self):
        self.plays_all_at(1000, [
            ("SET k v XX EX 10", NIL),
            ("SET k v EX 10 NX GET", NIL, "SET k v PXAT 11000"),
            ("SET k w NX EX 20", NIL),
            ("SET k w get px 500 xx", bulk("v"), "SET k w PXAT 1500"),
            ("RPUSH l a", number(1), "RPUSH l a"),
            ("SET l v GET EX 1", WRONG_KIND),
            ("SET l v EX 1", OK, "SET l v PXAT 2000"),
        ])

    def test_a_text_is_set_until_a_moment_that_has_passed(self):
        self.plays_all_at(1000, [
            ("SET k v PXAT 1", OK, "SET k v PXAT 1"),
            ("GET k", NIL, "DEL k"),
        ])

    def test_setex_and_psetex(self):
        self.plays_all_at(1000, [
            ("SETEX k 10 v", OK, "SET k v PXAT 11000"),
            ("SETEX k 10 v", OK),
            ("PSETEX k 10 v", OK, "SET k v PXAT 1010"),
            ("RPUSH l a", number(1), "RPUSH l a"),
            ("psetex l 10 v", OK, "SET l v PXAT 1010"),
            ("SETEX k 10", arity("setex")),
            ("PSETEX k 10 v v", arity("psetex")),
            ("SETEX k x v", INTEGER),
            ("SETEX k 0 v", invalid("setex")),
            ("SETEX k 2305843009213694 v", invalid("setex")),
            ("PSETEX k -1 v", invalid("psetex")),
            ("PSETEX k 2305843009213693953 v", invalid("psetex")),
        ])

    def test_bad_options(self):
        self.plays_all_at(1000, [
            ("SET k v EX 0", invalid("set")),
            ("SET k v PX -1", invalid("set")),
            ("SET k v EXAT 0", invalid("set")),
            ("SET k v PXAT 0", invalid("set")),
            ("SET k v EX 2305843009213694", invalid("set")),
            ("SET k v PX 2305843009213693953", invalid("set")),
            ("SET k v EX x", INTEGER),
            ("SET k v EX", SYNTAX),
            ("SET k v EX 10 PX 10", SYNTAX),
            ("SET k v EX 10 KEEPTTL", SYNTAX),
            ("SET k v KEEPTTL KEEPTTL", SYNTAX),
            ("SET k v EX x NX NX", SYNTAX),
            ("GET k", NIL),
        ])


if __name__ == "__main__":
    unittest.main()
