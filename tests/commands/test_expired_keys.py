"""Each command that names keys meets expired ones. A row is a command, the expired keys that it names in order of naming, each once, its reply, and its own effects."""

import unittest

from tests.support.program import request
from tests.support.rehearsal import ID, Rehearsing, done, effect, holding
from tests.support.replies import INTEGER, NIL, NO_KEY, NO_LIST, NONE, OK, READONLY, SYNTAX, WRONG_KIND, arity, array, array_of, bulk, number

# the moment of the commands, which is the deadline of the expired keys
NOW = 2000
PAST = "pqr"
# an expired key of each kind, with what would show in a reply
KINDS = ["SET %s 5", "HSET %s f 5", "RPUSH %s a b", "SADD %s a m", "ZADD %s 5 a"]
# a key of each kind without a deadline, and one with a deadline that is still to come
LIVE = ["SET t hello", "SET n 7 PXAT %d" % (NOW + 1), "HSET h f v", "RPUSH l a b c", "SADD s a b", "ZADD z 1 a 2 b"]


def dels(keys):
    return b"".join(effect("DEL", key) for key in keys)


def stored(kind):
    """The calls that put the live keys and expired ones of this kind into the dataset."""
    return holding(*LIVE, *(kind % key for key in PAST), *("PEXPIREAT %s %d" % (key, NOW) for key in PAST))


# what is answered without a change, on strings and keys
TOLD = [
    ("GET p", "p", NIL),
    ("STRLEN p", "p", number(0)),
    ("GETRANGE p 0 -1", "p", bulk("")),
    ("MGET p", "p", array(None)),
    ("MGET q t p q l", "qp", array(None, "hello", None, None, None)),
    ("EXISTS p", "p", number(0)),
    ("EXISTS q t p t q", "qp", number(2)),
    ("TYPE p", "p", b"+none\r\n"),
    ("TTL p", "p", number(-2)),
    ("PTTL p", "p", number(-2)),
    ("EXPIRETIME p", "p", number(-2)),
    ("PEXPIRETIME p", "p", number(-2)),
]

TOLD_OF_COLLECTIONS = [
    ("HGET p f", "p", NIL),
    ("HMGET p f g", "p", array(None, None)),
    ("HGETALL p", "p", NONE),
    ("HKEYS p", "p", NONE),
    ("HVALS p", "p", NONE),
    ("HEXISTS p f", "p", number(0)),
    ("HLEN p", "p", number(0)),
    ("HSTRLEN p f", "p", number(0)),
    ("LLEN p", "p", number(0)),
    ("LRANGE p 0 -1", "p", NONE),
    ("LINDEX p 0", "p", NIL),
    ("SISMEMBER p a", "p", number(0)),
    ("SMISMEMBER p a m", "p", array(0, 0)),
    ("SMEMBERS p", "p", NONE),
    ("SCARD p", "p", number(0)),
    ("SRANDMEMBER p", "p", NIL),
    ("SRANDMEMBER p 2", "p", NONE),
    ("SRANDMEMBER p 0", "p", NONE),
    ("SINTER p", "p", NONE),
    ("SINTER s q p s", "qp", NONE),
    ("SUNION p s q p", "pq", array("a", "b")),
    ("SUNION q p", "qp", NONE),
    ("SDIFF s p", "p", array("a", "b")),
    ("SDIFF p s p q", "pq", NONE),
    # a key of another kind is refused before and behind an expired one
    ("SINTER p t q", "pq", WRONG_KIND),
    ("SUNION t p", "p", WRONG_KIND),
    ("SDIFF l q p", "qp", WRONG_KIND),
]

TOLD_OF_SORTED_SETS = [
    ("ZCARD p", "p", number(0)),
    ("ZCOUNT p -inf +inf", "p", number(0)),
    ("ZSCORE p a", "p", NIL),
    ("ZMSCORE p a b", "p", array(None, None)),
    ("ZRANK p a", "p", NIL),
    ("ZREVRANK p a", "p", NIL),
    ("ZRANGE p 0 -1 WITHSCORES", "p", NONE),
    ("ZRANGE p -inf +inf BYSCORE LIMIT 0 1", "p", NONE),
    ("ZREVRANGE p 0 -1", "p", NONE),
    ("ZRANGEBYSCORE p -inf +inf", "p", NONE),
    ("ZREVRANGEBYSCORE p +inf -inf WITHSCORES", "p", NONE),
]

TEXTS = [
    ("SET p v", "p", OK, "SET p v"),
    # what is stored in the expired key isn't what is set
    ("SET p 5", "p", OK, "SET p 5"),
    ("SET p v NX", "p", OK, "SET p v"),
    ("SET p v XX", "p", NIL),
    ("SET p v GET", "p", NIL, "SET p v"),
    ("SET p v NX GET", "p", NIL, "SET p v"),
    ("SET p v GET XX", "p", NIL),
    ("SET p v EX 10", "p", OK, "SET p v PXAT 12000"),
    ("SET p v PX 10", "p", OK, "SET p v PXAT 2010"),
    ("SET p v EXAT 10", "p", OK, "SET p v PXAT 10000"),
    ("SET p v PXAT 2001", "p", OK, "SET p v PXAT 2001"),
    ("SET p v NX PX 1", "p", OK, "SET p v PXAT 2001"),
    ("SET p v XX EX 10", "p", NIL),
    # there is no deadline to keep
    ("SET p v KEEPTTL", "p", OK, "SET p v KEEPTTL"),
    ("SET p v XX KEEPTTL GET", "p", NIL),
    ("SETNX p v", "p", number(1), "SET p v"),
    ("SETEX p 10 v", "p", OK, "SET p v PXAT 12000"),
    ("PSETEX p 10 v", "p", OK, "SET p v PXAT 2010"),
    ("GETSET p v", "p", NIL, "SET p v"),
    ("GETDEL p", "p", NIL),
    ("MSET p 1", "p", OK, "MSET p 1"),
    ("MSET q 1 p 2 q 3", "qp", OK, "MSET p 2 q 3"),
    ("MSET q 1 t hello p 3", "qp", OK, "MSET p 3 q 1"),
    ("MSET q 5 t 2 p 5", "qp", OK, "MSET p 5 q 5 t 2"),
    ("MSETNX q 1 p 2", "qp", number(1), "MSET p 2 q 1"),
    ("MSETNX x 1 p 2", "p", number(1), "MSET p 2 x 1"),
    ("MSETNX q 1 t 2 p 3", "qp", number(0)),
    ("MSETNX l 1 p 2", "p", number(0)),
]

TEXTS_IN_PART = [
    ("APPEND p v", "p", number(1), "APPEND p v"),
    ("APPEND p ", "p", number(0), "APPEND p "),
    ("SETRANGE p 1 v", "p", number(2), "SETRANGE p 1 v"),
    ("SETRANGE p 9 ", "p", number(0)),
    ("SETRANGE p 536870912 v", "p", b"-ERR string too long\r\n"),
    ("INCR p", "p", number(1), "INCRBY p 1"),
    ("DECR p", "p", number(-1), "INCRBY p -1"),
    ("INCRBY p 9223372036854775807", "p", number(2**63 - 1), "INCRBY p 9223372036854775807"),
    ("INCRBY p 0", "p", number(0), "INCRBY p 0"),
    ("DECRBY p 5", "p", number(-5), "INCRBY p -5"),
]

KEYS = [
    ("DEL p", "p", number(0)),
    ("DEL q t p q x", "qp", number(1), "DEL t"),
    ("DEL t t p", "p", number(1), "DEL t"),
    ("UNLINK p l q n", "pq", number(2), "DEL l", "DEL n"),
    ("RENAME p t", "p", NO_KEY),
    ("RENAME p x", "p", NO_KEY),
    ("RENAME p p", "p", NO_KEY),
    ("RENAME q p", "qp", NO_KEY),
    ("RENAME x p", "p", NO_KEY),
    ("RENAME t p", "p", OK, "RENAME t p"),
    ("RENAME n p", "p", OK, "RENAME n p"),
    ("RENAMENX p t", "p", NO_KEY),
    ("RENAMENX p p", "p", NO_KEY),
    ("RENAMENX q p", "qp", NO_KEY),
    ("RENAMENX x p", "p", NO_KEY),
    ("RENAMENX t p", "p", number(1), "RENAME t p"),
    ("PERSIST p", "p", number(0)),
]

DEADLINES = [(line % name, "p", number(0)) for name in ("EXPIRE", "PEXPIRE", "EXPIREAT", "PEXPIREAT")
             for line in ("%s p 9000", "%s p 9000 NX", "%s p 9000 XX", "%s p 9000 GT", "%s p 9000 LT", "%s p 1", "%s p 0", "%s p -1 LT")]

HASHES = [
    ("HSET p g 1", "p", number(1), "HSET p g 1"),
    ("HSET p g 2 f 5", "p", number(2), "HSET p f 5 g 2"),
    ("HMSET p f 5", "p", OK, "HSET p f 5"),
    ("HSETNX p f v", "p", number(1), "HSET p f v"),
    ("HDEL p f", "p", number(0)),
    ("HDEL p f g", "p", number(0)),
    ("HINCRBY p f 3", "p", number(3), "HSET p f 3"),
    ("HINCRBY p f 0", "p", number(0), "HSET p f 0"),
]

LISTS = [
    ("LPUSH p a b", "p", number(2), "LPUSH p a b"),
    ("RPUSH p a", "p", number(1), "RPUSH p a"),
    ("LPUSHX p a", "p", number(0)),
    ("RPUSHX p a b", "p", number(0)),
    ("LPOP p", "p", NIL),
    ("LPOP p 1", "p", NO_LIST),
    ("RPOP p", "p", NIL),
    ("RPOP p 0", "p", NO_LIST),
    ("LSET p 0 z", "p", NO_KEY),
    ("LINSERT p BEFORE a z", "p", number(0)),
    ("LREM p 0 a", "p", number(0)),
    ("LTRIM p 0 0", "p", OK),
    ("LTRIM p 1 0", "p", OK),
    ("LMOVE p l LEFT RIGHT", "p", NIL),
    ("LMOVE p q LEFT RIGHT", "pq", NIL),
    ("LMOVE p p LEFT RIGHT", "p", NIL),
    # where there is nothing to move, nobody looks at the target
    ("LMOVE p t LEFT RIGHT", "p", NIL),
    ("LMOVE x p LEFT RIGHT", "p", NIL),
    ("LMOVE l p LEFT RIGHT", "p", bulk("a"), "LMOVE l p LEFT RIGHT"),
    ("LMOVE t p LEFT RIGHT", "p", WRONG_KIND),
    ("RPOPLPUSH p l", "p", NIL),
    ("RPOPLPUSH q p", "qp", NIL),
    ("RPOPLPUSH p p", "p", NIL),
    ("RPOPLPUSH p t", "p", NIL),
    ("RPOPLPUSH l p", "p", bulk("c"), "LMOVE l p RIGHT LEFT"),
    ("RPOPLPUSH h p", "p", WRONG_KIND),
]

SETS = [
    ("SADD p m b", "p", number(2), "SADD p b m"),
    ("SADD p a", "p", number(1), "SADD p a"),
    ("SREM p a", "p", number(0)),
    ("SREM p a m", "p", number(0)),
    ("SPOP p", "p", NIL),
    ("SPOP p 2", "p", NONE),
    ("SPOP p 0", "p", NONE),
    ("SMOVE p s m", "p", number(0)),
    ("SMOVE p q a", "pq", number(0)),
    ("SMOVE p p a", "p", number(0)),
    ("SMOVE p t a", "p", number(0)),
    ("SMOVE x p a", "p", number(0)),
    ("SMOVE s p a", "p", number(1), "SMOVE s p a"),
    ("SMOVE s p x", "p", number(0)),
    ("SMOVE t p a", "p", WRONG_KIND),
]

SORTED_SETS = [
    ("ZADD p 2 b 5 a", "p", number(2), "ZADD p 5 a 2 b"),
    ("ZADD p NX 7 a", "p", number(1), "ZADD p 7 a"),
    ("ZADD p XX CH 7 a", "p", number(0)),
    ("ZADD p GT CH 1 a", "p", number(1), "ZADD p 1 a"),
    ("ZADD p LT 9 a", "p", number(1), "ZADD p 9 a"),
    ("ZINCRBY p 3 a", "p", bulk("3"), "ZADD p 3 a"),
    ("ZINCRBY p 0 a", "p", bulk("0"), "ZADD p 0 a"),
    ("ZREM p a", "p", number(0)),
    ("ZPOPMIN p", "p", NONE),
    ("ZPOPMAX p 2", "p", NONE),
    ("ZREMRANGEBYRANK p 0 -1", "p", number(0)),
    ("ZREMRANGEBYSCORE p -inf +inf", "p", number(0)),
]

# what names no key: no expired key is shown, and none is deleted
NAMELESS = [
    ("KEYS *", "", array("h", "l", "n", "s", "t", "z")),
    ("KEYS [p-r]", "", NONE),
    ("KEYS p", "", NONE),
    ("SCAN 0", "", array_of(bulk("0"), array("h", "l", "n", "s", "t", "z"))),
    ("SCAN 0 MATCH p", "", array_of(bulk("0"), NONE)),
    ("SCAN 0 TYPE string COUNT 1", "", array_of(bulk("0"), array("n", "t"))),
    ("SCAN 0 TYPE hash", "", array_of(bulk("0"), array("h"))),
    ("SCAN 0 TYPE list", "", array_of(bulk("0"), array("l"))),
    ("SCAN 0 TYPE set", "", array_of(bulk("0"), array("s"))),
    ("SCAN 0 TYPE zset", "", array_of(bulk("0"), array("z"))),
    ("SCAN 1", "", array_of(bulk("0"), NONE)),
    ("DBSIZE", "", number(6)),
    ("PING", "", b"+PONG\r\n"),
    ("PING p", "", bulk("p")),
    ("ECHO p", "", bulk("p")),
    ("SELECT 0", "", OK),
    ("COMMAND DOCS p", "", NONE),
    ("CLIENT SETNAME p", "", OK),
    ("CLIENT SETINFO p q", "", OK),
]

# what is no command does nothing, though it names an expired key
FAULTS = [
    ("GET p q", "", arity("get")),
    ("MSET p 1 q", "", arity("mset")),
    ("GETEX p", "", b"-ERR unknown command\r\n"),
    ("SET p v EX 0", "", b"-ERR invalid expire time in 'set' command\r\n"),
    ("SET p v NX XX", "", SYNTAX),
    ("SETEX p 0 v", "", b"-ERR invalid expire time in 'setex' command\r\n"),
    ("EXPIRE p x", "", INTEGER),
    ("INCRBY p x", "", INTEGER),
    ("SETRANGE p -1 v", "", b"-ERR offset is out of range\r\n"),
    ("LRANGE p 0 x", "", INTEGER),
    ("SPOP p -1", "", b"-ERR value is out of range, must be positive\r\n"),
    ("ZADD p x a", "", INTEGER),
]


class PastKeys(Rehearsing):
    def each_meets(self, rows, start, deletes):
        """Plays each row with expired keys of each kind. A tick then deletes those that are left."""
        for kind in KINDS:
            calls = []
            for line, named, reply, *own in rows:
                deleted = dels(named) if deletes else b""
                left = dels(sorted(set(PAST) - set(named))) if deletes else b""
                calls += [
                    *stored(kind),
                    (start, "started"),
                    ("given %d 0" % NOW, "given"),
                    ("open", "opened"),
                    ("feed 0 " + request(*line.split(" ")).hex(), "fed"),
                    ("step 0", done(reply, deleted + b"".join(map(effect, own)))),
                    ("tick", done(b"", left)),
                ]
            self.rehearses(calls)

    def meets(self, rows):
        self.each_meets(rows, "master", True)

    def only_reads(self, rows):
        self.each_meets(rows, "replica", False)

    def test_what_is_told_of_strings_and_keys(self):
        self.meets(TOLD)

    def test_what_is_told_of_collections(self):
        self.meets(TOLD_OF_COLLECTIONS)

    def test_what_is_told_of_sorted_sets(self):
        self.meets(TOLD_OF_SORTED_SETS)

    def test_texts_are_set(self):
        self.meets(TEXTS)

    def test_texts_are_changed_in_part(self):
        self.meets(TEXTS_IN_PART)

    def test_keys_are_deleted_and_renamed(self):
        self.meets(KEYS)

    def test_deadlines_are_set(self):
        self.meets(DEADLINES)

    def test_hashes_are_changed(self):
        self.meets(HASHES)

    def test_lists_are_changed(self):
        self.meets(LISTS)

    def test_sets_are_changed(self):
        self.meets(SETS)

    def test_sorted_sets_are_changed(self):
        self.meets(SORTED_SETS)

    def test_what_names_no_key(self):
        self.meets(NAMELESS)

    def test_what_is_no_command(self):
        self.meets(FAULTS)

    def test_a_replica_reads_an_expired_key_as_absent_and_keeps_it(self):
        for rows in (TOLD, TOLD_OF_COLLECTIONS, TOLD_OF_SORTED_SETS, NAMELESS, FAULTS):
            self.only_reads(rows)

    def test_a_replica_refuses_each_write_and_keeps_the_expired_keys_that_it_names(self):
        for rows in (TEXTS, TEXTS_IN_PART, KEYS, DEADLINES, HASHES, LISTS, SETS, SORTED_SETS):
            self.only_reads([(line, named, READONLY) for line, named, *_ in rows])


class Edges(Rehearsing):
    def plays_on(self, now, held, rows):
        """Commands at one moment on what these effects make."""
        calls = [*holding(*held), ("master", "started"), ("given %d 0" % now, "given"), ("open", "opened")]
        offset = 0
        for line, reply, *wanted in rows:
            effects = b"".join(map(effect, wanted))
            calls += [("feed 0 " + request(*line.split(" ")).hex(), "fed"), ("step 0", done(reply, effects))]
            offset += len(effects)
        self.rehearses([*calls, ("shows", "shows %s %d" % (ID, offset))])

    def test_a_millisecond_before_its_deadline_a_key_is_there(self):
        held = [line for key, kind in zip("abcde", KINDS, strict=True) for line in (kind % key, "PEXPIREAT %s %d" % (key, NOW))]
        self.plays_on(NOW - 1, held, [
            ("GET a", bulk("5")),
            ("HGET b f", bulk("5")),
            ("LRANGE c 0 -1", array("a", "b")),
            ("SMEMBERS d", array("a", "m")),
            ("ZSCORE e a", bulk("5")),
            ("GET e", WRONG_KIND),
            ("KEYS *", array(*"abcde")),
            ("DBSIZE", number(5)),
            ("PTTL e", number(1)),
        ])
        self.plays_on(NOW, held, [
            ("KEYS *", NONE),
            ("DBSIZE", number(0)),
            ("GET a", NIL, "DEL a"),
            ("HGET b f", NIL, "DEL b"),
            ("LRANGE c 0 -1", NONE, "DEL c"),
            ("SMEMBERS d", NONE, "DEL d"),
            ("GET e", NIL, "DEL e"),
        ])

    def test_a_text_that_is_expired_at_once_is_stored(self):
        self.plays_on(NOW, ["SET p 5 PXAT 1999"], [
            ("SET p v PXAT 2000", OK, "DEL p", "SET p v PXAT 2000"),
            ("SET p v PXAT 2000", OK, "DEL p", "SET p v PXAT 2000"),
            ("SET p v KEEPTTL NX", OK, "DEL p", "SET p v KEEPTTL"),
            ("PTTL p", number(-1)),
        ])

    def test_all_keys_are_cleared_expired_ones_among_them(self):
        for line in ("FLUSHALL", "FLUSHDB", "FLUSHALL ASYNC", "FLUSHDB SYNC"):
            self.plays_on(NOW, ["SET p 5 PXAT 1999", "SET t v"], [(line, OK, "FLUSHALL"), (line, OK), ("SET p v NX", OK, "SET p v")])
            self.plays_on(NOW, ["RPUSH p 5", "PEXPIREAT p 2000"], [("DBSIZE", number(0)), (line, OK, "FLUSHALL"), (line, OK), ("GET p", NIL)])

    def test_each_expired_key_is_deleted_once(self):
        self.plays_on(NOW, ["SET p 5 PXAT 1", "SET q 5 PXAT 2000"], [
            ("MGET q p q p", array(None, None, None, None), "DEL q", "DEL p"),
            ("MGET q p q p", array(None, None, None, None)),
        ])

    def test_many_expired_keys_in_order_of_naming(self):
        keys = ["k%02d" % it for it in range(70)]
        named = keys[::-1] + keys
        self.plays_on(NOW, ["SET %s v PXAT 7" % key for key in keys], [
            ("EXISTS " + " ".join(named), number(0), *("DEL " + key for key in keys[::-1])),
        ])

    def test_what_a_command_leaves_has_no_deadline_of_the_expired_key(self):
        makers = ["SETNX p v", "SET p v KEEPTTL", "GETSET p v", "MSET p v", "MSETNX p v", "APPEND p v", "SETRANGE p 0 v", "INCR p", "HSET p f v",
                  "HSETNX p f v", "HINCRBY p f 1", "LPUSH p v", "RPUSH p v", "LMOVE l p LEFT LEFT", "SADD p v", "SMOVE s p m", "ZADD p 1 m",
                  "ZINCRBY p 1 m", "RENAME t p", "RENAMENX t p"]
        for line in makers:
            held = ["SET p 5 PXAT 1999", "RPUSH l a b", "SADD s m n", "SET t v"]
            self.rehearses([
                *holding(*held),
                ("master", "started"),
                ("given %d 0" % NOW, "given"),
                ("open", "opened"),
                ("feed 0 " + (request(*line.split(" ")) + request("PTTL", "p")).hex(), "fed"),
                ("step 0", None),
                ("step 0", done(number(-1))),
            ])

    def test_a_renamed_key_takes_its_deadline_over_an_expired_one(self):
        self.plays_on(NOW, ["SET p 5 PXAT 1999", "SET n v PXAT 2001"], [
            ("RENAME n p", OK, "DEL p", "RENAME n p"),
            ("PEXPIRETIME p", number(2001)),
            ("PTTL n", number(-2)),
        ])


if __name__ == "__main__":
    unittest.main()
