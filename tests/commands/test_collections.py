"""Hashes, lists and sets, and the small server commands, through the program."""

import unittest

from tests.support.program import request, run, run_in_pieces
from tests.support.replies import INTEGER, NIL, NO_KEY, NO_LIST, NONE, OK, OVERFLOW, POSITIVE, SYNTAX, WRONG_KIND, Answering, arity, array, bulk, number

# commands and their replies, one after another on one dataset
HASHES = [
    ("HSET h b 1 a 2 b 3", number(2)),
    ("HGETALL h", array("a", "2", "b", "3")),
    ("HSET h a 2 c 4", number(1)),
    ("HMSET h d 5", OK),
    ("HSETNX h a 9", number(0)),
    ("HSETNX h e 6", number(1)),
    ("HGET h a", bulk("2")),
    ("HGET h x", NIL),
    ("HGET x a", NIL),
    ("HMGET h b x a", array("3", None, "2")),
    ("HMGET x a b", array(None, None)),
    ("HKEYS h", array("a", "b", "c", "d", "e")),
    ("HVALS h", array("2", "3", "4", "5", "6")),
    ("HLEN h", number(5)),
    ("HSTRLEN h b", number(1)),
    ("HSTRLEN h x", number(0)),
    ("HEXISTS h b", number(1)),
    ("HEXISTS h x", number(0)),
    ("HINCRBY h a 40", number(42)),
    ("HINCRBY h n -1", number(-1)),
    ("HINCRBY h a 9223372036854775807", OVERFLOW),
    ("HSET h t x", number(1)),
    ("HINCRBY h t 1", b"-ERR hash value is not an integer\r\n"),
    ("HINCRBY h a 1.0", INTEGER),
    ("HDEL h a a x b", number(2)),
    ("HDEL h c d e n t", number(5)),
    ("EXISTS h", number(0)),
    ("HDEL h a", number(0)),
    ("HGETALL h", NONE),
    ("HKEYS h", NONE),
    ("HSET h a", arity("hset")),
    ("HSET h a 1 b", arity("hset")),
    ("HMSET h a", arity("hmset")),
]

LISTS = [
    ("LPUSH l a b c", number(3)),
    ("LRANGE l 0 -1", array("c", "b", "a")),
    ("RPUSH l d", number(4)),
    ("LPUSHX l e", number(5)),
    ("RPUSHX x e", number(0)),
    ("EXISTS x", number(0)),
    ("LLEN l", number(5)),
    ("LLEN x", number(0)),
    ("LINDEX l 0", bulk("e")),
    ("LINDEX l -1", bulk("d")),
    ("LINDEX l 5", NIL),
    ("LINDEX x a", INTEGER),
    ("LRANGE l -2 100", array("a", "d")),
    ("LRANGE l 3 1", NONE),
    ("LRANGE l -100 0", array("e")),
    ("LSET l -1 z", OK),
    ("LSET l 5 z", b"-ERR index out of range\r\n"),
    ("LSET x 0 z", NO_KEY),
    ("LSET x a z", INTEGER),
    ("LINSERT l BEFORE c n", number(6)),
    ("LINSERT l after z m", number(7)),
    ("LINSERT l BEFORE q n", number(-1)),
    ("LINSERT x BEFORE q n", number(0)),
    ("LINSERT l beside q n", SYNTAX),
    ("LRANGE l 0 -1", array("e", "n", "c", "b", "a", "z", "m")),
    ("LPOP l", bulk("e")),
    ("RPOP l 2", array("m", "z")),
    ("LPOP l 0", NONE),
    ("LPOP x 0", NO_LIST),
    ("LPOP x", NIL),
    ("RPOP l -1", POSITIVE),
    ("LPOP l 9", array("n", "c", "b", "a")),
    ("EXISTS l", number(0)),
    ("RPUSH l a b a c a", number(5)),
    ("LREM l -2 a", number(2)),
    ("LRANGE l 0 -1", array("a", "b", "c")),
    ("LREM l 1 c", number(1)),
    ("LREM l 0 x", number(0)),
    ("RPUSH l c d e", number(5)),
    ("LTRIM l 1 -2", OK),
    ("LRANGE l 0 -1", array("b", "c", "d")),
    ("LTRIM l 5 9", OK),
    ("EXISTS l", number(0)),
    ("LTRIM l 0 1", OK),
    ("RPUSH s a b", number(2)),
    ("LMOVE s s LEFT RIGHT", bulk("a")),
    ("LRANGE s 0 -1", array("b", "a")),
    ("RPOPLPUSH s d", bulk("a")),
    ("LMOVE s d left left", bulk("b")),
    ("LMOVE s d LEFT LEFT", NIL),
    ("LRANGE d 0 -1", array("b", "a")),
    ("LMOVE d d LEFT UP", SYNTAX),
    ("LPOP d 2 3", arity("lpop")),
]

SETS = [
    ("SADD s c a b a", number(3)),
    ("SADD s a", number(0)),
    ("SMEMBERS s", array("a", "b", "c")),
    ("SCARD s", number(3)),
    ("SISMEMBER s b", number(1)),
    ("SISMEMBER s x", number(0)),
    ("SMISMEMBER s a x c", array(1, 0, 1)),
    ("SMISMEMBER x a", array(0)),
    ("SREM s a a x", number(1)),
    ("SADD t b d", number(2)),
    ("SINTER s t", array("b")),
    ("SUNION s t", array("b", "c", "d")),
    ("SDIFF s t", array("c")),
    ("SDIFF t s", array("d")),
    ("SINTER s x", NONE),
    ("SUNION x s", array("b", "c")),
    ("SMOVE s t c", number(1)),
    ("SMOVE s t c", number(0)),
    ("SMOVE x t c", number(0)),
    ("SMOVE t t c", number(1)),
    ("SMEMBERS t", array("b", "c", "d")),
    ("SMOVE s t b", number(1)),
    ("EXISTS s", number(0)),
    ("SRANDMEMBER t", bulk("b")),
    ("SRANDMEMBER t 2", array("b", "c")),
    ("SRANDMEMBER t 9", array("b", "c", "d")),
    ("SRANDMEMBER t 0", NONE),
    ("SRANDMEMBER x 2", NONE),
    ("SRANDMEMBER x", NIL),
    ("SRANDMEMBER t -1", POSITIVE),
    ("SPOP t", bulk("b")),
    ("SPOP t 0", NONE),
    ("SPOP t 5", array("c", "d")),
    ("SPOP t", NIL),
    ("SPOP t 1", NONE),
    ("SMEMBERS t", NONE),
    ("SCARD t", number(0)),
]

SERVER = [
    ("ECHO hello", bulk("hello")),
    ("SELECT 0", OK),
    ("SELECT 1", b"-ERR DB index is out of range\r\n"),
    ("SELECT x", INTEGER),
    ("COMMAND", NONE),
    ("COMMAND DOCS get set", NONE),
    ("CLIENT SETNAME me", OK),
    ("CLIENT SETNAME é", OK),
    ("CLIENT SETINFO lib-name me", OK),
    ("CLIENT LIST", SYNTAX),
    ("CLIENT", SYNTAX),
    ("REPLICAOF h x", INTEGER),
    ("REPLICAOF h 70000", INTEGER),
    ("TYPE x", b"+none\r\n"),
    ("SET t v", OK),
    ("TYPE t", b"+string\r\n"),
    ("HSET h f v", number(1)),
    ("TYPE h", b"+hash\r\n"),
    ("LPUSH l v", number(1)),
    ("TYPE l", b"+list\r\n"),
    ("SADD s v", number(1)),
    ("TYPE s", b"+set\r\n"),
    ("EXISTS t h h x", number(3)),
    ("UNLINK t h l s x", number(4)),
    ("EXISTS t h l s", number(0)),
]

# of each kind, all that names a key of it first
ON_HASHES = ["HSET k f v", "HMSET k f v", "HSETNX k f v", "HGET k f", "HMGET k f", "HGETALL k", "HKEYS k", "HVALS k",
             "HDEL k f", "HEXISTS k f", "HLEN k", "HSTRLEN k f", "HINCRBY k f 1"]
ON_LISTS = ["LPUSH k v", "RPUSH k v", "LPUSHX k v", "RPUSHX k v", "LPOP k", "RPOP k 2", "LLEN k", "LRANGE k 0 1",
            "LINDEX k 0", "LSET k 0 v", "LINSERT k BEFORE p v", "LREM k 0 v", "LTRIM k 0 1", "LMOVE k d LEFT LEFT",
            "RPOPLPUSH k d"]
ON_SETS = ["SADD k v", "SREM k v", "SISMEMBER k v", "SMISMEMBER k v", "SMEMBERS k", "SCARD k", "SPOP k", "SPOP k 2",
           "SRANDMEMBER k", "SMOVE k d v", "SINTER x k", "SUNION x k", "SDIFF x k"]


class Collections(Answering):
    def test_hashes(self):
        self.answers(HASHES)

    def test_lists(self):
        self.answers(LISTS)

    def test_sets(self):
        self.answers(SETS)

    def test_the_server(self):
        self.answers(SERVER)

    def test_another_kind_is_refused_and_stays(self):
        held = [
            ("SET k v", OK, "GET k", bulk("v"), ON_HASHES + ON_LISTS + ON_SETS),
            ("HSET k f v", number(1), "HGETALL k", array("f", "v"), ["GET k"] + ON_LISTS + ON_SETS),
            ("RPUSH k v", number(1), "LRANGE k 0 -1", array("v"), ["GET k"] + ON_HASHES + ON_SETS),
            ("SADD k v", number(1), "SMEMBERS k", array("v"), ["GET k"] + ON_HASHES + ON_LISTS),
        ]
        for made, reply, shows, shown, others in held:
            rows = [(made, reply)] + [row for line in others for row in ((line, WRONG_KIND), (shows, shown))]
            self.answers(rows + [("EXISTS d", number(0))])

    def test_a_target_of_another_kind_is_refused(self):
        self.answers([
            ("SET t v", OK),
            ("LMOVE x t LEFT LEFT", NIL),
            ("SMOVE x t m", number(0)),
            ("RPUSH l a", number(1)),
            ("LMOVE l t LEFT LEFT", WRONG_KIND),
            ("LRANGE l 0 -1", array("a")),
            ("SADD s a", number(1)),
            ("SMOVE s t a", WRONG_KIND),
            ("SMOVE s t b", WRONG_KIND),
            ("SMEMBERS s", array("a")),
            ("SINTER s t", WRONG_KIND),
            ("GET t", bulk("v")),
        ])

    def test_a_list_moved_onto_itself(self):
        self.answers([("RPUSH s a b", number(2)), ("LMOVE s s LEFT RIGHT", bulk("a")), ("LRANGE s 0 -1", array("b", "a"))])
        self.answers([("RPUSH s a", number(1)), ("RPOPLPUSH s s", bulk("a")), ("LRANGE s 0 -1", array("a"))])

    def test_65_fields(self):
        pairs = " ".join(f"f{n:02} {n}" for n in reversed(range(65)))
        self.answers([(f"HSET h {pairs}", number(65)), ("HLEN h", number(65)), ("HKEYS h", array(*(f"f{n:02}" for n in range(65))))])

    def test_members_are_taken_from_a_place(self):
        self.answers([("SADD s a b c", number(3)), ("SPOP s", bulk("b"))], "--word", "4")
        self.answers([("SADD s a b c", number(3)), ("SPOP s 2", array("c", "a")), ("SMEMBERS s", array("b"))], "--word", "5")
        self.answers([("SADD s a b c", number(3)), ("SRANDMEMBER s 3", array("b", "c", "a"))], "--word", "1")
        self.answers([("SADD s a b c d", number(4)), ("SPOP s", bulk("d"))], "--word", "18446744073709551615")

    def test_pushed_ranged_and_popped(self):
        self.answers([
            ("LPUSH l a b c", number(3)),
            ("LRANGE l -2 100", array("b", "a")),
            ("LPOP l 3", array("c", "b", "a")),
            ("EXISTS l", number(0)),
        ])

    def test_a_list_is_no_text(self):
        self.answers([("LPUSH l a", number(1)), ("GET l", WRONG_KIND), ("get", arity("get"))])

    def test_quit_ends_the_run(self):
        text = request("PING") + request("QUIT") + request("PING")
        for cut in range(1, len(text)):
            ran = run_in_pieces([text[:cut], text[cut:]], "pipe")
            self.assertEqual((ran.returncode, ran.stdout, ran.stderr), (0, b"+PONG\r\n+OK\r\n", b""), cut)

    def test_values_are_bytes(self):
        value = bytes(range(256)) + b"\r\n"
        text = request("HSET", "h", value, value) + request("HGET", "h", value)
        text += request("RPUSH", "l", value) + request("LINDEX", "l", "0")
        text += request("SADD", "s", value) + request("SMEMBERS", "s")
        ran = run(text, "pipe")
        wanted = number(1) + bulk(value) + number(1) + bulk(value) + number(1) + array(value)
        self.assertEqual((ran.returncode, ran.stdout, ran.stderr), (0, wanted, b""))


if __name__ == "__main__":
    unittest.main()
