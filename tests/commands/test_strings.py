"""Strings, and keys whatever they hold, through the program."""

import unittest

from tests.support.program import request, run
from tests.support.replies import Answering, CURSOR, INTEGER, NIL, NONE, NO_KEY, OK, OVERFLOW, SYNTAX, WRONG_KIND, arity, array, bulk, number

PAST_64_BITS = ("9223372036854775808", "-9223372036854775809", "18446744073709551617", "100000000000000000000")
BAD_OFFSET = b"-ERR offset is out of range\r\n"
TOO_LONG = b"-ERR string too long\r\n"
NO_DECREMENT = b"-ERR decrement would overflow\r\n"
MOST = 2 ** 63 - 1
LEAST = -(2 ** 63)


def scanned(*keys):
    """All keys at once, and the cursor behind the last one."""
    return b"*2\r\n" + bulk("0") + array(*keys)


# commands and their replies, one after another on one dataset
STRINGS = [
    ("SET k hello", OK),
    ("STRLEN k", number(5)),
    ("STRLEN x", number(0)),
    ("GETRANGE k 1 3", bulk("ell")),
    ("GETRANGE k -3 -1", bulk("llo")),
    ("GETRANGE k 0 -1", bulk("hello")),
    ("GETRANGE k 4 100", bulk("o")),
    ("GETRANGE k -100 1", bulk("he")),
    ("GETRANGE k 3 1", bulk("")),
    ("GETRANGE k 5 9", bulk("")),
    ("GETRANGE k 0 -6", bulk("")),
    ("GETRANGE k -100 -100", bulk("")),
    ("GETRANGE x 0 -1", bulk("")),
    ("GETRANGE k 0 x", INTEGER),
    ("MGET k x k", array("hello", None, "hello")),
    ("SETNX k v", number(0)),
    ("SETNX n v", number(1)),
    ("MGET k n", array("hello", "v")),
    ("GETSET k w", bulk("hello")),
    ("GETSET y v", NIL),
    ("GETDEL y", bulk("v")),
    ("GETDEL y", NIL),
    ("EXISTS y", number(0)),
    ("SET k a NX", NIL),
    ("SET o a XX", NIL),
    ("EXISTS o", number(0)),
    ("SET o a nx", OK),
    ("SET o b XX GET", bulk("a")),
    ("SET o c GET NX", bulk("b")),
    ("GET o", bulk("b")),
    ("SET p c NX GET", NIL),
    ("GET p", bulk("c")),
    ("SET q d XX GET", NIL),
    ("EXISTS q", number(0)),
    ("SET k v NX XX", SYNTAX),
    ("SET k v NX NX", SYNTAX),
    ("SET k v GET GET", SYNTAX),
    ("MSET a 1 a 2", OK),
    ("MSET a 2", OK),
    ("GET a", bulk("2")),
    ("MSET a 1 b 2 a 3", OK),
    ("MGET a b", array("3", "2")),
    ("MSET a", arity("mset")),
    ("MSET a 1 b", arity("mset")),
    ("MSETNX c 1 a 9", number(0)),
    ("MGET c a", array(None, "3")),
    ("MSETNX c 1 d 2 c 3", number(1)),
    ("MGET c d", array("3", "2")),
    ("MSETNX e", arity("msetnx")),
    ("APPEND c 45", number(3)),
    ("APPEND z ab", number(2)),
    ("MGET c z", array("345", "ab")),
    ("SETRANGE z 1 XY", number(3)),
    ("SETRANGE w 3 q", number(4)),
    ("MGET z w", array("aXY", "\0\0\0q")),
    ("SETRANGE z -1 q", BAD_OFFSET),
    ("SETRANGE z x q", INTEGER),
    ("SETRANGE z 536870912 q", TOO_LONG),
    ("SETRANGE z 9223372036854775807 q", TOO_LONG),
    ("GET z", bulk("aXY")),
    ("INCR i", number(1)),
    ("INCRBY i 41", number(42)),
    ("DECR i", number(41)),
    ("DECRBY i 50", number(-9)),
    ("INCRBY i x", INTEGER),
    ("DECRBY i -9223372036854775808", NO_DECREMENT),
    ("GET i", bulk("-9")),
    ("SET i 9223372036854775807", OK),
    ("INCR i", OVERFLOW),
    ("GET i", bulk(str(MOST))),
    ("DECRBY i -1", OVERFLOW),
    ("SET i -9223372036854775808", OK),
    ("DECR i", OVERFLOW),
    ("INCRBY i 9223372036854775807", number(-1)),
    ("INCR i x", arity("incr")),
]

KEYS = [
    ("MSET b 1 a 2 ab 3", OK),
    ("KEYS *", array("a", "ab", "b")),
    ("KEYS a*", array("a", "ab")),
    ("KEYS ?", array("a", "b")),
    ("KEYS [^a]*", array("b")),
    ("KEYS x", NONE),
    ("DBSIZE", number(3)),
    ("SCAN 0", scanned("a", "ab", "b")),
    ("SCAN 5", scanned()),
    ("SCAN 0 TYPE string COUNT 1 MATCH a*", scanned("a", "ab")),
    ("SCAN 0 TYPE hash", scanned()),
    ("SCAN x", CURSOR),
    ("SCAN -1", CURSOR),
    ("SCAN 0 COUNT 0", SYNTAX),
    ("SCAN 0 COUNT x", INTEGER),
    ("SCAN 0 MATCH", SYNTAX),
    ("RENAME a c", OK),
    ("MGET a c", array(None, "2")),
    ("RENAME a c", NO_KEY),
    ("RENAME a a", NO_KEY),
    ("RENAME c c", OK),
    ("GET c", bulk("2")),
    ("RENAMENX c b", number(0)),
    ("RENAMENX c c", number(0)),
    ("RENAMENX c d", number(1)),
    ("RENAMENX c d", NO_KEY),
    ("LPUSH l x", number(1)),
    ("RENAME d l", OK),
    ("GET l", bulk("2")),
    ("SADD s x", number(1)),
    ("SCAN 0 TYPE SET", scanned("s")),
    ("KEYS *", array("ab", "b", "l", "s")),
    ("FLUSHALL NOW", SYNTAX),
    ("FLUSHALL ASYNC SYNC", SYNTAX),
    ("DBSIZE", number(4)),
    ("FLUSHALL", OK),
    ("DBSIZE", number(0)),
    ("SET k v", OK),
    ("FLUSHDB async", OK),
    ("EXISTS k", number(0)),
    ("FLUSHDB SYNC", OK),
]

# all that names a key of strings first
ON_STRINGS = ["GET k", "STRLEN k", "GETRANGE k 0 1", "GETSET k v", "GETDEL k", "SET k v GET", "APPEND k v", "SETRANGE k 0 v",
              "INCR k", "DECR k", "INCRBY k 1", "DECRBY k 1"]
# what takes keys of any kind, and sets none over another kind
ON_ANY_KEY = [("SETNX k v", number(0)), ("MSETNX n 1 k 2", number(0)), ("SET k v NX", NIL), ("RENAMENX k k", number(0)),
              ("RENAME k k", OK), ("MGET k", array(None))]


class Strings(Answering):
    def test_strings(self):
        self.answers(STRINGS)

    def test_keys(self):
        self.answers(KEYS)

    def test_another_kind_is_refused_and_stays(self):
        rows = [("RPUSH k a", number(1))]
        rows += [row for line in ON_STRINGS for row in ((line, WRONG_KIND), ("LRANGE k 0 -1", array("a")))]
        rows += [row for asked in ON_ANY_KEY for row in (asked, ("LRANGE k 0 -1", array("a")))]
        self.answers(rows + [("EXISTS n", number(0))])

    def test_another_kind_is_replaced(self):
        for line, reply in (("SET k v", OK), ("MSET k v", OK), ("SET k v XX", OK)):
            self.answers([("RPUSH k a", number(1)), (line, reply), ("GET k", bulk("v"))])

    def test_a_number_has_one_text(self):
        for text in ("01", "+1", "-0", "-01", "00", "-", "1.0", "1e3", "0x1", "x", *PAST_64_BITS):
            self.answers([("SET k " + text, OK), ("INCR k", INTEGER), ("DECRBY k 2", INTEGER), ("GET k", bulk(text))])
        for text in ("", " 1", "1 ", "1\0"):
            asked = request("SET", "k", text) + request("INCR", "k") + request("GET", "k")
            ran = run(asked, "pipe")
            self.assertEqual((ran.returncode, ran.stdout), (0, OK + INTEGER + bulk(text)), text)

    def test_empty_values(self):
        asked = [request("APPEND", "k", ""), request("EXISTS", "k"), request("SETRANGE", "n", "5", ""), request("EXISTS", "n")]
        asked += [request("APPEND", "k", "ab"), request("SETRANGE", "k", "536870912", ""), request("GET", "k")]
        ran = run(b"".join(asked), "pipe")
        wanted = number(0) + number(1) + number(0) + number(0) + number(2) + number(2) + bulk("ab")
        self.assertEqual((ran.returncode, ran.stdout), (0, wanted))

    def test_texts_of_any_length(self):
        """Short ones lie elsewhere than long ones, and are written in fewer pieces: a text grows from the one to the other, and gives way."""
        asked, wanted = [], []
        for length in range(1, 130):
            text = bytes(65 + at % 26 for at in range(length))
            asked += [request("APPEND", "k", text[-1:]), request("GET", "k"), request("SETRANGE", "n", str(length - 1), text[-1:]), request("GET", "n")]
            wanted += [number(length), bulk(text), number(length), bulk(text)]
            asked += [request("SETRANGE", "k", "0", b"a"), request("GETRANGE", "k", "0", "0"), request("GETSET", "o", text), request("SETRANGE", "k", "0", b"A")]
            wanted += [number(length), bulk("a"), NIL if length == 1 else bulk(text[:-1]), number(length)]
            asked += [request("HSET", "h", text, text), request("HGETALL", "h"), request("RPUSH", "l", text), request("LPOP", "l"), request("DEL", "h")]
            wanted += [number(1), array(text, text), number(1), bulk(text), number(1)]
        asked += [request("SET", "k", "7"), request("INCRBY", "k", str(MOST - 7)), request("APPEND", "k", 5 * "8"), request("GET", "k")]
        wanted += [OK, number(MOST), number(24), bulk(f"{MOST}88888")]
        ran = run(b"".join(asked), "pipe")
        self.assertEqual((ran.returncode, ran.stdout), (0, b"".join(wanted)))

    def test_a_text_grows_to_the_limit(self):
        most = 512 * 1024 * 1024
        asked = [request("SETRANGE", "k", str(most - 1), "x"), request("APPEND", "k", "y"), request("STRLEN", "k")]
        asked += [request("SETRANGE", "k", str(most - 1), "yz"), request("GETRANGE", "k", "-2", "-1")]
        ran = run(b"".join(asked), "pipe")
        wanted = number(most) + TOO_LONG + number(most) + TOO_LONG + bulk("\0x")
        self.assertEqual((ran.returncode, ran.stdout), (0, wanted))

    def test_patterns(self):
        self.answers([
            ("MSET hello 1 hallo 2 hxllo 3 h\\llo 4 h[llo 5 h-llo 6", OK),
            ("KEYS h[ae]llo", array("hallo", "hello")),
            ("KEYS h[e-a]llo", array("hallo", "hello")),
            ("KEYS h[^a-z]llo", array("h-llo", "h[llo", "h\\llo")),
            ("KEYS h\\\\llo", array("h\\llo")),
            ("KEYS h\\[llo", array("h[llo")),
            ("KEYS h[a\\-]llo", array("h-llo", "hallo")),
            ("KEYS h[]llo", NONE),
            ("KEYS h[^]llo", array("h-llo", "h[llo", "h\\llo", "hallo", "hello", "hxllo")),
            ("KEYS hello\\", NONE),
            ("KEYS hall[o", array("hallo")),
            ("KEYS *l*l*", array("h-llo", "h[llo", "h\\llo", "hallo", "hello", "hxllo")),
        ])
        self.answers([
            ("MSET - 1 b 2", OK),
            ("KEYS [a-]", array("-")),
            ("KEYS [\\a-c]", array("b")),
            ("KEYS [a-\\c]", array("b")),
        ])

    def test_one_option_of_a_deadline(self):
        self.answers([
            ("SET k v", OK),
            ("EXPIRE k 10 FOO", SYNTAX),
            ("EXPIRE k 10 GT LT", SYNTAX),
            ("EXPIRE k 10 NX GT", SYNTAX),
            ("EXPIRE k 10 NX NX", SYNTAX),
            ("EXPIRE k 10 XX GT", SYNTAX),
            ("TTL k", number(-1)),
        ])

    def test_a_pattern_with_many_stars_answers_at_once(self):
        name = 10_000 * "a"
        self.answers([("SET " + name + " v", OK), ("KEYS a*a*a*a*a*b", NONE), ("KEYS a*a*a*a*a*a", array(name))])

    def test_a_scan_names_each_key_once(self):
        keys = [f"k{n:03}" for n in range(300)]
        self.answers([("MSET " + " ".join(key + " v" for key in reversed(keys)), OK), ("SCAN 0 COUNT 7", scanned(*keys)), ("DBSIZE", number(300))])


if __name__ == "__main__":
    unittest.main()
