"""Commands on strings, keys and hashes one after another: what each is answered, and the effects that it has. A row is a command, its reply, and its effects."""

import unittest

from tests.support.rehearsal import Rehearsing
from tests.support.replies import INTEGER, NIL, NO_KEY, NONE, OK, OVERFLOW, WRONG_KIND, array, array_of, bulk, number


class Strings(Rehearsing):
    def test_texts_are_set_and_got(self):
        rows = [
            ("GET k", NIL),
            ("SET k v", OK, "SET k v"),
            ("set k v", OK),
            ("gEt k", bulk("v")),
            ("SET k w", OK, "SET k w"),
        ]
        self.plays(rows)

    def test_a_list_is_no_text(self):
        rows = [
            ("LPUSH l v",),
            ("GET l", WRONG_KIND),
            ("STRLEN l", WRONG_KIND),
            ("GETRANGE l 0 -1", WRONG_KIND),
            ("SET l v GET", WRONG_KIND),
            ("SET l v NX GET", WRONG_KIND),
            ("GETSET l v", WRONG_KIND),
            ("GETDEL l", WRONG_KIND),
            ("SETNX l v", number(0)),
            ("SET l v NX", NIL),
        ]
        self.plays(rows)

    def test_a_text_is_set_over_a_list(self):
        rows = [
            ("LPUSH l v",),
            ("MGET l x", array(None, None)),
            ("SET l v XX", OK, "SET l v"),
            ("GET l", bulk("v")),
        ]
        self.plays(rows)

    def test_parts_of_texts_are_told(self):
        rows = [
            ("STRLEN k", number(0)),
            ("GETRANGE k 0 -1", bulk("")),
            ("SET k hello", OK, "SET k hello"),
            ("STRLEN k", number(5)),
            ("GETRANGE k 0 2", bulk("hel")),
            ("GETRANGE k -2 -1", bulk("lo")),
            ("GETRANGE k -9 0", bulk("h")),
            ("GETRANGE k 4 99", bulk("o")),
            ("GETRANGE k 3 1", bulk("")),
            ("GETRANGE k 5 9", bulk("")),
            ("MGET k x k", array("hello", None, "hello")),
        ]
        self.plays(rows)

    def test_options_stand_in_any_order_and_case(self):
        rows = [
            ("set GET set", OK, "SET GET set"),
            ("SET k v", OK, "SET k v"),
            ("SET k w get Xx", bulk("v"), "SET k w"),
            ("SET h hello", OK, "SET h hello"),
            ("getrange h 2 -3", bulk("l")),
            ("FlushDB Sync", OK, "FLUSHALL"),
        ]
        self.plays(rows)

    def test_texts_are_set_where_they_may_be(self):
        rows = [
            ("SET k v XX", NIL),
            ("SET k v XX GET", NIL),
            ("SET k v GET NX", NIL, "SET k v"),
            ("SET k w NX", NIL),
            ("SET k w NX GET", bulk("v")),
            ("SET k w XX", OK, "SET k w"),
            ("SET k x GET", bulk("w"), "SET k x"),
            ("SET k x GET", bulk("x")),
        ]
        self.plays(rows)

    def test_texts_are_exchanged(self):
        rows = [
            ("GETDEL k", NIL),
            ("SETNX k v", number(1), "SET k v"),
            ("SETNX k w", number(0)),
            ("GETSET k w", bulk("v"), "SET k w"),
            ("GETSET k w", bulk("w")),
            ("GETDEL k", bulk("w"), "DEL k"),
            ("GETSET k v", NIL, "SET k v"),
        ]
        self.plays(rows)

    def test_several_texts_are_set(self):
        rows = [
            ("MSET b 1 a 2 b 3", OK, "MSET a 2 b 3"),
            ("MSET b 3 a 2", OK),
            ("MSET a 2 c 4", OK, "MSET c 4"),
            ("MSETNX d 1 a 5", number(0)),
            ("MSETNX e 1 d 1", number(1), "MSET d 1 e 1"),
            ("MGET a b c d", array("2", "3", "4", "1")),
        ]
        self.plays(rows)

    def test_texts_get_longer(self):
        rows = [
            ("APPEND k ", number(0), "APPEND k "),
            ("APPEND k ", number(0)),
            ("APPEND k ab", number(2), "APPEND k ab"),
            ("APPEND k c", number(3), "APPEND k c"),
            ("GET k", bulk("abc")),
        ]
        self.plays(rows)

    def test_texts_are_written_over(self):
        rows = [
            ("SETRANGE k 3 ", number(0)),
            ("GET k", NIL),
            ("SETRANGE k 1 ab", number(3), "SETRANGE k 1 ab"),
            ("GET k", bulk("\0ab")),
            ("SETRANGE k 1 ab", number(3)),
            ("SETRANGE k 2 x", number(3), "SETRANGE k 2 x"),
            ("SETRANGE k 9 ", number(3)),
            ("SETRANGE k 536870912 x", b"-ERR string too long\r\n"),
            ("GETRANGE k 1 -1", bulk("ax")),
        ]
        self.plays(rows)

    def test_numbers_are_added_to(self):
        rows = [
            ("INCR k", number(1), "INCRBY k 1"),
            ("DECR k", number(0), "INCRBY k -1"),
            ("INCRBY k 5", number(5), "INCRBY k 5"),
            ("DECRBY k 7", number(-2), "INCRBY k -7"),
            ("INCRBY k 0", number(-2)),
            ("INCRBY x 0", number(0), "INCRBY x 0"),
            ("MGET k x", array("-2", "0")),
            ("INCRBY n -9223372036854775808", number(-9223372036854775808), "INCRBY n -9223372036854775808"),
            ("decrby m 9223372036854775807", number(-9223372036854775807), "INCRBY m -9223372036854775807"),
        ]
        self.plays(rows)

    def test_what_is_no_number_stays(self):
        rows = [
            ("SET k 01", OK, "SET k 01"),
            ("INCR k", INTEGER),
            ("SET k 9223372036854775807", OK, "SET k 9223372036854775807"),
            ("INCR k", OVERFLOW),
            ("GET k", bulk("9223372036854775807")),
        ]
        self.plays(rows)

    def test_another_kind_is_changed_by_mset_alone(self):
        rows = [
            ("LPUSH l v",),
            ("APPEND l v", WRONG_KIND),
            ("SETRANGE l 0 v", WRONG_KIND),
            ("SETRANGE l 0 ", WRONG_KIND),
            ("INCR l", WRONG_KIND),
            ("MSETNX x v l v", number(0)),
            ("MSET l v", OK, "MSET l v"),
            ("GET l", bulk("v")),
        ]
        self.plays(rows)

    def test_offsets_count_the_effects(self):
        self.plays([("SET k 9223372036854775807", OK, "SET k 9223372036854775807"), ("INCR k", OVERFLOW)])
        self.shows_at(46, "SET k 9223372036854775807", "INCR k")
        self.shows_at(28, "MSET a 1 a 2", "MSET a 2")
        self.shows_at(31, b"SET \"a b\" 'x\\'y'\r\n")


class Keys(Rehearsing):
    def test_keys_are_counted_and_deleted(self):
        rows = [
            ("LPUSH l v",),
            ("SET b v",),
            ("SET ab v",),
            ("SET a v",),
            ("EXISTS b x a b", number(3)),
            ("DEL b x a b", number(2), "DEL b", "DEL a"),
            ("DEL a", number(0)),
            ("EXISTS a", number(0)),
            ("DBSIZE", number(2)),
            ("UNLINK l l", number(1), "DEL l"),
        ]
        self.plays(rows)

    def test_one_key_is_deleted(self):
        rows = [
            ("SET a v",),
            ("SET b v",),
            ("DEL b", number(1), "DEL b"),
            ("EXISTS a b", number(1)),
        ]
        self.plays(rows)

    def test_options_of_a_scan(self):
        rows = [
            ("SET a v",),
            ("SET ab v",),
            ("SET b v",),
            ("scan 0 count 5 match a*", array_of(bulk("0"), array("a", "ab"))),
            ("SCAN 0 MATCH a* COUNT 10 TYPE hash", array_of(bulk("0"), NONE)),
            ("SCAN 0 type NOPE count 1 match *", array_of(bulk("0"), NONE)),
            ("SCAN 0 TYPE strings", array_of(bulk("0"), NONE)),
            ("SCAN 0 TYPE string MATCH *", array_of(bulk("0"), array("a", "ab", "b"))),
            ("SCAN 7 TYPE ZSet", array_of(bulk("0"), NONE)),
            ("SCAN 9223372036854775807", array_of(bulk("0"), NONE)),
        ]
        self.plays(rows)

    def test_keys_have_types(self):
        rows = [
            ("LPUSH l v",),
            ("SET b v",),
            ("SET ab v",),
            ("SET a v",),
            ("TYPE a", b"+string\r\n"),
            ("TYPE l", b"+list\r\n"),
            ("TYPE x", b"+none\r\n"),
        ]
        self.plays(rows)

    def test_the_server_answers(self):
        rows = [
            ("PING", b"+PONG\r\n"),
            ("ping hello", bulk("hello")),
            ("ECHO hi", bulk("hi")),
            ("SELECT 0", OK),
            ("COMMAND", NONE),
            ("COMMAND DOCS get", NONE),
            ("CLIENT SETNAME x", OK),
            ("CLIENT SETINFO LIB-NAME y", OK),
        ]
        self.plays(rows)

    def test_keys_are_listed_in_byte_order(self):
        rows = [
            ("LPUSH l v",),
            ("SET b v",),
            ("SET ab v",),
            ("SET a v",),
            ("KEYS *", array("a", "ab", "b", "l")),
            ("KEYS a*", array("a", "ab")),
            ("KEYS ?", array("a", "b", "l")),
            ("KEYS [b-z]", array("b", "l")),
            ("KEYS ab", array("ab")),
            ("KEYS x*", NONE),
            ("DBSIZE", number(4)),
        ]
        self.plays(rows)

    def test_keys_of_any_length_are_listed_in_byte_order(self):
        # keys of 23 bytes and fewer stand apart from longer ones, with zeros behind them
        lengths = (1, 8, 16, 22, 23, 24, 40)
        keys = ["", "ab", "a" * 22 + "b", "a" * 23 + "b", "a" * 19 + "b", *[letter * length for letter in "abc" for length in lengths]]
        keys += [key + "\0" for key in keys] + ["\0\0", "a\0\0", "a" * 20 + "\0\0", "a" * 21 + "\0\0", "a" * 23 + "\0\0"]
        in_order = sorted(keys)
        others, left = in_order[::2], in_order[1::2]
        rows = [("SET %s %d" % (key, place),) for place, key in enumerate(keys)]
        rows += [
            ("KEYS *", array(*in_order)),
            ("DBSIZE", number(len(keys))),
            *[("GET %s" % key, bulk(str(place))) for place, key in enumerate(keys)],
            *[("DEL %s" % key, number(1), "DEL %s" % key) for key in others],
            ("KEYS *", array(*left)),
            *[("EXISTS %s" % key, number(0)) for key in others],
            ("RENAME %s new" % left[-1], OK, "RENAME %s new" % left[-1]),
            ("KEYS *", array(*sorted([*left[:-1], "new"]))),
            ("FLUSHALL", OK, "FLUSHALL"),
            ("KEYS *", NONE),
        ]
        self.plays(rows)
        self.plays([*[("HSET h %s v" % key,) for key in keys], ("HKEYS h", array(*in_order))])

    def test_keys_are_scanned_at_once(self):
        rows = [
            ("LPUSH l v",),
            ("SET b v",),
            ("SET ab v",),
            ("SET a v",),
            ("SCAN 0", array_of(bulk("0"), array("a", "ab", "b", "l"))),
            ("SCAN 7", array_of(bulk("0"), NONE)),
            ("SCAN 0 COUNT 1 MATCH a*", array_of(bulk("0"), array("a", "ab"))),
            ("SCAN 0 TYPE list", array_of(bulk("0"), array("l"))),
            ("SCAN 0 MATCH ?b TYPE string", array_of(bulk("0"), array("ab"))),
            ("SCAN 0 TYPE zset", array_of(bulk("0"), NONE)),
        ]
        self.plays(rows)

    def test_an_empty_dataset_has_no_keys(self):
        rows = [
            ("KEYS *", NONE),
            ("SCAN 0", array_of(bulk("0"), NONE)),
            ("DBSIZE", number(0)),
        ]
        self.plays(rows)

    def test_keys_are_renamed(self):
        rows = [
            ("LPUSH l v",),
            ("SET b v",),
            ("SET ab v",),
            ("SET a v",),
            ("RENAME x y", NO_KEY),
            ("RENAME a a", OK),
            ("RENAME a b", OK, "RENAME a b"),
            ("EXISTS a b", number(1)),
            ("RENAME l ab", OK, "RENAME l ab"),
            ("TYPE ab", b"+list\r\n"),
        ]
        self.plays(rows)

    def test_keys_are_renamed_to_new_names(self):
        rows = [
            ("LPUSH l v",),
            ("SET b v",),
            ("SET ab v",),
            ("SET a v",),
            ("RENAMENX x a", NO_KEY),
            ("RENAMENX a b", number(0)),
            ("RENAMENX a a", number(0)),
            ("RENAMENX a c", number(1), "RENAME a c"),
            ("EXISTS a c", number(1)),
        ]
        self.plays(rows)

    def test_all_keys_are_deleted(self):
        rows = [
            ("LPUSH l v",),
            ("SET b v",),
            ("SET ab v",),
            ("SET a v",),
            ("FLUSHALL", OK, "FLUSHALL"),
            ("DBSIZE", number(0)),
            ("FLUSHALL SYNC", OK),
            ("FLUSHDB ASYNC", OK),
        ]
        self.plays(rows)

    def test_the_one_database_is_cleared(self):
        rows = [
            ("LPUSH l v",),
            ("FLUSHDB", OK, "FLUSHALL"),
            ("DBSIZE", number(0)),
        ]
        self.plays(rows)


class Hashes(Rehearsing):
    def test_an_absent_key_has_no_field(self):
        rows = [
            ("HGET k f", NIL),
            ("HMGET k f g", array(None, None)),
            ("HGETALL k", NONE),
            ("HKEYS k", NONE),
            ("HVALS k", NONE),
            ("HEXISTS k f", number(0)),
            ("HLEN k", number(0)),
            ("HSTRLEN k f", number(0)),
            ("HDEL k f", number(0)),
            ("HDEL k f g", number(0)),
        ]
        self.plays(rows)

    def test_fields_get_values(self):
        rows = [
            ("HSET k b 2 a 1 b 3", number(2), "HSET k a 1 b 3"),
            ("HSET k a 1 b 3", number(0)),
            ("HSET k c 9 a 2", number(1), "HSET k a 2 c 9"),
            ("HSET k b 4 b 3 a 5", number(0), "HSET k a 5"),
            ("HSET k a 6", number(0), "HSET k a 6"),
            ("HSET k a 6", number(0)),
            ("HSET k d x", number(1), "HSET k d x"),
            ("HMSET k b 3 c 9", OK),
            ("HMSET k f 2 e 1", OK, "HSET k e 1 f 2"),
            ("HMSET k e 3", OK, "HSET k e 3"),
        ]
        self.plays(rows)

    def test_a_new_field_alone_is_set(self):
        rows = [
            ("HSETNX k f v", number(1), "HSET k f v"),
            ("HSETNX k f w", number(0)),
            ("HGET k f", bulk("v")),
        ]
        self.plays(rows)

    def test_fields_are_read_in_byte_order(self):
        rows = [
            ("HSET k b 3 a five c 9", number(3), "HSET k a five b 3 c 9"),
            ("HGET k a", bulk("five")),
            ("HGET k z", NIL),
            ("HMGET k b z a b", array("3", None, "five", "3")),
            ("HGETALL k", array("a", "five", "b", "3", "c", "9")),
            ("HKEYS k", array("a", "b", "c")),
            ("HVALS k", array("five", "3", "9")),
            ("HEXISTS k c", number(1)),
            ("HEXISTS k z", number(0)),
            ("HLEN k", number(3)),
            ("HSTRLEN k a", number(4)),
            ("HSTRLEN k z", number(0)),
        ]
        self.plays(rows)

    def test_fields_go(self):
        rows = [
            ("HSET k b 1 a 2 c 3 d 4", number(4), "HSET k a 2 b 1 c 3 d 4"),
            ("HDEL k z", number(0)),
            ("HDEL k c z b c", number(2), "HDEL k b c"),
            ("HDEL k a", number(1), "HDEL k a"),
            ("HLEN k", number(1)),
            ("HDEL k d d", number(1), "HDEL k d"),
            ("HLEN k", number(0)),
            ("HDEL k d", number(0)),
        ]
        self.plays(rows)

    def test_numbers_grow(self):
        rows = [
            ("HINCRBY k n 0", number(0), "HSET k n 0"),
            ("HINCRBY k n 0", number(0)),
            ("HINCRBY k n 7", number(7), "HSET k n 7"),
            ("HINCRBY k n -10", number(-3), "HSET k n -3"),
            ("HINCRBY k m 9223372036854775807", number(9223372036854775807), "HSET k m 9223372036854775807"),
            ("HINCRBY k m 1", OVERFLOW),
            ("HINCRBY k m -9223372036854775808", number(-1), "HSET k m -1"),
            ("HSET k s 01 t x", number(2), "HSET k s 01 t x"),
            ("HINCRBY k s 1", b"-ERR hash value is not an integer\r\n"),
            ("HINCRBY k t 1", b"-ERR hash value is not an integer\r\n"),
        ]
        self.plays(rows)

    def test_a_key_of_another_kind_is_left_alone(self):
        rows = [
            ("SET k v",),
            ("HSET k f v", WRONG_KIND),
            ("HSET k f v g w", WRONG_KIND),
            ("HMSET k f v", WRONG_KIND),
            ("HSETNX k f v", WRONG_KIND),
            ("HGET k f", WRONG_KIND),
            ("HMGET k f g", WRONG_KIND),
            ("HGETALL k", WRONG_KIND),
            ("HKEYS k", WRONG_KIND),
            ("HVALS k", WRONG_KIND),
            ("HDEL k f", WRONG_KIND),
            ("HDEL k f g", WRONG_KIND),
            ("HEXISTS k f", WRONG_KIND),
            ("HLEN k", WRONG_KIND),
            ("HSTRLEN k f", WRONG_KIND),
            ("HINCRBY k f 1", WRONG_KIND),
        ]
        self.plays(rows)

    def test_an_effect_has_64_fields_at_most(self):
        fields = ["f%02d" % it for it in range(65)]
        self.plays([
            ("HSET k " + " v ".join(reversed(fields)) + " v", number(65), "HSET k " + " v ".join(fields[:64]) + " v", "HSET k f64 v"),
            ("HDEL k " + " ".join(reversed(fields)), number(65), "HDEL k " + " ".join(fields[:64]), "HDEL k f64"),
            ("DBSIZE", number(0)),
        ])


if __name__ == "__main__":
    unittest.main()
