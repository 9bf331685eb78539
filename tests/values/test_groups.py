"""Groups of effects: their texts, what they make of a dataset, and files of them."""

import unittest

from tests.support import requests
from tests.support.program import request
from tests.support.requests import EXEC, MULTI, PAIR
from tests.support.values import Playing, spelled

SINGLE = requests.SET


def framed(*effects):
    return requests.framed(*(request(*it) for it in effects))


# the second effect is undefined where k is a text that is no number
TORN = framed(("SET", "a", "1"), ("INCRBY", "k", "1"))


class Texts(Playing):
    def test_two_effects_have_a_frame_and_one_has_none(self):
        self.assertEqual((len(MULTI), len(EXEC), len(PAIR), len(SINGLE)), (15, 14, 83, 27))
        self.plays("group", [
            ("read " + spelled(PAIR), "whole 2 83"),
            ("write " + spelled(PAIR + b"*"), "text " + spelled(PAIR)),
            ("read " + spelled(SINGLE), "whole 1 27"),
            ("write " + spelled(SINGLE + PAIR), "text " + spelled(SINGLE)),
        ])

    def test_a_beginning_wants_more(self):
        self.plays("group", [("read " + spelled(PAIR[:count]), "more") for count in (1, 14, 15, 16, 42, 69, 82)])
        self.plays("group", [("read -", "more")])

    def test_a_command_that_is_no_effect_is_waited_for(self):
        self.plays("group", [("read " + spelled(MULTI + request("FOO")[:-1]), "more"), ("read " + spelled(MULTI + request("FOO")), "bad")])

    def test_what_no_group_begins_with_is_bad(self):
        self.plays("group", [
            ("read " + spelled(bytes_), "bad")
            for bytes_ in (EXEC, request("GET", "k"), request("multi"), b"SET k v\r\n", MULTI + b"x", MULTI + b"*0", MULTI + MULTI, MULTI + request("EXEC", "x"))
        ])

    def test_a_frame_has_two_effects_at_least(self):
        self.plays("group", [("read " + spelled(framed()), "bad"), ("read " + spelled(framed(("SET", "k", "v"))), "bad")])

    def test_ping_stands_alone(self):
        self.plays("group", [
            ("read " + spelled(request("PING")), "whole 1 14"),
            ("read " + spelled(framed(("PING",), ("SET", "k", "v"))), "bad"),
            ("read " + spelled(framed(("SET", "k", "v"), ("PING",))), "bad"),
        ])

    def test_each_kind_of_effect_is_read_and_written(self):
        effects = [
            *(("SET", "k", "v"), ("SET", "k", "v", "PXAT", "5"), ("SET", "k", "v", "KEEPTTL"), ("MSET", "k", "v", "l", "w"), ("APPEND", "k", "v"), ("SETRANGE", "k", "5", "v")),
            *(("INCRBY", "k", "-5"), ("DEL", "k"), ("PEXPIREAT", "k", "5"), ("PERSIST", "k"), ("RENAME", "k", "l"), ("FLUSHALL",)),
            *(("HSET", "h", "f", "v", "g", "w"), ("HDEL", "h", "f", "g"), ("LPUSH", "l", "a", "b"), ("RPUSH", "l", "a"), ("LPOP", "l", "1"), ("RPOP", "l", "2")),
            *(("LSET", "l", "0", "a"), ("LINSERT", "l", "BEFORE", "a", "b"), ("LREM", "l", "-1", "a"), ("LTRIM", "l", "0", "-1"), ("LMOVE", "l", "m", "LEFT", "RIGHT")),
            *(("SADD", "s", "a", "b"), ("SREM", "s", "a"), ("SMOVE", "s", "t", "a"), ("ZADD", "z", "1", "a", "-2", "b"), ("ZREM", "z", "a", "b")),
        ]
        text = framed(*effects)
        self.plays("group", [("read " + spelled(text), "whole %d %d" % (len(effects), len(text))), ("write " + spelled(text), "text " + spelled(text))])


class Datasets(Playing):
    def test_a_group_is_done_as_a_whole(self):
        for call in ("apply ", "move "):
            self.plays("group", [
                (call + spelled(SINGLE), "applied"),
                (call + spelled(framed(("DEL", "k"), ("SET", "a", "1"))), "applied"),
                ("shows", "commands " + spelled(request("SET", "a", "1"))),
            ])

    def test_where_the_first_effect_is_undefined_nothing_changes(self):
        for call in ("apply ", "move "):
            self.plays("group", [
                (call + spelled(SINGLE), "applied"),
                (call + spelled(framed(("INCRBY", "k", "1"), ("SET", "a", "1"))), "refused"),
                (call + spelled(request("INCRBY", "k", "1")), "refused"),
                ("shows", "commands " + spelled(SINGLE)),
            ])

    def test_where_a_later_effect_is_undefined_the_group_is_torn(self):
        for call in ("apply ", "move "):
            self.plays("group", [(call + spelled(SINGLE), "applied"), (call + spelled(TORN), "torn")])


class OfFiles(Playing):
    def loads(self, file, used, commands):
        self.plays("group", [("load " + spelled(file), "loads %d commands %s" % (used, spelled(commands)))])


class Files(OfFiles):
    def test_a_whole_group_is_loaded(self):
        self.loads(SINGLE + PAIR, 110, request("SET", "a", "1") + request("SET", "b", "2") + SINGLE)

    def test_nothing_is_loaded_of_a_torn_text(self):
        for count in (82, 70, 69, 42, 15, 1):
            self.loads(SINGLE + PAIR[:count], 27, SINGLE)

    def test_nothing_is_loaded_of_a_group_that_can_be_done_in_part(self):
        self.loads(SINGLE + TORN + request("SET", "c", "3"), 27, SINGLE)
        self.loads(SINGLE + request("SET", "a", "0") + TORN, 54, request("SET", "a", "0") + SINGLE)

    def test_nothing_is_loaded_behind_what_is_bad(self):
        self.loads(SINGLE + framed(("SET", "a", "1")) + SINGLE, 27, SINGLE)
        self.loads(SINGLE + request("INCRBY", "k", "1") + SINGLE, 27, SINGLE)


class Notes(OfFiles):
    """A note is `#`, at most 65,536 bytes that aren't a line feed, and one. It stands between groups of a file, and does nothing."""

    BOTH = request("SET", "a", "1") + request("SET", "b", "2") + SINGLE

    def test_it_counts_in_what_is_loaded_and_in_nothing_else(self):
        self.loads(b"#TS:5\r\n" + SINGLE + b"#TS:6", 34, SINGLE)

    def test_one_of_too_many_bytes_ends_what_is_loaded(self):
        self.loads(b"#" + 65_537 * b"x" + b"\n", 0, b"")
        self.loads(SINGLE + b"#" + 65_537 * b"x" + b"\n" + PAIR, 27, SINGLE)
        self.loads(b"#" + 65_536 * b"x" + b"\n" + SINGLE, 65_565, SINGLE)

    def test_in_front_between_and_behind(self):
        for note in (b"#\n", b"#\r\n", b"##\n", b"#TS:1700000000\r\n", b"#*1\r\n", bytes([35, 0, 255, 13, 10])):
            count = len(note)
            self.loads(note, count, b"")
            self.loads(note + SINGLE + PAIR, 110 + count, self.BOTH)
            self.loads(SINGLE + note + PAIR, 110 + count, self.BOTH)
            self.loads(SINGLE + 3 * note + PAIR + note, 110 + 4 * count, self.BOTH)

    def test_one_without_its_line_feed_is_not_there(self):
        for begun in (b"#", b"#TS:6", b"#TS:6\r", b"#" + 65_536 * b"x"):
            self.loads(SINGLE + begun, 27, SINGLE)

    def test_within_a_frame_nothing_of_the_group_is_kept(self):
        note, effects = b"#TS:5\r\n", [request("SET", "a", "1"), request("SET", "b", "2")]
        for at in range(3):
            parts = [MULTI, *effects, EXEC]
            parts.insert(at + 1, note)
            self.loads(SINGLE + b"".join(parts) + SINGLE, 27, SINGLE)

    def test_within_an_effect_there_is_none(self):
        self.loads(SINGLE + SINGLE[:13] + b"#\n" + SINGLE[13:], 27, SINGLE)

    def test_a_group_that_can_be_done_in_part_behind_one(self):
        self.loads(SINGLE + b"#\n" + TORN, 29, SINGLE)
        self.loads(b"#\n" + SINGLE + b"#\n" + request("INCRBY", "k", "1"), 31, SINGLE)

    def test_none_is_read_of_a_stream(self):
        self.plays("group", [("read " + spelled(note + SINGLE), "bad") for note in (b"#\n", b"#TS:5\r\n", b"#")])


if __name__ == "__main__":
    unittest.main()
