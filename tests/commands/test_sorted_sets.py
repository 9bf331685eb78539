"""Sorted sets through the program."""

import unittest

from tests.support.program import request, run
from tests.support.replies import Answering, INTEGER, NIL, NONE, NO_BOUND, OK, POSITIVE, SYNTAX, WRONG_KIND, arity, array, bulk, number

NO_SCORE = b"-ERR resulting score is out of range\r\n"
MOST = 2 ** 53

# commands and their replies, one after another on one dataset
SORTED_SETS = [
    ("ZADD z 1.0 b 1 a 2 c", number(3)),
    ("ZRANGE z 0 -1 WITHSCORES", array("a", "1", "b", "1", "c", "2")),
    ("ZADD z 1.5 d", INTEGER),
    ("ZADD z 5 d x e", INTEGER),
    ("ZCARD z", number(3)),
    ("ZCARD x", number(0)),
    ("ZADD z 7 c 3 c", number(0)),
    ("ZADD z CH 7 c 3 c 9 e", number(3)),
    ("ZSCORE z c", bulk("3")),
    ("ZSCORE z x", NIL),
    ("ZSCORE x a", NIL),
    ("ZMSCORE z a x c", array("1", None, "3")),
    ("ZMSCORE x a b", array(None, None)),
    ("ZRANK z a", number(0)),
    ("ZRANK z e", number(3)),
    ("ZREVRANK z e", number(0)),
    ("ZREVRANK z a", number(3)),
    ("ZRANK z x", NIL),
    ("ZREVRANK x a", NIL),
    ("ZADD z NX 5 a 5 f", number(1)),
    ("ZADD z XX CH 2 a 5 g", number(1)),
    ("ZADD z GT CH 1 a 6 b", number(1)),
    ("ZADD z ch lt 1 a 9 b 4 h", number(2)),
    ("ZADD z XX GT CH 0 a 8 b 1 i", number(1)),
    ("ZRANGE z 0 -1 WITHSCORES", array("a", "1", "c", "3", "h", "4", "f", "5", "b", "8", "e", "9")),
    ("ZADD z NX XX 1 a", SYNTAX),
    ("ZADD z NX GT 1 a", SYNTAX),
    ("ZADD z LT GT 1 a", SYNTAX),
    ("ZADD z CH CH 1 a", SYNTAX),
    ("ZADD z 1 a 2", SYNTAX),
    ("ZADD z NX CH", SYNTAX),
    ("ZADD z 1", arity("zadd")),
    ("ZRANGE z 1 2", array("c", "h")),
    ("ZRANGE z -2 -1 REV", array("c", "a")),
    ("ZREVRANGE z 0 1 WITHSCORES", array("e", "9", "b", "8")),
    ("ZRANGE z 0 0 WITHSCORES rev", array("e", "9")),
    ("ZRANGE z 5 100", array("e")),
    ("ZRANGE z 6 100", NONE),
    ("ZRANGE x 0 -1", NONE),
    ("ZRANGE z 0 -1 LIMIT 0 1", SYNTAX),
    ("ZRANGE z 0 -1 REV REV", SYNTAX),
    ("ZRANGE z a 1", INTEGER),
    ("ZRANGE z 0", arity("zrange")),
    ("ZREVRANGE z 0 1 REV", SYNTAX),
    ("ZRANGEBYSCORE z (3 8", array("h", "f", "b")),
    ("ZRANGEBYSCORE z -inf (4 WITHSCORES", array("a", "1", "c", "3")),
    ("ZRANGEBYSCORE z 3 inf LIMIT 1 2", array("h", "f")),
    ("ZRANGEBYSCORE z 3 +inf LIMIT 3 -1 WITHSCORES", array("b", "8", "e", "9")),
    ("ZRANGEBYSCORE z 3 +inf LIMIT -1 2", NONE),
    ("ZRANGEBYSCORE z 9 3", NONE),
    ("ZREVRANGEBYSCORE z +inf (3 LIMIT 1 2", array("b", "f")),
    ("ZREVRANGEBYSCORE z 5 3", array("f", "h", "c")),
    ("ZRANGE z +inf 5 BYSCORE REV LIMIT 1 -1", array("b", "f")),
    ("ZRANGE z 3.0 (8 BYSCORE", array("c", "h", "f")),
    ("ZRANGEBYSCORE z x 3", NO_BOUND),
    ("ZRANGEBYSCORE z 1.5 3", NO_BOUND),
    ("ZRANGEBYSCORE z 1 3 LIMIT x 1", INTEGER),
    ("ZRANGEBYSCORE z 1 3 LIMIT 1", SYNTAX),
    ("ZRANGEBYSCORE z 1 3 REV", SYNTAX),
    ("ZCOUNT z (1 8", number(4)),
    ("ZCOUNT z -inf +inf", number(6)),
    ("ZCOUNT x 0 1", number(0)),
    ("ZCOUNT z 0 Inf", number(6)),
    ("ZCOUNT z (1.0 8.00", number(4)),
    ("ZCOUNT z 0 1.5", NO_BOUND),
    ("ZCOUNT z 0 9007199254740993", NO_BOUND),
    ("ZINCRBY z 2 a", bulk("3")),
    ("ZINCRBY z -5.0 new", bulk("-5")),
    ("ZINCRBY z 0.5 a", INTEGER),
    ("ZINCRBY z 9007199254740993 a", INTEGER),
    ("ZADD top 9007199254740992 m", number(1)),
    ("ZINCRBY top 1 m", NO_SCORE),
    ("ZSCORE top m", bulk(str(MOST))),
    ("ZADD top 9007199254740993 m", INTEGER),
    ("ZADD top -9007199254740992 m", number(0)),
    ("ZINCRBY top -1 m", NO_SCORE),
    ("ZREM z a a x c", number(2)),
    ("ZPOPMIN z", array("new", "-5")),
    ("ZPOPMAX z 2", array("e", "9", "b", "8")),
    ("ZPOPMIN z 0", NONE),
    ("ZPOPMIN z -1", POSITIVE),
    ("ZPOPMIN x", NONE),
    ("ZPOPMAX x 2", NONE),
    ("ZPOPMIN z 1 2", arity("zpopmin")),
    ("ZPOPMIN z 9", array("h", "4", "f", "5")),
    ("EXISTS z", number(0)),
    ("ZADD z 1 a 2 b 3 c 4 d 5 e", number(5)),
    ("ZREMRANGEBYRANK z -2 -2", number(1)),
    ("ZREMRANGEBYRANK z 3 9", number(1)),
    ("ZREMRANGEBYRANK z 2 1", number(0)),
    ("ZREMRANGEBYSCORE z (1 2", number(1)),
    ("ZRANGE z 0 -1", array("a", "c")),
    ("ZREMRANGEBYSCORE z -inf inf", number(2)),
    ("TYPE z", b"+none\r\n"),
    ("ZREMRANGEBYSCORE z 0 1", number(0)),
    ("ZREMRANGEBYRANK z 0 -1", number(0)),
    ("TYPE top", b"+zset\r\n"),
    ("SCAN 0 TYPE zset", b"*2\r\n$1\r\n0\r\n" + array("top")),
]

# all that names a key of sorted sets first
ON_SORTED_SETS = ["ZADD k 1 a", "ZINCRBY k 1 a", "ZREM k a", "ZCARD k", "ZCOUNT k 0 1", "ZSCORE k a", "ZMSCORE k a", "ZRANK k a",
                  "ZREVRANK k a", "ZRANGE k 0 1", "ZRANGE k 0 1 BYSCORE", "ZREVRANGE k 0 1", "ZRANGEBYSCORE k 0 1", "ZREVRANGEBYSCORE k 1 0",
                  "ZPOPMIN k", "ZPOPMAX k 2", "ZREMRANGEBYRANK k 0 1", "ZREMRANGEBYSCORE k 0 1"]
ON_OTHERS = ["GET k", "APPEND k v", "INCR k", "HSET k f v", "HGET k f", "RPUSH k v", "LRANGE k 0 1", "SADD k v", "SMEMBERS k", "SINTER k x"]


class SortedSets(Answering):
    def test_sorted_sets(self):
        self.answers(SORTED_SETS)

    def test_a_lower_score_under_gt_changes_nothing(self):
        self.answers([("ZADD z 5 a", number(1)), ("ZADD z GT 3 a", number(0)), ("ZSCORE z a", bulk("5"))])

    def test_bounds_and_turned_ranges(self):
        self.answers([
            ("ZADD z 1 a 2 b 3 c", number(3)),
            ("ZRANGEBYSCORE z (1 +inf WITHSCORES", array("b", "2", "c", "3")),
            ("ZRANGE z +inf 1 BYSCORE REV LIMIT 1 -1", array("b", "a")),
        ])

    def test_infinite_bounds_in_any_case(self):
        for bound in ("inf", "INF", "Inf", "iNf", "inF", "INf", "infinity", "Infinity", "INFINITY", "iNfINitY"):
            self.answers([
                ("ZADD z 1 a 2 b 3 c", number(3)),
                (f"ZCOUNT z -{bound} {bound}", number(3)),
                (f"ZCOUNT z (-{bound} (+{bound}", number(3)),
                (f"ZCOUNT z {bound} +{bound}", number(0)),
                (f"ZCOUNT z ({bound} -{bound}", number(0)),
                (f"ZRANGEBYSCORE z (1 {bound}", array("b", "c")),
                (f"ZRANGEBYSCORE z -{bound} (2", array("a")),
                (f"ZREVRANGEBYSCORE z +{bound} (1 LIMIT 0 1", array("c")),
                (f"ZRANGE z ({bound} (-{bound} BYSCORE REV LIMIT 1 2", array("b", "a")),
                (f"ZRANGE z -{bound} 2 BYSCORE", array("a", "b")),
                (f"ZREMRANGEBYSCORE z -{bound} (2", number(1)),
                (f"ZREMRANGEBYSCORE z (2 +{bound}", number(1)),
                (f"ZADD z {bound} d", INTEGER),
                (f"ZADD z -{bound} d", INTEGER),
                (f"ZINCRBY z +{bound} b", INTEGER),
                ("ZRANGE z 0 -1", array("b")),
            ])

    def test_another_kind_is_refused_and_stays(self):
        rows = [("RPUSH k a", number(1))]
        rows += [row for line in ON_SORTED_SETS for row in ((line, WRONG_KIND), ("LRANGE k 0 -1", array("a")))]
        self.answers(rows)
        rows = [("ZADD k 1 a", number(1))]
        rows += [row for line in ON_OTHERS for row in ((line, WRONG_KIND), ("ZRANGE k 0 -1 WITHSCORES", array("a", "1")))]
        self.answers(rows)

    def test_another_kind_is_replaced(self):
        self.answers([("ZADD k 1 a", number(1)), ("SET k v", OK), ("GET k", bulk("v"))])

    def test_members_of_one_score_stand_by_their_bytes(self):
        members = [b"", b"\0", b"A", b"a", b"aa", b"b", b"\xff"]
        pairs = [word for member in reversed(members) for word in (b"7", member)]
        ran = run(request("ZADD", "z", *pairs) + request("ZRANGE", "z", "0", "-1"), "pipe")
        self.assertEqual((ran.returncode, ran.stdout), (0, number(len(members)) + array(*members)))

    def test_70_members_come_and_go(self):
        names = [f"m{n:02}" for n in range(70)]
        pairs = " ".join(f"{n} {name}" for n, name in reversed(list(enumerate(names))))
        popped = [word for n, name in enumerate(names) for word in (name, str(n))]
        self.answers([
            ("ZADD z " + pairs, number(70)),
            ("ZRANGE z 0 -1", array(*names)),
            ("ZPOPMIN z 70", array(*popped)),
            ("EXISTS z", number(0)),
        ])


if __name__ == "__main__":
    unittest.main()
