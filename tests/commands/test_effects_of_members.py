"""Commands on lists, sets and sorted sets one after another: what each is answered, and the effects that it has. A row is a command, its reply, and its effects."""

import unittest

from tests.support.rehearsal import Rehearsing
from tests.support.replies import NIL, NO_KEY, NO_LIST, NONE, OK, WRONG_KIND, array, bulk, number


def by_64(items):
    """The items in groups of 64, the last one shorter."""
    return [items[it : it + 64] for it in range(0, len(items), 64)]


class Lists(Rehearsing):
    def test_a_list_is_turned(self):
        rows = [
            ("SET t v",),
            ("RPUSH s a b", number(2), "RPUSH s a b"),
            ("LMOVE s s LEFT RIGHT", bulk("a"), "LMOVE s s LEFT RIGHT"),
            ("LRANGE s 0 -1", array("b", "a")),
            ("LMOVE s s LEFT LEFT", bulk("b")),
            ("RPUSH u x x", number(2), "RPUSH u x x"),
            ("RPOPLPUSH u u", bulk("x")),
            ("RPUSH o x", number(1), "RPUSH o x"),
            ("LMOVE o o LEFT RIGHT", bulk("x")),
            ("LLEN o", number(1)),
        ]
        self.plays(rows)

    def test_an_absent_key_has_no_list(self):
        rows = [
            ("SET t v",),
            ("LPUSHX k a", number(0)),
            ("RPUSHX k a", number(0)),
            ("LPOP k", NIL),
            ("RPOP k 2", NO_LIST),
            ("LPOP k 0", NO_LIST),
            ("LLEN k", number(0)),
            ("LRANGE k 0 -1", NONE),
            ("LINDEX k 0", NIL),
            ("LSET k 0 a", NO_KEY),
            ("LINSERT k BEFORE a b", number(0)),
            ("LREM k 0 a", number(0)),
            ("LTRIM k 1 0", OK),
            ("LMOVE k k LEFT RIGHT", NIL),
            ("RPOPLPUSH k t", NIL),
        ]
        self.plays(rows)

    def test_a_text_is_no_list(self):
        rows = [
            ("SET t v",),
            ("LPUSH t a", WRONG_KIND),
            ("RPUSHX t a", WRONG_KIND),
            ("LPOP t", WRONG_KIND),
            ("RPOP t 2", WRONG_KIND),
            ("LLEN t", WRONG_KIND),
            ("LRANGE t 0 -1", WRONG_KIND),
            ("LINDEX t 0", WRONG_KIND),
            ("LSET t 0 a", WRONG_KIND),
            ("LINSERT t AFTER a b", WRONG_KIND),
            ("LREM t 0 a", WRONG_KIND),
            ("LTRIM t 1 0", WRONG_KIND),
            ("RPOPLPUSH t t", WRONG_KIND),
            ("LMOVE t k LEFT RIGHT", WRONG_KIND),
            ("RPUSH l a", number(1), "RPUSH l a"),
            ("LMOVE l t LEFT RIGHT", WRONG_KIND),
            ("LLEN l", number(1)),
        ]
        self.plays(rows)

    def test_items_are_pushed_and_popped(self):
        rows = [
            ("SET t v",),
            ("LPUSH l b a", number(2), "LPUSH l b a"),
            ("RPUSHX l c d", number(4), "RPUSH l c d"),
            ("LPUSHX l z", number(5), "LPUSH l z"),
            ("LPOP l", bulk("z"), "LPOP l 1"),
            ("RPOP l", bulk("d"), "RPOP l 1"),
            ("RPOP l 2", array("c", "b"), "RPOP l 2"),
            ("LPOP l 0", NONE),
            ("LPOP l 9", array("a"), "LPOP l 1"),
            ("LLEN l", number(0)),
        ]
        self.plays(rows)

    def test_items_are_found_and_replaced(self):
        rows = [
            ("SET t v",),
            ("RPUSH l a b c", number(3), "RPUSH l a b c"),
            ("LINDEX l -1", bulk("c")),
            ("LINDEX l 3", NIL),
            ("LINDEX l -4", NIL),
            ("LSET l -1 z", OK, "LSET l 2 z"),
            ("LSET l 2 z", OK),
            ("LSET l 3 z", b"-ERR index out of range\r\n"),
            ("LSET l -4 z", b"-ERR index out of range\r\n"),
            ("LRANGE l 1 1", array("b")),
            ("LRANGE l 0 -4", NONE),
            ("LRANGE l 2 1", NONE),
            ("LRANGE l -9 9", array("a", "b", "z")),
        ]
        self.plays(rows)

    def test_items_are_inserted_and_removed(self):
        rows = [
            ("SET t v",),
            ("RPUSH l a b a a", number(4), "RPUSH l a b a a"),
            ("LINSERT l AFTER a x", number(5), "LINSERT l AFTER a x"),
            ("LINSERT l BEFORE b y", number(6), "LINSERT l BEFORE b y"),
            ("LINSERT l BEFORE q y", number(-1)),
            ("LRANGE l 1 3", array("x", "y", "b")),
            ("LREM l -1 a", number(1), "LREM l -1 a"),
            ("LINDEX l 0", bulk("a")),
            ("LREM l 1 a", number(1), "LREM l 1 a"),
            ("LINDEX l 0", bulk("x")),
            ("LREM l 5 q", number(0)),
            ("LREM l 0 a", number(1), "LREM l 0 a"),
            ("LRANGE l 0 -1", array("x", "y", "b")),
        ]
        self.plays(rows)

    def test_a_part_is_kept(self):
        rows = [
            ("SET t v",),
            ("RPUSH l a b c d", number(4), "RPUSH l a b c d"),
            ("LTRIM l 0 -1", OK),
            ("LTRIM l -9 9", OK),
            ("LTRIM l 1 -2", OK, "LTRIM l 1 2"),
            ("LRANGE l 0 -1", array("b", "c")),
            ("LTRIM l 2 5", OK, "DEL l"),
            ("LLEN l", number(0)),
        ]
        self.plays(rows)

    def test_items_are_carried(self):
        rows = [
            ("SET t v",),
            ("RPUSH s a b", number(2), "RPUSH s a b"),
            ("LMOVE s d LEFT RIGHT", bulk("a"), "LMOVE s d LEFT RIGHT"),
            ("RPOPLPUSH s d", bulk("b"), "LMOVE s d RIGHT LEFT"),
            ("LLEN s", number(0)),
            ("LRANGE d 0 -1", array("b", "a")),
        ]
        self.plays(rows)

    def test_indexes_and_counts_of_any_size(self):
        rows = [
            ("RPUSH l h h f h", number(4), "RPUSH l h h f h"),
            ("LRANGE l -9223372036854775808 9223372036854775807", array("h", "h", "f", "h")),
            ("LINDEX l -4", bulk("h")),
            ("LINDEX l -9223372036854775808", NIL),
            ("LINDEX l 9223372036854775807", NIL),
            ("LREM l 2 h", number(2), "LREM l 2 h"),
            ("LRANGE l 0 -1", array("f", "h")),
            ("RPUSH m h h f h", number(4), "RPUSH m h h f h"),
            ("LREM m 9 h", number(3), "LREM m 9 h"),
            ("LRANGE m 0 -1", array("f")),
            ("RPUSH n h h f h", number(4), "RPUSH n h h f h"),
            ("LREM n -9223372036854775808 h", number(3), "LREM n -9223372036854775808 h"),
            ("LRANGE n 0 -1", array("f")),
            ("linsert n After f v", number(2), "LINSERT n AFTER f v"),
        ]
        self.plays(rows)

    def test_many_items_come_in_groups(self):
        self.plays([
            ("RPUSH l" + 65 * " a", number(65), "RPUSH l" + 64 * " a", "RPUSH l a"),
            ("LLEN l", number(65)),
        ])

    def test_offsets_count_the_effects(self):
        self.shows_at(86, "RPUSH s a b", "LMOVE s s LEFT RIGHT")
        self.shows_at(71, "LPUSH l a b c", "LRANGE l -2 100", "LPOP l 3", "EXISTS l")


class Sets(Rehearsing):
    def test_members_come_and_go(self):
        rows = [
            ("SADD s c a b a", number(3), "SADD s a b c"),
            ("SADD s d b d", number(1), "SADD s d"),
            ("SADD s a d", number(0)),
            ("SADD s d", number(0)),
            ("SADD s e", number(1), "SADD s e"),
            ("SREM s e", number(1), "SREM s e"),
            ("SREM s x c a c", number(2), "SREM s a c"),
            ("SREM s a x", number(0)),
            ("SREM s d b", number(2), "SREM s b d"),
            ("SREM s d", number(0)),
            ("SCARD s", number(0)),
        ]
        self.plays(rows)

    def test_a_set_is_told_of(self):
        rows = [
            ("SADD s b a c",),
            ("SISMEMBER s a", number(1)),
            ("SISMEMBER s x", number(0)),
            ("SISMEMBER x a", number(0)),
            ("SMISMEMBER s a x a", array(1, 0, 1)),
            ("SMISMEMBER x a b", array(0, 0)),
            ("SMEMBERS s", array("a", "b", "c")),
            ("SMEMBERS x", NONE),
            ("SCARD s", number(3)),
            ("SCARD x", number(0)),
        ]
        self.plays(rows)

    def test_members_are_drawn_round_the_end(self):
        rows = [
            ("SADD s a b c d",),
            ("SRANDMEMBER s", bulk("c")),
            ("SRANDMEMBER s 0", NONE),
            ("SRANDMEMBER s 3", array("c", "d", "a")),
            ("SRANDMEMBER s 9", array("c", "d", "a", "b")),
            ("SRANDMEMBER x", NIL),
            ("SRANDMEMBER x 2", NONE),
        ]
        self.plays(rows, word=6)

    def test_members_are_taken_round_the_end(self):
        rows = [
            ("SADD s a b c d",),
            ("SPOP s 0", NONE),
            ("SPOP s 3", array("c", "d", "a"), "SREM s a c d"),
            ("SPOP s 9", array("b"), "SREM s b"),
            ("SPOP s", NIL),
            ("SPOP s 2", NONE),
        ]
        self.plays(rows, word=6)

    def test_a_member_moves(self):
        rows = [
            ("SADD s a b",),
            ("SADD d b c",),
            ("SET t v",),
            ("SMOVE s d x", number(0)),
            ("SMOVE s s a", number(1)),
            ("SMOVE s s x", number(0)),
            ("SMOVE s d a", number(1), "SMOVE s d a"),
            ("SMOVE s d b", number(1), "SMOVE s d b"),
            ("SMEMBERS d", array("a", "b", "c")),
            ("SMOVE s d a", number(0)),
            ("SMOVE s t a", number(0)),
            ("SMOVE d t x", WRONG_KIND),
            ("SMOVE d t a", WRONG_KIND),
            ("SMOVE t d a", WRONG_KIND),
            ("SMOVE d n c", number(1), "SMOVE d n c"),
            ("SMEMBERS n", array("c")),
        ]
        self.plays(rows)

    def test_sets_are_combined(self):
        rows = [
            ("SADD p a b c d",),
            ("SADD q c b x",),
            ("SADD r b d c",),
            ("SINTER p q r", array("b", "c")),
            ("SINTER p n q", NONE),
            ("SINTER q", array("b", "c", "x")),
            ("SUNION q n r", array("b", "c", "d", "x")),
            ("SUNION n", NONE),
            ("SDIFF p q", array("a", "d")),
            ("SDIFF p n q r", array("a")),
            ("SDIFF n p", NONE),
            ("SDIFF p p", NONE),
        ]
        self.plays(rows)

    def test_a_text_is_no_set(self):
        rows = [
            ("SADD s a",),
            ("SET t v",),
            ("SADD t a", WRONG_KIND),
            ("SREM t a", WRONG_KIND),
            ("SISMEMBER t a", WRONG_KIND),
            ("SMISMEMBER t a b", WRONG_KIND),
            ("SMEMBERS t", WRONG_KIND),
            ("SCARD t", WRONG_KIND),
            ("SPOP t", WRONG_KIND),
            ("SPOP t 0", WRONG_KIND),
            ("SRANDMEMBER t 2", WRONG_KIND),
            ("SINTER n s t", WRONG_KIND),
            ("SUNION t s", WRONG_KIND),
            ("SDIFF s t", WRONG_KIND),
        ]
        self.plays(rows)

    def test_an_effect_has_64_members_at_most(self):
        numbers = sorted(str(it) for it in range(129))
        self.plays([
            ("SADD s " + " ".join(str(it) for it in range(129)), number(129), *("SADD s " + " ".join(it) for it in by_64(numbers))),
            ("SPOP s 128", array(*numbers[:128]), *("SREM s " + " ".join(it) for it in by_64(numbers[:128]))),
            ("SMEMBERS s", array("99")),
        ])

    def test_one_member_is_taken(self):
        rows = [
            ("SADD s a b c", number(3), "SADD s a b c"),
            ("SPOP s", bulk("b"), "SREM s b"),
        ]
        self.plays(rows, word=4)

    def test_offsets_count_the_effects(self):
        self.shows_at(70, "SADD s a b c", "SPOP s")
        self.shows_at(28, "SADD s a", "SADD s a")


class SortedSets(Rehearsing):
    def test_scores_are_set(self):
        rows = [
            ("ZADD z 2 b 1 a 3 b", number(2), "ZADD z 1 a 3 b"),
            ("ZADD z 1 a 3 b", number(0)),
            ("ZADD z CH 5 a 1 a", number(2)),
            ("ZADD z CH 5 a 4 c 3 b", number(2), "ZADD z 5 a 4 c"),
            ("ZADD z -1 d", number(1), "ZADD z -1 d"),
            ("ZADD z 0 d", number(0), "ZADD z 0 d"),
            ("ZADD z CH 0 d", number(0)),
            ("ZADD z 1.0 d", number(0), "ZADD z 1 d"),
        ]
        self.plays(rows)

    def test_options_say_which_scores_are_set(self):
        rows = [
            ("ZADD z XX 1 a", number(0)),
            ("ZADD z NX 1 a 2 a 3 b", number(2), "ZADD z 1 a 3 b"),
            ("ZADD z NX 9 a", number(0)),
            ("ZADD z XX CH 9 c 2 a", number(1), "ZADD z 2 a"),
            ("ZADD z GT 1 a 4 b 7 c", number(1), "ZADD z 4 b 7 c"),
            ("ZADD z LT CH 3 a 3 b", number(1), "ZADD z 3 b"),
            ("ZADD z LT 0 d", number(1), "ZADD z 0 d"),
            ("ZADD z XX GT CH 3 b 9 e", number(0)),
        ]
        self.plays(rows)

    def test_scores_grow(self):
        rows = [
            ("ZINCRBY z 5 a", bulk("5"), "ZADD z 5 a"),
            ("ZINCRBY z -7 a", bulk("-2"), "ZADD z -2 a"),
            ("ZINCRBY z 0 a", bulk("-2")),
            ("ZINCRBY z 0 b", bulk("0"), "ZADD z 0 b"),
            ("ZADD z 9007199254740992 c", number(1), "ZADD z 9007199254740992 c"),
            ("ZINCRBY z 1 c", b"-ERR resulting score is out of range\r\n"),
        ]
        self.plays(rows)

    def test_named_members_go(self):
        rows = [
            ("ZREM z a", number(0)),
            ("ZADD z 1 c 2 b 3 a", number(3), "ZADD z 3 a 2 b 1 c"),
            ("ZREM z c x a c", number(2), "ZREM z a c"),
            ("ZREM z b", number(1), "ZREM z b"),
            ("ZCARD z", number(0)),
        ]
        self.plays(rows)

    def test_ranges_go(self):
        rows = [
            ("ZADD z 1 e 2 d 3 c 4 b 5 a", number(5), "ZADD z 5 a 4 b 3 c 2 d 1 e"),
            ("ZREMRANGEBYRANK z 5 9", number(0)),
            ("ZREMRANGEBYRANK z 2 2", number(1), "ZREM z c"),
            ("ZREMRANGEBYRANK z -2 -1", number(2), "ZREM z a b"),
            ("ZREMRANGEBYRANK z 1 7", number(1), "ZREM z d"),
            ("ZADD z 2 d 3 c", number(2), "ZADD z 3 c 2 d"),
            ("ZREMRANGEBYSCORE z (1 2", number(1), "ZREM z d"),
            ("ZREMRANGEBYSCORE z 9 1", number(0)),
            ("ZREMRANGEBYSCORE z -inf inf", number(2), "ZREM z c e"),
        ]
        self.plays(rows)

    def test_the_first_pairs_are_taken(self):
        rows = [
            ("ZPOPMIN z", NONE),
            ("ZADD z 1 e 2 d 3 c 4 b 5 a", number(5), "ZADD z 5 a 4 b 3 c 2 d 1 e"),
            ("ZPOPMAX z 0", NONE),
            ("ZPOPMIN z", array("e", "1"), "ZREM z e"),
            ("ZPOPMAX z 2", array("a", "5", "b", "4"), "ZREM z a b"),
            ("ZPOPMIN z 9", array("d", "2", "c", "3"), "ZREM z c d"),
            ("ZPOPMAX z", NONE),
        ]
        self.plays(rows)

    def test_what_was_set_is_told(self):
        rows = [
            ("ZADD z 1 a 2 b 3 c", number(3), "ZADD z 1 a 2 b 3 c"),
            ("ZCARD z", number(3)),
            ("ZCOUNT z (1 3", number(2)),
            ("ZSCORE z b", bulk("2")),
            ("ZMSCORE z c x", array("3", None)),
            ("ZREVRANK z a", number(2)),
            ("ZREVRANGE z 0 0", array("c")),
            ("ZRANGEBYSCORE z (1 +inf WITHSCORES LIMIT 0 1", array("b", "2")),
        ]
        self.plays(rows)

    def test_a_key_of_another_kind_is_left_alone(self):
        rows = [
            ("SET z v",),
            ("ZADD z 1 a", WRONG_KIND),
            ("ZINCRBY z 1 a", WRONG_KIND),
            ("ZREM z a", WRONG_KIND),
            ("ZPOPMIN z", WRONG_KIND),
            ("ZPOPMAX z 2", WRONG_KIND),
            ("ZREMRANGEBYRANK z 0 -1", WRONG_KIND),
            ("ZREMRANGEBYSCORE z 1 2", WRONG_KIND),
            ("ZCARD z", WRONG_KIND),
        ]
        self.plays(rows)

    def test_an_option_may_be_a_member(self):
        rows = [
            ("ZADD z 1 nx", number(1), "ZADD z 1 nx"),
            ("ZREM z nx", number(1), "ZREM z nx"),
            ("ZADD z NX CH 1 a 2 b", number(2), "ZADD z 1 a 2 b"),
            ("ZADD z ch XX gt 3 a 1.0 b", number(1), "ZADD z 3 a"),
            ("ZRANGE z 0 -1 withscores REV", array("a", "3", "b", "2")),
        ]
        self.plays(rows)

    def test_ranges_in_both_orders(self):
        rows = [
            ("ZADD z 1 a 2 b 3 c", number(3), "ZADD z 1 a 2 b 3 c"),
            ("ZRANGE z 0 -1 withscores REV", array("c", "3", "b", "2", "a", "1")),
            ("ZREVRANGE z 0 -2", array("c", "b")),
            ("ZREVRANGE z -2 9", array("b", "a")),
            ("ZREVRANGE z 3 9", NONE),
            ("ZREVRANGEBYSCORE z +inf 1 LIMIT 0 1", array("c")),
            ("ZRANGEBYSCORE z 1 +inf LIMIT 1 1", array("b")),
            ("ZRANGEBYSCORE z 1 +inf LIMIT 2 5", array("c")),
            ("ZRANGEBYSCORE z 1 +inf LIMIT 0 0", NONE),
            ("ZRANGEBYSCORE z 1 +inf LIMIT -1 -1", NONE),
            ("ZRANGEBYSCORE z 1 +inf LIMIT 3 -1", NONE),
            ("ZRANGE z (3 1 rev LIMIT 2 -1 byscore", NONE),
            ("ZRANGEBYSCORE z -inf (3 limit 0 1 withscores", array("a", "1")),
            ("ZRANGEBYSCORE z +inf +inf", NONE),
            ("ZRANGEBYSCORE z -inf -inf", NONE),
            ("ZRevRangeByScore z (inf 3", array("c")),
            ("ZCOUNT z (1 (3", number(1)),
            ("ZCOUNT z (-inf (inf", number(3)),
            ("ZREMRANGEBYSCORE z 1 (2", number(1), "ZREM z a"),
        ]
        self.plays(rows)

    def test_scores_are_whole_numbers(self):
        rows = [
            ("ZADD z 2 b", number(1), "ZADD z 2 b"),
            ("ZADD z -3.000 b", number(0), "ZADD z -3 b"),
            ("ZADD z 0.0 b", number(0), "ZADD z 0 b"),
            ("ZADD z -9007199254740992.0 b", number(0), "ZADD z -9007199254740992 b"),
            ("ZADD z -12 b", number(0), "ZADD z -12 b"),
            ("ZSCORE z b", bulk("-12")),
            ("ZMSCORE z b d", array("-12", None)),
        ]
        self.plays(rows)

    def test_an_absent_key_has_no_member(self):
        rows = [
            ("ZCOUNT x -inf +inf", number(0)),
            ("ZREVRANGE x 0 -1", NONE),
            ("ZRANGEBYSCORE x 1 +inf LIMIT 0 -1", NONE),
        ]
        self.plays(rows)

    def test_a_set_is_no_sorted_set(self):
        lines = ["ZCARD s", "ZCOUNT s -inf +inf", "ZSCORE s a", "ZMSCORE s a d", "ZRANK s a", "ZREVRANGE s 0 -1", "ZRANGEBYSCORE s 1 +inf LIMIT 0 -1"]
        self.plays([("SADD s a",), *((line, WRONG_KIND) for line in lines)])

    def test_an_effect_has_64_members_at_most(self):
        members = ["f%02d" % it for it in range(65)]
        self.plays([
            ("ZADD z 1 " + " 1 ".join(reversed(members)), number(65), "ZADD z 1 " + " 1 ".join(members[:64]), "ZADD z 1 f64"),
            ("ZREM z " + " ".join(reversed(members)), number(65), "ZREM z " + " ".join(members[:64]), "ZREM z f64"),
            ("DBSIZE", number(0)),
        ])

    def test_many_members_leave_the_others(self):
        """Scores run another way than bytes, so that what stands side by side in order is scattered among the effects."""
        pairs = sorted((it * 77 % 300, "f%03d" % it) for it in range(300))
        named = sorted(name for _, name in pairs)
        score = {name: at for at, name in pairs}
        ordered = [name for _, name in pairs]
        ranged, scattered = ordered[50:200], ordered[:50:2] + ordered[200::2]
        left = ordered[1:50:2] + ordered[201::2]
        self.plays([
            ("ZADD z " + " ".join("%d %s" % it for it in pairs), number(300), *("ZADD z " + " ".join("%d %s" % (score[it], it) for it in group) for group in by_64(named))),
            ("ZREMRANGEBYSCORE z 50 (200", number(150), *("ZREM z " + " ".join(it) for it in by_64(sorted(ranged)))),
            ("ZRANGE z 0 -1", array(*ordered[:50], *ordered[200:])),
            ("ZREM z " + " ".join(scattered), number(75), *("ZREM z " + " ".join(it) for it in by_64(sorted(scattered)))),
            ("ZRANGE z 0 -1", array(*left)),
            ("ZCARD z", number(75)),
            *(("ZSCORE z " + it, bulk(str(score[it])) if it in left else NIL) for it in ordered[45:55] + ordered[195:205]),
            ("ZREM z " + " ".join(reversed(ordered)), number(75), *("ZREM z " + " ".join(it) for it in by_64(sorted(left)))),
            ("DBSIZE", number(0)),
        ])

    def test_offsets_count_the_effects(self):
        self.shows_at(35, "ZADD z 5 a", "ZADD z GT 3 a")
        self.shows_at(63, "ZADD z 1.0 b 1 a 2 c", "ZRANGE z 0 -1 WITHSCORES", "ZADD z 1.5 d")


if __name__ == "__main__":
    unittest.main()
