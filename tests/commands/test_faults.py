"""Words that are no command, or not as it wants them: the first fault that the order of faults names is told."""

import unittest

from tests.support.rehearsal import Rehearsing, asked
from tests.support.replies import CURSOR, INTEGER, NO_BOUND, POSITIVE, SYNTAX, UNKNOWN, arity


class Faults(Rehearsing):
    def are_told(self, rows):
        self.rehearses([(asked(line), "replied " + reply.hex()) for line, reply in rows])

    def test_strings_and_keys(self):
        self.are_told([
            ("NOPE", UNKNOWN),
            ("GETS k", UNKNOWN),
            ("", UNKNOWN),
            ("get", arity("get")),
            ("GET a b", arity("get")),
            ("Set k", arity("set")),
            ("SET k v EX 10 GET NX PX 10", SYNTAX),
            ("DEL", arity("del")),
            ("Unlink", arity("unlink")),
            ("EXISTS", arity("exists")),
            ("TYPE a b", arity("type")),
        ])

    def test_strings(self):
        self.are_told([
            ("STRLEN a b", arity("strlen")),
            ("GETRANGE k 0", arity("getrange")),
            ("GETRANGE k 0 x", INTEGER),
            ("MGET", arity("mget")),
        ])

    def test_strings_set_and_taken(self):
        self.are_told([
            ("SETNX k", arity("setnx")),
            ("GETSET k v w", arity("getset")),
            ("GETDEL a b", arity("getdel")),
        ])

    def test_options_of_set(self):
        self.are_told([
            ("SET k v NX XX", SYNTAX),
            ("SET k v XX XX", SYNTAX),
            ("SET k v GET NX GET", SYNTAX),
            ("SET k v EX", SYNTAX),
            ("SET k v EX 10 KEEPTTL", SYNTAX),
        ])

    def test_keys_listed(self):
        self.are_told([
            ("KEYS", arity("keys")),
            ("DBSIZE x", arity("dbsize")),
            ("SCAN", arity("scan")),
            ("SCAN 9223372036854775808", CURSOR),
            ("SCAN -1", CURSOR),
            ("SCAN x", CURSOR),
        ])

    def test_options_of_scan(self):
        self.are_told([
            ("SCAN 0 MATCH", SYNTAX),
            ("SCAN 0 TYPE set TYPE set", SYNTAX),
            ("SCAN 0 COUNT 0", SYNTAX),
            ("SCAN 0 COUNT x", INTEGER),
            ("SCAN 0 NOPE x", SYNTAX),
        ])

    def test_the_least_of_several_faults(self):
        self.are_told([
            ("SCAN x COUNT y", INTEGER),
            ("SCAN x COUNT 0", SYNTAX),
            ("SCAN x COUNT y MATCH", SYNTAX),
            ("SCAN x MATCH a", CURSOR),
        ])

    def test_hashes(self):
        self.are_told([
            ("HSET h f v g", arity("hset")),
            ("HSET h", arity("hset")),
            ("HMSET h f", arity("hmset")),
            ("HMGET h", arity("hmget")),
            ("HINCRBY h f +7", INTEGER),
            ("HINCRBY h f 1.5 x", arity("hincrby")),
        ])

    def test_lists(self):
        self.are_told([
            ("RPUSH l", arity("rpush")),
            ("LPOP l -1", POSITIVE),
            ("LPOP l x", INTEGER),
            ("LPOP l 1 2", arity("lpop")),
            ("LRANGE l 0 x", INTEGER),
            ("LSET l 01 v", INTEGER),
            ("LINSERT l BESIDE p v", SYNTAX),
            ("LTRIM l 0 9223372036854775808", INTEGER),
            ("LMOVE a b LEFT UP", SYNTAX),
            ("LMOVE a b LEFT", arity("lmove")),
        ])

    def test_sets(self):
        self.are_told([
            ("SREM s", arity("srem")),
            ("SPOP s -1", POSITIVE),
            ("SRANDMEMBER s -1", POSITIVE),
            ("SINTER", arity("sinter")),
        ])

    def test_sorted_sets(self):
        self.are_told([
            ("ZADD z NX GT 1 a", SYNTAX),
            ("ZADD z 1", arity("zadd")),
            ("ZADD z x a", INTEGER),
            ("ZCOUNT z 1 1.5", NO_BOUND),
            ("ZREVRANK z", arity("zrevrank")),
        ])

    def test_ranges_of_sorted_sets(self):
        self.are_told([
            ("ZRANGE z 0 1 LIMIT 0 1", SYNTAX),
            ("ZREVRANGEBYSCORE z x 3", NO_BOUND),
            ("ZPOPMAX z -1", POSITIVE),
            ("ZREMRANGEBYRANK z 0 x", INTEGER),
        ])

    def test_server(self):
        self.are_told([
            ("PING a b", arity("ping")),
            ("SELECT 1", b"-ERR DB index is out of range\r\n"),
            ("SELECT x", INTEGER),
            ("CLIENT LIST", SYNTAX),
            ("CLIENT", SYNTAX),
        ])

    def test_the_node(self):
        self.are_told([
            ("PSYNC", arity("psync")),
            ("psync ?", arity("psync")),
            ("PSYNC ? -1 x", arity("psync")),
            ("PSYNC ? x", INTEGER),
            ("PSYNC ? +1", INTEGER),
            ("PSYNC ? 01", INTEGER),
            ("PSYNC ? 9223372036854775808", INTEGER),
            ("REPLICAOF", arity("replicaof")),
            ("REPLICAOF NO", arity("replicaof")),
            ("ReplicaOf NO ONE x", arity("replicaof")),
            ("SLAVEOF localhost", arity("slaveof")),
            ("slaveof localhost 6379 x", arity("slaveof")),
            *((f"{name} {words}", INTEGER) for name in ("REPLICAOF", "SLAVEOF") for words in ("h 0", "h 65536", "h -1", "h x", "h 06379", "h 6379.0", "NO TWO", "h one", "one no")),
        ])

    def test_what_a_replica_says(self):
        self.are_told([(f"REPLCONF {words}".rstrip(), SYNTAX) for words in (
            "",
            "listening-port",
            "listening-port 1 capa",
            "capa eof psync2",
            "nope 1",
            "capa eof nope 1",
            "ACK",
            "ACK x",
            "ack 1.0",
            "ACK 9223372036854775808",
            "ACK 1 2",
            "ACK 1 capa eof",
            "capa eof ACK 1",
            "getack *",
        )])

    def test_what_no_node_does_yet(self):
        a = "a" * 40
        self.are_told([(words, UNKNOWN) for words in (
            f"PSYNC {a} 1",
            "psync ? -1",
            "PSYNC x 9223372036854775807",
            "REPLCONF listening-port 6380",
            "replconf Listening-Port x IP-ADDRESS 127.0.0.1 capa eof CAPA psync2",
            "REPLCONF ACK 0",
            "replconf ack -9223372036854775808",
            "REPLICAOF localhost 1",
            "REPLICAOF NO 65535",
            "SlaveOf NO ONE",
            "replicaof no oNe",
        )])

    def test_many_strings_set(self):
        self.are_told([
            ("MSET", arity("mset")),
            ("MSET a 1 b", arity("mset")),
            ("MSETNX a", arity("msetnx")),
        ])

    def test_strings_changed_in_part(self):
        self.are_told([
            ("APPEND k", arity("append")),
            ("SETRANGE k -1 v", b"-ERR offset is out of range\r\n"),
            ("SETRANGE k 1.0 v", INTEGER),
            ("SETRANGE k -1", arity("setrange")),
        ])

    def test_numbers_changed(self):
        self.are_told([
            ("INCR k 1", arity("incr")),
            ("DECR", arity("decr")),
            ("INCRBY k x", INTEGER),
            ("INCRBY k", arity("incrby")),
            ("DECRBY k -9223372036854775808", b"-ERR decrement would overflow\r\n"),
            ("DECRBY k 9223372036854775808", INTEGER),
            ("DECRBY k", arity("decrby")),
        ])

    def test_keys_renamed_and_cleared(self):
        self.are_told([
            ("RENAME a", arity("rename")),
            ("RENAMENX a b c", arity("renamenx")),
            ("FLUSHALL NOW", SYNTAX),
            ("FLUSHALL ASYNC SYNC", SYNTAX),
        ])

    def test_sorted_sets_and_options(self):
        self.are_told([
            ("ZADD k 1", arity("zadd")),
            ("ZADD k nx ch", SYNTAX),
            ("ZADD k 1 m 2", SYNTAX),
            ("ZADD k nx xx 1 m", SYNTAX),
            ("ZADD k NX GT 1 m", SYNTAX),
            ("ZADD k gt LT 1 m", SYNTAX),
            ("ZADD k ch ch 1 m", SYNTAX),
            ("ZADD k x m 2", SYNTAX),
            ("ZADD k 1.5 m", INTEGER),
            ("ZADD k 1 m nx 2", INTEGER),
            ("ZINCRBY k x m", INTEGER),
            ("ZREM k", arity("zrem")),
            ("ZRANK k", arity("zrank")),
            ("ZRANGE k 0", arity("zrange")),
            ("ZRANGE k 0 1 LIMIT 0 1", SYNTAX),
            ("ZRANGE k 0 1 BYSCORE LIMIT 0", SYNTAX),
            ("ZRANGE k 0 1 REV REV", SYNTAX),
            ("ZRANGE k 0 1 UP", SYNTAX),
            ("ZRANGE k (0 1", INTEGER),
            ("ZRANGE k x 1 BYSCORE LIMIT y 1", INTEGER),
            ("ZRANGE k x 1 BYSCORE", NO_BOUND),
            ("ZREVRANGE k 0 1 REV", SYNTAX),
            ("ZRANGEBYSCORE k 0 1 BYSCORE", SYNTAX),
            ("ZREVRANGEBYSCORE k 1.5 0", NO_BOUND),
            ("ZCOUNT k 1 x", NO_BOUND),
            ("ZPOPMIN k -1", POSITIVE),
            ("ZPOPMIN k 1 2", arity("zpopmin")),
            ("ZREMRANGEBYRANK k 0 x", INTEGER),
            ("ZREMRANGEBYSCORE k 0 x", NO_BOUND),
        ])

    def test_texts_that_are_no_score_or_bound(self):
        scores = ("", "1.", ".0", "-0.0", "+1", "01", "1.0.0", "1.01", "1e3", "inf", "INF", "+Inf", "infinity", "-Infinity", "(1", "-9007199254740993")
        self.are_told([("ZADD k %s m" % text, INTEGER) for text in scores])
        bounds = ("", "(", "((1", "(1.5", "in", "i", "infi", "infinit", "INFINITYX", "infinite", "nfinity", "+-infinity", "((Infinity", "+(infinity", "INFX", "inff", "++inf", "+-inf", "--INF", "((inf", "+(inf", "-(Inf", "nan", "+", "-", "(+")
        self.are_told([("ZCOUNT k %s 1" % text, NO_BOUND) for text in bounds])
        self.are_told([("ZREVRANGEBYSCORE k 1 " + text, NO_BOUND) for text in bounds])


if __name__ == "__main__":
    unittest.main()
