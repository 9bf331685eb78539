"""What each command costs `serve` on collections of 1,000, 100,000 and a million, and what redis-server takes for it: `growth.py [WORD..]`.

Each kind of collection has servers of its own, asked over one connection. Told are microseconds of the server's processor time a request, the system's part included, of
minired and behind a semicolon of Redis, the least of ROUNDS runs; what takes more than 1.5 times Redis' time is bold. Before each row one request of it is made that isn't
counted. WORDs choose rows by words of their names, and SIZES in the environment the sizes. All rows take some twenty minutes a round. Left out are QUIT, SHUTDOWN, REPLICAOF, SLAVEOF, REPLCONF and PSYNC, behind which a link or a server isn't what it was, COMMAND, whose reply is
another in Redis, BGREWRITEAOF, for which Redis has another process, and MULTI, EXEC and DISCARD, which bench.py has."""

import functools
import os
import random
import sys
from typing import NamedTuple

from bench.large import TOGETHER, WORDS, Played
from bench.servers import MIB, ROUNDS, has_redis, is_chosen, key, least
from tests.support import server
from tests.support.program import request

SIZES = tuple(map(int, os.environ.get("SIZES", "1000 100000 1000000").split()))
# so many requests of a row are made, and where each looks at all of a collection as many as look at so many elements, or take away so many
COUNT, LOOKED_AT, TAKEN = 2_000, 200_000, 20_000
# but so many at least of those that look at all, and of those that have a copy made for each
LEAST_OF_ALL, LEAST_OF_COPIES = 10, 3
# what costs more than so many times what it costs Redis is marked
MARKED = 1.5
# all scores that there are
SCORES = "-9007199254740992 9007199254740992"


class Row(NamedTuple):
    """A request, by a line whose words in braces differ from one to the next, and what undoes it or has to come before it, which isn't measured."""

    line: str
    before: str = ""
    after: str = ""
    # what the row is called, where the line's first word doesn't tell it
    name: str = ""
    # it asks for all of the collection, goes over it, or takes most of a copy away
    is_of_all: bool = False
    goes_over_all: bool = False
    takes_copies: bool = False

    def called(self):
        return self.name or self.line.split(" ")[0]

    def count(self, size):
        """How many of these requests are made at this size."""
        if self.is_of_all or self.goes_over_all:
            return max(LEAST_OF_ALL, LOOKED_AT // size)
        if self.takes_copies:
            return max(LEAST_OF_COPIES, TAKEN // size)
        return min(COUNT, size // 2)


def of_all(line, name="", **more):
    return Row(line, name=name, is_of_all=True, **more)


def of_copies(line, name=""):
    return Row(line, name=name, takes_copies=True)


KEYS = [
    Row("PING"), Row("ECHO {name}"), Row("SELECT 0"), Row("CLIENT SETNAME x"), Row("INFO replication"), Row("ROLE"), Row("DBSIZE"),
    Row("GET {name}"), Row("SET {name} {value}"), Row("SET {new} {value}", after="DEL {new}", name="SET of a new key"),
    Row("SET {name} {value} EX 1000", after="PERSIST {name}", name="SET with a deadline"),
    Row("SETEX {name} 1000 {value}", after="PERSIST {name}"), Row("PSETEX {name} 1000000 {value}", after="PERSIST {name}"),
    Row("SETNX {new} {value}", after="DEL {new}"), Row("GETSET {name} {value}"), Row("GETDEL {new}", before="SET {new} {value}"),
    Row("MGET {name} {other}"), Row("MSET {name} {value} {other} {value}"), Row("MSETNX {new} {value}", after="DEL {new}"),
    Row("INCR {name}"), Row("DECR {name}"), Row("INCRBY {name} 7"), Row("DECRBY {name} 7"), Row("STRLEN {name}"),
    Row("DEL {new}", before="SET {new} {value}"), Row("UNLINK {new}", before="SET {new} {value}"), Row("EXISTS {name}"), Row("TYPE {name}"),
    Row("RENAME {name} {new}", after="RENAME {new} {name}"), Row("RENAMENX {name} {new}", after="RENAME {new} {name}"),
    Row("EXPIRE {name} 1000", after="PERSIST {name}"), Row("PEXPIRE {name} 1000000", after="PERSIST {name}"),
    Row("EXPIREAT {name} 4102444800", after="PERSIST {name}"), Row("PEXPIREAT {name} 4102444800000", after="PERSIST {name}"),
    Row("PERSIST {name}", before="EXPIRE {name} 1000"), Row("TTL {name}"), Row("PTTL {name}"), Row("EXPIRETIME {name}"), Row("PEXPIRETIME {name}"),
    of_all("KEYS *"), of_all("SCAN 0"), of_copies("FLUSHALL"), of_copies("FLUSHDB"),
]
TEXTS = [
    of_all("GET it", "GET of a text"), of_all("GETRANGE it 0 -1", "GETRANGE of a text"), of_all("SET it {text}", "SET of a text"),
    Row("GETRANGE it {place} {to}"), Row("SETRANGE it {place} {value}"),
    Row("APPEND it {value}"), Row("STRLEN it", name="STRLEN of a text"), of_copies("DEL copy", "DEL of a text"),
]
HASHES = [
    Row("HGET it {name}"), Row("HMGET it {name} {other}"), Row("HEXISTS it {name}"), Row("HSTRLEN it {name}"), Row("HLEN it"),
    Row("HSET it {name} {value}"), Row("HMSET it {name} {value}"), Row("HSET it {new} {value}", after="HDEL it {new}", name="HSET of a new field"),
    Row("HSETNX it {new} {value}", after="HDEL it {new}"), Row("HDEL it {new}", before="HSET it {new} {value}"), Row("HINCRBY it {name} 7"),
    of_all("HGETALL it"), of_all("HKEYS it"), of_all("HVALS it"), of_copies("DEL copy", "DEL of a hash"),
]
LISTS = [
    Row("LLEN it"), Row("LINDEX it {place}"), Row("LRANGE it {place} {to}", name="LRANGE of ten"), of_all("LRANGE it 0 -1", "LRANGE of all"),
    of_all("LINSERT it BEFORE {middle} x", after="LREM it 1 x"), of_all("LREM it 0 none", "LREM of none"),
    Row("LREM it 1 {first}", after="LPUSH it {first}", name="LREM of the first"), Row("LREM it -1 {last}", after="RPUSH it {last}", name="LREM of the last"),
    Row("LPUSH it {value}", after="LPOP it"), Row("RPUSH it {value}", after="RPOP it"), Row("LPUSHX it {value}", after="LPOP it"), Row("RPUSHX it {value}", after="RPOP it"),
    Row("LPOP it", before="LPUSH it {value}"), Row("RPOP it", before="RPUSH it {value}"), Row("LTRIM it 1 -1", before="LPUSH it {value}"),
    Row("LMOVE it it LEFT RIGHT"), Row("RPOPLPUSH it it"), Row("RPOPLPUSH same same", name="RPOPLPUSH of equal items", goes_over_all=True), Row("LSET it {place} {value}"),
    of_copies("LTRIM copy 0 0", "LTRIM of all but one"), of_copies("LPOP copy {size}", "LPOP of all"), of_copies("DEL copy", "DEL of a list"),
]
SETS = [
    Row("SISMEMBER it {name}"), Row("SMISMEMBER it {name} {other}"), Row("SCARD it"), Row("SADD it {name}"), Row("SRANDMEMBER it"),
    Row("SADD it {new}", after="SREM it {new}", name="SADD of a new member"), Row("SREM it {new}", before="SADD it {new}"),
    Row("SMOVE it apart {name}", after="SMOVE apart it {name}"), Row("SINTER it two", name="SINTER with two"), Row("SDIFF two it", name="SDIFF of two"),
    of_all("SMEMBERS it"), of_all("SINTER it half"), of_all("SUNION it half"), of_all("SDIFF it half"), Row("SPOP it", before="SADD it {new}"),
    of_copies("SPOP copy {size}", "SPOP of all"), of_copies("DEL copy", "DEL of a set"),
]
SORTED_SETS = [
    Row("ZSCORE it {name}"), Row("ZMSCORE it {name} {other}"), Row("ZCARD it"), Row("ZRANK it {name}"), Row("ZREVRANK it {name}"), Row("ZCOUNT it 0 {place}"),
    Row("ZRANGE it {place} {to}", name="ZRANGE of ten"), Row("ZREVRANGE it {place} {to}", name="ZREVRANGE of ten"),
    Row("ZRANGEBYSCORE it {place} {to}"), Row("ZREVRANGEBYSCORE it {to} {place}"), of_all("ZRANGE it 0 -1 WITHSCORES", "ZRANGE of all"),
    Row("ZADD it {place} {name}"), Row("ZINCRBY it 7 {name}"), Row("ZADD it {place} {new}", after="ZREM it {new}", name="ZADD of a new member"),
    Row("ZREM it {new}", before="ZADD it {place} {new}"), Row("ZPOPMIN it", before="ZADD it -1 {new}"), Row("ZPOPMAX it", before="ZADD it {size} {new}"),
    Row("ZREMRANGEBYRANK it 0 0", before="ZADD it -1 {new}"), Row("ZREMRANGEBYSCORE it -{value} -{value}", before="ZADD it -{value} {new}"),
    of_copies("ZREMRANGEBYRANK copy 0 -1", "ZREMRANGEBYRANK of all"), of_copies(f"ZREMRANGEBYSCORE copy {SCORES}", "ZREMRANGEBYSCORE of all"),
    of_copies("ZREMRANGEBYSCORE copy 0 ({quarter}", "ZREMRANGEBYSCORE of a quarter"), of_copies("ZPOPMIN copy {quarter}", "ZPOPMIN of a quarter"),
    of_copies("ZPOPMIN copy {size}", "ZPOPMIN of all"), of_copies("DEL copy", "DEL of a sorted set"),
]


def name(number):
    return key(number).decode()


def value(number):
    """Three digits that are a number."""
    return str(100 + number % 900)


def requests(line, size, count):
    """Requests that a line stands for. Names and places are drawn, none twice, and for another line of as many requests are the same."""
    chance, found = random.Random(size), []
    for at, place in enumerate(chance.sample(range(size), count)):
        words = {"name": name(place), "other": name(chance.randrange(size)), "new": name(size + at), "value": value(at + 1), "place": place, "to": place + 9}
        words |= {"first": name(at), "last": name(size - 1 - at), "middle": name(size // 2), "size": size, "quarter": size // 4}
        if "{text}" in line:
            words["text"] = value(at + 1).ljust(size, "x")
        found.append(request(*line.format(**words).split(" ")))
    return found


def parts(command, to, words):
    """Requests that hand a collection these words, many at once."""
    return [request(command, to, *words[at : at + WORDS]) for at in range(0, len(words), WORDS)]


def keys(size, _):
    return [request("SET", name(it), value(it)) for it in range(size)]


def text(size, to):
    return [request("SET", to, size * "x")]


def hash_table(size, to):
    return parts("HSET", to, [word for it in range(size) for word in (name(it), value(it))])


def items(size, to):
    """A list, and beside that which isn't a copy another of equal items."""
    return parts("RPUSH", to, [name(it) for it in range(size)]) + (parts("RPUSH", "same", size * [name(0)]) if to == "it" else [])


def members(size, to):
    """A set, and beside that which isn't a copy one of half of its members, and one of two, one of which it has."""
    found = parts("SADD", to, [name(it) for it in range(size)])
    if to == "it":
        found += parts("SADD", "half", [name(it) for it in range(size // 2, size)]) + parts("SADD", "two", [name(0), name(size)])
    return found


def scored(size, to):
    # 7919 is prime: each number below the size is a score
    return parts("ZADD", to, [word for it in range(size) for word in (str(it * 7919 % size), name(it))])


@functools.lru_cache(maxsize=2)
def made(kind, size, to):
    """What makes a collection of a kind, kept for the next copy."""
    return kind(size, to)


class Growing(Played):
    """A server with one client and collections of one kind."""

    def make(self, kind, size, to):
        self.load(made(kind, size, to), TOGETHER if kind is keys else 1)

    def measure(self, row, size, kind):
        """Microseconds of processor time a request, behind one that isn't counted."""
        count = row.count(size)
        if row.takes_copies:
            return sum([self.copy_taken(row, size, kind) for _ in range(1 + count)][1:]) / count
        self.play(row.before, size, 1 + count)
        first, *others = requests(row.line, size, 1 + count)
        long = self.length_of_reply(first)
        took = self.took_of_long(others, long) if long > MIB else self.took(others, 1 if row.is_of_all else TOGETHER)
        self.play(row.after, size, 1 + count)
        return took

    def length_of_reply(self, asked):
        self.client.send(asked)
        reply = self.client.reply()
        if reply.startswith(b"-"):
            raise SystemExit(f"bench: a request is refused: {reply.decode().strip()}")
        return len(reply)

    def took_of_long(self, asked, length):
        """Microseconds that each of these requests took, all of whose replies have this length: to look for their ends takes this program longer than the server."""
        before = self.server.used()
        for it in asked:
            self.client.send(it)
            self.client.receive(length)
        return (self.server.used() - before) / len(asked) * 1e6

    def copy_taken(self, row, size, kind):
        self.make(kind, size, "copy")
        took = self.took(requests(row.line, size, 1))
        self.play("DEL copy", size, 1)
        return took

    def play(self, line, size, count):
        """Makes requests whose costs aren't told."""
        if line:
            self.load(requests(line, size, count))


KINDS = [(KEYS, keys), (TEXTS, text), (HASHES, hash_table), (LISTS, items), (SETS, members), (SORTED_SETS, scored)]


def play(start, rows, kind, size):
    """What each row costs a server that is started so, beside a collection of this size."""
    it = Growing(start())
    try:
        it.make(kind, size, "it")
        return [it.measure(row, size, kind) for row in rows]
    finally:
        it.server.stop()


def told(ours, theirs):
    """A cell of the table."""
    both = "; ".join(f"{it:.1f}" if it < 100 else f"{it:,.0f}" for it in (ours, theirs))
    return f"**{both}**" if ours > MARKED * theirs else both


def main(chosen):
    if not has_redis():
        raise SystemExit("bench: redis-server is not installed, so there is nothing to measure beside")
    print("| us a request: minired; Redis | " + " | ".join(f"{it:,}" for it in SIZES) + " |\n|---|" + "---|" * len(SIZES))
    for rows, kind in KINDS:
        rows = [it for it in rows if is_chosen(it.called(), chosen)]
        columns = []
        for size in SIZES if rows else ():
            runs = [[play(start, rows, kind, size) for start in (server.Server, server.RedisServer)] for _ in range(ROUNDS)]
            ours, theirs = (least([run[at] for run in runs]) for at in (0, 1))
            columns.append([told(*both) for both in zip(ours, theirs)])
        for row, *cells in zip(rows, *columns):
            print(f"| {row.called()} | " + " | ".join(cells) + " |", flush=True)


if __name__ == "__main__":
    main(sys.argv[1:])
