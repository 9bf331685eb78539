"""Processor time a request and peak memory of `./minired pipe`, beside redis-server where it is installed.

Each run hands a file of requests to the program over a pipe, and to redis-server by `redis-cli --pipe`. The times are the
processor time of the program, or of the server, from where all before them was answered. Words given to this script choose
the runs whose names have one of them, and ROUNDS in the environment has each made so often, of both programs in turn: then the
least is told, since what else the machine and its host do can only add. bench/files.py measures the append-only file, and bench/instructions.py counts instructions.

The clock of `pipe` stands still, so ticks are made by `rehearse` (crates/rehearse) on a dataset of a million keys; what it
takes to read the lines and to write the effects in hexadecimal digits is counted in. What redis-server does in their place is
its active expiry, ten times a second: of keys none of which are expired, the server's time so long, a cycle; of expired keys, its time
until none is left, a key.

What a replica takes from its master is fed by `rehearse_values` to a follower; what it takes to read the lines is taken off, and what
it takes to give the dataset back isn't. Beside it stands what redis-server takes to load a file of the same commands."""

import os
import shutil
import subprocess
import sys
import tempfile
import time

from bench import files
from bench.servers import KEYS, LAUNCHER, MIB, OTHER, ROUNDS, VALUE, Minired, Redis, bulk, has_redis, is_chosen, key, least, request, scrambled, timed
from tests.support.program import built

PAIRS = 500_000


def set_of(name, value):
    return b"*3\r\n$3\r\nSET\r\n$%d\r\n%s\r\n$%d\r\n%s\r\n" % (len(name), name, len(value), value)


def get_of(name):
    return b"*2\r\n$3\r\nGET\r\n$%d\r\n%s\r\n" % (len(name), name)


def one_key(file):
    """SET of one key, to two values in turn, each with a GET."""
    pairs = b"".join(set_of(key(0), value) + get_of(key(0)) for value in (VALUE, OTHER))
    repeated(file, pairs, PAIRS // 2)
    return 2 * PAIRS, PAIRS * (len(b"+OK\r\n") + len(b"$3\r\nxxx\r\n"))


def many_keys(file):
    """SET of a million different keys, each with a GET of a key that was set halfway before it."""
    for at in range(KEYS):
        file.write(set_of(scrambled(at), VALUE) + get_of(scrambled(at // 2)))
    return 2 * KEYS, KEYS * (len(b"+OK\r\n") + len(b"$3\r\nxxx\r\n"))


def large_value(file):
    """A value of 16 MiB, set and got."""
    # in pieces: the memory of this program would count for the one that it starts
    size = 16 * MIB
    file.write(b"*3\r\n$3\r\nSET\r\n" + bulk(key(0)) + b"$%d\r\n" % size)
    for _ in range(16):
        file.write(b"x" * MIB)
    file.write(b"\r\n" + get_of(key(0)))
    return 2, len(b"+OK\r\n$%d\r\n" % size) + size + 2


def repeated(file, text, count):
    """The text so many times."""
    for _ in range(count // 1000):
        file.write(1000 * text)
    file.write(count % 1000 * text)


def pushed(name, count):
    """Pushes of one item each onto a list; the lengths are the replies."""

    def write(file):
        repeated(file, request(name, b"l", VALUE), count)
        return count, sum(len(b":%d\r\n" % n) for n in range(1, count + 1))

    return write


def popped(name, count):
    def write(file):
        repeated(file, request(name, b"l"), count)
        return count, count * len(bulk(VALUE))

    return write


def many(name, count, reply, *last):
    """One request for each of so many keys, fields or members."""

    def write(file):
        for at in range(count):
            file.write(request(name, b"k", key(at * 387_420_489 % count), *last))
        return count, count * len(reply)

    return write


def added(count, group=100):
    """Members of a set, a hundred in a request."""

    def write(file):
        for at in range(0, count, group):
            file.write(request(b"SADD", b"k", *(key(at + n) for n in range(group))))
        return count // group, count // group * len(b":%d\r\n" % group)

    return write


def items(count, group=100):
    """Items of a list, a hundred in a request."""

    def write(file):
        repeated(file, request(b"RPUSH", b"l", *(VALUE for _ in range(group))), count // group)
        return count // group, sum(len(b":%d\r\n" % n) for n in range(group, count + 1, group))

    return write


def asked(count, reply, *words):
    def write(file):
        repeated(file, request(*words), count)
        return count, count * len(reply)

    return write


def scored(count, group=100):
    """Members of a sorted set with scores in no order, a hundred in a request."""

    def write(file):
        for at in range(0, count, group):
            pairs = (word for n in range(at, at + group) for word in (b"%d" % (n * 387_420_489 % count), key(n)))
            file.write(request(b"ZADD", b"k", *pairs))
        return count // group, count // group * len(b":%d\r\n" % group)

    return write


def each_scored(count, rounds):
    """One new member of a sorted set a request, with scores in no order; each round makes a set of its own."""

    def write(file):
        for turn in range(rounds):
            for at in range(count):
                file.write(request(b"ZADD", b"k%d" % turn, b"%d" % (at * 387_420_489 % count), key(at)))
        return rounds * count, rounds * count * len(ONE)

    return write


def each_put(count, rounds):
    """One new member of a set a request, in no order; each round makes a set of its own."""

    def write(file):
        for turn in range(rounds):
            for at in range(count):
                file.write(request(b"SADD", b"k%d" % turn, key(at * 387_420_489 % count)))
        return rounds * count, rounds * count * len(ONE)

    return write


def scores_of(count):
    """The score of each member of `scored`, which is its reply."""

    def write(file):
        size = 0
        for at in range(count):
            file.write(request(b"ZSCORE", b"k", key(at)))
            size += len(bulk(b"%d" % (at * 387_420_489 % count)))
        return count, size

    return write


def each_of(count, rounds, reply, words):
    """One request for each member of `scored`, in rounds: `words` says which, and `reply` what is answered, by round, score and member."""

    def write(file):
        size = 0
        for turn in range(rounds):
            for at in range(count):
                score = at * 387_420_489 % count
                file.write(request(*words(turn, score, key(at))))
                size += len(reply(turn, score))
        return rounds * count, size

    return write


def moved(count, rounds):
    """Another score for each member."""
    return each_of(count, rounds, lambda turn, score: b":0\r\n", lambda turn, score, member: (b"ZADD", b"k", b"%d" % (score * 7 % count + (turn + 1) * count), member))


def incremented(count, rounds):
    return each_of(count, rounds, lambda turn, score: bulk(b"%d" % (score + turn + 1)), lambda turn, score, member: (b"ZINCRBY", b"k", b"1", member))


def ranks_of(count, rounds):
    """The rank of each member, which is its score."""
    return each_of(count, rounds, lambda turn, score: b":%d\r\n" % score, lambda turn, score, member: (b"ZRANK", b"k", member))


def first_by_score(count):
    """The member with each score of `scored`, from the least on."""
    return {at * 387_420_489 % count: key(at) for at in range(count)}


def popped_least(held, count):
    """The least member taken so many times from a set of so many."""

    def write(file):
        members = first_by_score(held)
        repeated(file, request(b"ZPOPMIN", b"k"), count)
        return count, sum(len(b"*2\r\n" + bulk(members[score]) + bulk(b"%d" % score)) for score in range(count))

    return write


def ranged(count, members, *words):
    """A range of so many members, asked so many times."""
    return asked(count, b"*%d\r\n" % members + members * ONE_KEY, *words)


def counted(count):
    """INCR of one key."""

    def write(file):
        repeated(file, request(b"INCR", key(0)), count)
        return count, sum(len(b":%d\r\n" % n) for n in range(1, count + 1))

    return write


def appended(count):
    """APPEND to one key."""

    def write(file):
        repeated(file, request(b"APPEND", b"k", VALUE), count)
        return count, sum(len(b":%d\r\n" % (n * len(VALUE))) for n in range(1, count + 1))

    return write


def ten_set(count):
    """MSET of ten keys, to two values in turn."""

    def write(file):
        both = (request(b"MSET", *(word for n in range(10) for word in (key(n), value))) for value in (OTHER, VALUE))
        repeated(file, b"".join(both), count // 2)
        return count, count * len(b"+OK\r\n")

    return write


def tens(count, is_one):
    """Ten SETs of ten keys, to two values in turn, as one transaction or each by itself."""

    def write(file):
        both = [b"".join(set_of(key(n), value) for n in range(10)) for value in (OTHER, VALUE)]
        replies = 10 * OK
        if is_one:
            both = [request(b"MULTI") + it + request(b"EXEC") for it in both]
            replies = OK + 10 * b"+QUEUED\r\n" + b"*10\r\n" + replies
        repeated(file, b"".join(both), count // 2)
        return count, count * len(replies)

    return write


def of_keys(name, reply, *last):
    """One request for each of a million keys."""

    def write(file):
        for at in range(KEYS):
            file.write(request(name, scrambled(at), *last))
        return KEYS, KEYS * len(reply)

    return write


def until(name, reply, first, spread, *last):
    """One request for each of a million keys, with a time to live in seconds of its own, which `spread` tells by the place of the request."""

    def write(file):
        for at in range(KEYS):
            file.write(request(name, scrambled(at), b"%d" % (first + spread(at)), *last))
        return KEYS, KEYS * len(reply)

    return write


def rising(at):
    """Deadlines as a running clock gives them: each a thousand requests later than those before."""
    return at // 1_000


def in_no_order(at):
    """Deadlines within a day, in no order."""
    return at * 2_654_435_761 % 86_400


def ten_got(count):
    return asked(count, b"*10\r\n" + 10 * bulk(VALUE), b"MGET", *(key(n) for n in range(10)))


OK = b"+OK\r\n"
ONE = b":1\r\n"
# in milliseconds: as long as SETEX below says, from moment 0 on
DEADLINE = 1_000_000_000
NEW = of_keys(b"SET", OK, VALUE)
NEW_UNTIL = of_keys(b"SETEX", OK, b"1000000", VALUE)
NEW_RISING = until(b"SETEX", OK, 1_000_000, rising, VALUE)
HUNDRED = b"*100\r\n" + 100 * bulk(VALUE)
ONE_KEY = bulk(key(0))


def on_sorted_sets(size, count, rounds):
    """What is measured on a sorted set of so many members; what each member is named in is done in so many rounds."""
    before, middle = scored(count), count // 2

    def at(first):
        return ranged(10_000, 100, b"ZRANGE", b"k", b"%d" % first, b"%d" % (first + 99))

    return [
        (f"ZADD of {size} new members", None, each_scored(count, rounds)),
        (f"ZADD that moves, of {size}", before, moved(count, rounds)),
        (f"ZINCRBY of {size}", before, incremented(count, rounds)),
        (f"ZRANK of {size}", before, ranks_of(count, rounds)),
        (f"ZRANGE of the first 100 of {size}", before, at(0)),
        (f"ZRANGE of 100 in the middle of {size}", before, at(middle)),
        (f"ZRANGE of the last 100 of {size}", before, at(count - 100)),
        (f"ZRANGEBYSCORE LIMIT, 10 of {size}", before, ranged(50_000, 10, b"ZRANGEBYSCORE", b"k", b"(%d" % middle, b"+inf", b"LIMIT", b"5", b"10")),
        (f"ZREVRANGEBYSCORE LIMIT, 10 of {size}", before, ranged(50_000, 10, b"ZREVRANGEBYSCORE", b"k", b"+inf", b"(%d" % middle, b"LIMIT", b"5", b"10")),
        (f"ZPOPMIN of {size}", before, popped_least(count, min(count, 100_000))),
        (f"ZREMRANGEBYRANK of one in the middle of {size}", before, asked(min(count // 2, 50_000), b":1\r\n", b"ZREMRANGEBYRANK", b"k", b"%d" % (middle // 2), b"%d" % (middle // 2))),
    ]


def on_sets(size, count, rounds):
    """What is measured on a set of so many members, each of which is asked for in so many rounds. Each draw is of the member halfway."""
    before, few = added(count), min(count // 2, 10_000)
    halfway = ("--word", str(count // 2))
    return [
        (f"SADD of {size} new members", None, each_put(count, rounds)),
        (f"SISMEMBER of {size}", before, each_of(count, rounds, lambda turn, score: ONE, lambda turn, score, member: (b"SISMEMBER", b"k", member))),
        (f"SRANDMEMBER of {size}", before, asked(10_000, ONE_KEY, b"SRANDMEMBER", b"k"), *halfway),
        (f"SPOP of {size}", before, asked(few, ONE_KEY, b"SPOP", b"k"), *halfway),
    ]


# what is measured, what is done before it, the time of which doesn't count, and options of the program
RUNS = [
    ("SET, GET of one key", None, one_key),
    ("SET, GET of a million keys", None, many_keys),
    ("SET, GET of 16 MiB", None, large_value),
    ("LPUSH", None, pushed(b"LPUSH", 200_000)),
    ("RPUSH", None, pushed(b"RPUSH", 200_000)),
    ("LPOP", items(200_000), popped(b"LPOP", 200_000)),
    ("RPOP", items(200_000), popped(b"RPOP", 200_000)),
    ("HSET of 100,000 fields", None, many(b"HSET", 100_000, b":1\r\n", VALUE)),
    ("HGET of 100,000 fields", many(b"HSET", 100_000, b":1\r\n", VALUE), many(b"HGET", 100_000, bulk(VALUE))),
    *on_sets("1,000", 1_000, 100),
    *on_sets("100,000", 100_000, 1),
    *on_sets("a million", 1_000_000, 1),
    ("SPOP of 100,000, the first", added(100_000), asked(100_000, ONE_KEY, b"SPOP", b"k")),
    ("LRANGE of the first 100", items(1_000_000), asked(10_000, HUNDRED, b"LRANGE", b"l", b"0", b"99")),
    ("LRANGE of the last 100", items(1_000_000), asked(10_000, HUNDRED, b"LRANGE", b"l", b"-100", b"-1")),
    ("ZSCORE of 100,000", scored(100_000), scores_of(100_000)),
    *on_sorted_sets("1,000", 1_000, 100),
    *on_sorted_sets("100,000", 100_000, 1),
    *on_sorted_sets("a million", 1_000_000, 1),
    ("INCR", None, counted(200_000)),
    ("APPEND of 3 bytes", None, appended(200_000)),
    ("MSET of 10", None, ten_set(100_000)),
    ("MGET of 10", ten_set(2_000), ten_got(100_000)),
    ("ten SETs", None, tens(40_000, False)),
    ("MULTI, ten SETs, EXEC", None, tens(40_000, True)),
    ("SETEX of a million keys", None, NEW_UNTIL),
    ("SETEX over a million keys", NEW_UNTIL, of_keys(b"SETEX", OK, b"2000000", OTHER)),
    ("SETEX of a million, rising", None, NEW_RISING),
    ("SETEX of a million, unordered", None, until(b"SETEX", OK, 1_000_000, in_no_order, VALUE)),
    ("EXPIRE of a million keys", NEW, of_keys(b"EXPIRE", ONE, b"1000000")),
    ("EXPIRE that moves a million", NEW_UNTIL, of_keys(b"EXPIRE", ONE, b"2000000")),
    ("EXPIRE that moves, rising", NEW_RISING, until(b"EXPIRE", ONE, 2_000_000, rising)),
    ("PERSIST of a million keys", NEW_UNTIL, of_keys(b"PERSIST", ONE)),
    ("TTL of a million keys", NEW_UNTIL, of_keys(b"TTL", b":1000000\r\n")),
    ("GET of a million deadlines", NEW_UNTIL, of_keys(b"GET", bulk(VALUE))),
]

# what takes memory, told of each of a million
HELD = [
    ("bytes a key", NEW, KEYS),
    ("bytes a key with a deadline", NEW_UNTIL, KEYS),
    ("bytes a member of a set", added(1_000_000), 1_000_000),
    ("bytes a member of a sorted set", scored(1_000_000), 1_000_000),
]

# ticks on a million deadlines: how many, and at which moment; the time is told a tick, or a key where they delete some
TICKS = [("tick, none of a million expired", KEYS, 0), ("tick, all of a million expired", KEYS // 64, DEADLINE)]

# what a replica takes from its master
PIECE = 65_536
FOLLOWED = [("stream of a million SETs", False), ("snapshot of a million keys", True)]


def line(*cells):
    print("{:<28}{:>12}{:>16}{:>14}{:>16}{:>14}".format(*cells), flush=True)


def programs(room, words=()):
    """What starts each of the programs that are there."""
    return [lambda: Minired(*words), lambda: Redis(room)][: 2 if has_redis() else 1]


def taken(start, first, ready, path, wanted):
    """Nanoseconds of processor time that a program takes for requests, behind others; and its peak memory."""
    program = start()
    try:
        program.run(first, ready)
        began = program.used()
        program.run(path, wanted)
        return program.used() - began, program.peak()
    finally:
        program.stop()


def measured(room, before, write, words):
    """How many requests, and nanoseconds a request and peak MiB of both programs."""
    path, first = os.path.join(room, "requests"), os.path.join(room, "before")
    with open(first, "wb") as file:
        _, ready = before(file) if before else (0, 0)
    with open(path, "wb") as file:
        count, wanted = write(file)
    rounds = [[taken(start, first, ready, path, wanted) for start in programs(room, words)] for _ in range(ROUNDS)]
    cells = [f"{count:,}"]
    for runs in zip(*rounds):
        nanoseconds, peak = least(runs)
        cells += [f"{nanoseconds / count:,.0f}", f"{peak / MIB:,.1f}"]
    return cells + ["-", "-"] * (2 - len(rounds[0]))


def held(room, write, members):
    """How many keys or members, and bytes of peak memory for each of both programs."""
    path = os.path.join(room, "requests")
    with open(path, "wb") as file:
        _, wanted = write(file)
    cells = [f"{members:,}"]
    for start in programs(room):
        program = start()
        idle = program.peak()
        program.run(path, wanted)
        cells += [f"{(program.peak() - idle) / members:,.0f}", ""]
        program.stop()
    return (cells + ["-", "-"])[:5]


def ticked(room, count, now):
    """Nanoseconds of so many ticks at this moment, on a million keys with deadlines."""
    out, program = os.path.join(room, "answers"), built("rehearse")
    times = []
    for ticks in (0, count):
        path = os.path.join(room, "lines")
        with open(path, "w") as file:
            file.write("start 1048576\n")
            for at in range(KEYS):
                file.write("give %s\n" % request(b"SET", scrambled(at), VALUE, b"PXAT", b"%d" % DEADLINE).hex())
            file.write("master\ngiven %d 0\n" % now + "tick\n" * ticks)
        times.append(timed([program], path, out)[0])
    with open(out) as answers:
        gone = sum(line.count(b"$3\r\nDEL\r\n".hex()) for line in answers)
    if gone != (KEYS if now >= DEADLINE else 0):
        raise SystemExit(f"bench: the ticks deleted {gone} keys")
    return times[1] - times[0]


def expired(room, is_expired):
    """Nanoseconds of redis-server's active expiry on a million keys with deadlines: a key that was expired, or a cycle where none is."""
    path = os.path.join(room, "requests")
    with open(path, "wb") as file:
        for at in range(KEYS):
            file.write(request(b"SET", scrambled(at), VALUE, b"PX", b"1" if is_expired else b"%d" % DEADLINE))
    server = Redis(room, "--enable-debug-command", "yes")
    try:
        server.asked("DEBUG", "SET-ACTIVE-EXPIRE", "0")
        server.run(path)
        server.asked("DEBUG", "SET-ACTIVE-EXPIRE", "1")
        before, seconds = server.used(), 5
        if not is_expired:
            time.sleep(seconds)
            return (server.used() - before) / (10 * seconds)
        while server.asked("DBSIZE") != "0":
            time.sleep(0.05)
        return (server.used() - before) / KEYS
    finally:
        server.stop()


def tick_cells(room, count, now):
    is_expired = now >= DEADLINE
    a_time = ticked(room, count, now) / (KEYS if is_expired else count)
    cells = [f"{KEYS if is_expired else count:,}", f"{a_time:,.0f}", ""]
    return cells + ([f"{expired(room, is_expired):,.0f}", ""] if has_redis() else ["-", "-"])


def followed(room, is_snapshot):
    """Nanoseconds that a follower takes for a million SETs in pieces: as a stream, an effect at a step, or as a snapshot."""
    path, out, program = os.path.join(room, "lines"), os.path.join(room, "answers"), built("rehearse_values")
    texts = b"".join(request(b"SET", scrambled(at), VALUE) for at in range(KEYS))
    snapshot = b"$%d\r\n" % len(texts) if is_snapshot else b"$0\r\n"
    answers = b"+PONG\r\n+OK\r\n+OK\r\n+FULLRESYNC %s 0\r\n" % (b"a" * 40) + snapshot
    times = []
    # with steps behind the pieces, less each fed to a follower of its own: one that made no steps would keep them all
    for before, after in ((";begin 0", ""), ("", ";step" if is_snapshot else ";run")):
        with open(path, "w") as file:
            file.write("follower begin 0;feed " + answers.hex() + ";step" * 5)
            for at in range(0, len(texts), PIECE):
                file.write(before + ";feed " + texts[at : at + PIECE].hex() + after)
            file.write("\n")
        times.append(timed([program], path, out)[0])
    with open(out) as told:
        told = told.read().split("\n")
    if is_snapshot != (told.count("installs") == 1 and told[-2] == "installs") or not is_snapshot and sum(int(it[8:]) for it in told if it[:8] == "applied ") != KEYS:
        raise SystemExit("bench: the follower didn't take all")
    return times[1] - times[0]


def loaded(room):
    """Nanoseconds that redis-server takes to load a file of the same SETs, less that of an empty one."""
    times = []
    for count in (0, KEYS):
        folder = os.path.join(room, "load%d" % count)
        os.mkdir(folder)
        with open(os.path.join(folder, "appendonly.aof"), "wb") as file:
            for at in range(count):
                file.write(request(b"SET", scrambled(at), VALUE))
        server = Redis(folder, "--appendonly", "yes")
        try:
            while server.asked("DBSIZE") != str(count):
                time.sleep(0.05)
            times.append(server.used())
        finally:
            server.stop()
            shutil.rmtree(folder)
    return times[1] - times[0]


def followed_cells(room, is_snapshot):
    cells = [f"{KEYS:,}", f"{followed(room, is_snapshot) / KEYS:,.0f}", ""]
    return cells + ([f"{loaded(room) / KEYS:,.0f}", ""] if has_redis() else ["-", "-"])


def main(*chosen):
    # builds the program where it isn't built
    subprocess.run([LAUNCHER, "pipe"], stdin=subprocess.DEVNULL, check=True)
    with tempfile.TemporaryDirectory() as room:
        line("", "requests", "minired", "", "redis", "")
        line("", "", "ns a request", "peak MiB", "ns a request", "peak MiB")
        for name, before, write, *words in RUNS:
            if is_chosen(name, chosen):
                line(name, *measured(room, before, write, words))
        for name, write, members in HELD:
            if is_chosen(name, chosen):
                line(name, *held(room, write, members))
        for name, count, now in TICKS:
            if is_chosen(name, chosen):
                line(name, *tick_cells(room, count, now))
        for name, is_snapshot in FOLLOWED:
            if is_chosen(name, chosen):
                line(name, *followed_cells(room, is_snapshot))
        files.main(*chosen)
    if not has_redis():
        print("redis-server and redis-cli are not installed (Debian's redis-server and redis-tools)")


if __name__ == "__main__":
    main(*sys.argv[1:])
