"""What keys of each kind take of the memory of `serve`, and of redis-server, where it is installed.

`memory.py [WORD..]` prints a row of docs/MEMORY.md for each kind and size, or for those whose names have one of the words. Keys, fields and members have 16 bytes, values
and items 3. It takes some three minutes and 1 GB of memory."""

import sys

from bench.servers import is_chosen
from tests.support import server
from tests.support.program import request

# so many keys of a row, fewer where each has more than FEW elements
KEYS, LARGE, FEW = 200_000, 50_000, 16
# so many requests are sent before their replies are read
TOGETHER = 1_000


def name(number):
    """A name of 16 bytes. Neighbours are far apart, as names drawn at random are."""
    return b"name:%011d" % (number * 48_271 % 100_000_000_003)


def value(number):
    return b"%03d" % (number % 1_000)


def texts(key, count):
    return request(b"SET", key, value(count))


def hashes(key, count):
    return request(b"HSET", key, *(word for at in range(count) for word in (name(at), value(at))))


def lists(key, count):
    return request(b"RPUSH", key, *map(value, range(count)))


def sets(key, count):
    return request(b"SADD", key, *map(name, range(count)))


def sorted_sets(key, count):
    return request(b"ZADD", key, *(word for at in range(count) for word in (b"%d" % at, name(at))))


# each kind, how many elements its keys have, and the request that makes one
ROWS = [
    ("a text of three bytes", [1], texts),
    ("a hash", [1, 10, 100], hashes),
    ("a list", [1, 10, 100], lists),
    ("a set", [1, 10, 100], sets),
    ("a sorted set", [1, 10, 16, 17, 64, 100], sorted_sets),
]


def taken(kind, made, count):
    """Bytes that a server takes for a key with so many elements."""
    keys = KEYS if count <= FEW else LARGE
    running = kind()
    try:
        with running.client() as client:
            client.asks("PING")
            before = running.memory()
            for first in range(0, keys, TOGETHER):
                client.send(b"".join(made(name(first + it), count) for it in range(TOGETHER)))
                for _ in range(TOGETHER):
                    if client.reply()[:1] == b"-":
                        raise SystemExit("bench: a request is refused")
            return (running.memory() - before) / keys
    finally:
        running.stop()


def main(words):
    kinds = [server.Server, server.RedisServer][: 2 if server.has_redis() else 1]
    print("| | " + " | ".join(("minired", "Redis")[: len(kinds)]) + " |")
    for told, counts, made in ROWS:
        if is_chosen(told, words):
            cells = " | ".join(", ".join(f"{taken(kind, made, it):,.0f}" for it in counts) for kind in kinds)
            print(f"| {told}{' of ' + ', '.join(map(str, counts)) if counts != [1] else ''} | {cells} |", flush=True)


if __name__ == "__main__":
    main(sys.argv[1:])
