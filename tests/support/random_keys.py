"""Random keys of every kind and size, to be written by one server and asked of another."""

from tests.support.program import request
from tests.support.requests import FAR


class RandomKeys:
    """Keys of every kind and size, of any bytes: what writes them, and what asks for all of them, in an order that any server has."""

    def __init__(self, chance):
        self.chance, self.written, self.read = chance, [], []
        for kind in 12 * [self.text, self.hash, self.list, self.set, self.zset]:
            key = self.bytes()
            kind(key)
            self.read.append(("TYPE", key))
            if chance.random() < 0.5:
                self.written.append(("PEXPIREAT", key, str(FAR + chance.randrange(1000))))
            self.read.append(("PEXPIRETIME", key))

    def commands(self):
        return b"".join(request(*words) for words in self.written)

    def questions(self):
        return b"".join(request(*words) for words in self.read)

    def bytes(self):
        return self.chance.randbytes(self.chance.choice((4, 12, 100)))

    def members(self):
        return [self.bytes() for _ in range(self.chance.choice((1, 2, 63, 64, 65, 200, 700)))]

    def text(self, key):
        self.written.append(("SET", key, self.bytes()))
        self.read.append(("GET", key))

    def hash(self, key):
        for field in self.members():
            self.written += [("HSET", key, field, value) for value in (self.bytes(), self.bytes())]
            self.read.append(("HGET", key, field))
        self.read.append(("HLEN", key))

    def list(self, key):
        self.written.append(("RPUSH", key, *self.members()))
        self.read.append(("LRANGE", key, "0", "-1"))

    def set(self, key):
        members = self.members()
        self.written.append(("SADD", key, *members))
        self.read += [("SCARD", key), *(("SISMEMBER", key, member) for member in members)]

    def zset(self, key):
        for member in self.members():
            self.written.append(("ZADD", key, str(self.chance.randrange(-(2**53), 2**53)), member))
        self.read.append(("ZRANGE", key, "0", "-1", "WITHSCORES"))
