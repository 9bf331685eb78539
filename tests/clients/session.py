"""redis-py: a session over all five kinds, and what is there when its server was started again. The port is the first word."""

import sys

import redis

WRONG_KIND = "WRONGTYPE Operation against a key holding the wrong kind of value"
client = redis.Redis(port=int(sys.argv[1]), decode_responses=True, socket_timeout=60)


def is_so(found, wanted):
    assert found == wanted, (found, wanted)


is_so(client.ping(), True)
is_so(client.set("text", "a value\r\n"), True)
is_so(client.append("text", "more"), 13)
is_so(client.get("text"), "a value\r\nmore")
is_so(client.set("text", "other", nx=True), None)
is_so(client.incrby("count", 41), 41)
is_so(client.incr("count"), 42)
is_so(client.mget("count", "none"), ["42", None])
is_so(client.hset("hash", mapping={"f": 1, "g": 2}), 2)
is_so(client.hincrby("hash", "f", 4), 5)
is_so(client.hgetall("hash"), {"f": "5", "g": "2"})
is_so(client.rpush("list", "a", "b", "c"), 3)
is_so(client.lpop("list"), "a")
is_so(client.lrange("list", 0, -1), ["b", "c"])
is_so(client.sadd("set", "m", "n"), 2)
is_so(client.smembers("set"), {"m", "n"})
is_so(client.srem("set", "n"), 1)
is_so(client.zadd("zset", {"x": 3, "y": -1}), 2)
is_so(client.zincrby("zset", 5, "y"), 4.0)
is_so(client.zrange("zset", 0, -1, withscores=True), [("x", 3.0), ("y", 4.0)])
is_so(client.set("late", "v", px=3_600_000), True)
is_so(0 < client.pttl("late") <= 3_600_000, True)
is_so(client.expire("count", 100), True)
is_so(0 < client.ttl("count") <= 100, True)
is_so(client.persist("count"), True)
is_so(sorted(client.scan_iter(match="*t")), ["count", "list", "set", "text", "zset"])
# a pipeline without MULTI
pipe = client.pipeline(transaction=False)
for number in range(1000):
    pipe.rpush("numbers", number)
is_so(pipe.execute(), list(range(1, 1001)))
# one that is a transaction, as pipelines are where nothing is said
pipe = client.pipeline()
pipe.set("one", 1).incr("one").get("one").lpush("one", "x").hset("two", mapping={"f": 2}).delete("none")
found = pipe.execute(raise_on_error=False)
is_so((found[:3], str(found[3]).partition(" of pipeline")[0], found[4:]), ([True, 2, "2"], WRONG_KIND, [1, 0]))
is_so(client.pipeline().execute(), [])
pipe.set("three", 3).execute_command("NOSUCH")
try:
    pipe.execute()
    is_so("no error", "an error")
except redis.ResponseError as error:
    is_so("unknown command" in str(error), True)
is_so(client.exists("three"), 0)
pipe.set("three", 3).reset()
is_so(client.exists("one", "two", "three"), 2)
try:
    client.lpush("text", "x")
    is_so("no error", "an error")
except redis.ResponseError as error:
    is_so(str(error), WRONG_KIND)

print("again", flush=True)
sys.stdin.readline()
try:
    found = client.get("count")
except redis.ConnectionError:
    # the next request is made over a new link
    found = client.get("count")
is_so(found, "42")
is_so(client.lrange("numbers", -2, -1), ["998", "999"])
is_so(client.hget("hash", "f"), "5")
is_so((client.get("one"), client.hget("two", "f")), ("2", "2"))
is_so(client.sismember("set", "m"), True)
is_so(client.zscore("zset", "y"), 4.0)
is_so(client.delete("count", "none"), 1)
print("done", flush=True)
