"""Django's cache by django-redis, which sets many keys in one transaction, and what is there when its server was started again. The port is the first word."""

import sys

from django.conf import settings

LOCATION = "redis://127.0.0.1:%s/0" % sys.argv[1]
settings.configure(CACHES={"default": {"BACKEND": "django_redis.cache.RedisCache", "LOCATION": LOCATION}})

from django.core.cache import cache  # noqa: E402


def is_so(found, wanted):
    assert found == wanted, (found, wanted)


is_so(cache.set("one", {"a": [1, 2]}, timeout=None), True)
is_so(cache.get("one"), {"a": [1, 2]})
is_so(cache.get("none", "nothing"), "nothing")
is_so(cache.add("one", 2), False)
cache.set_many({"key%d" % at: at for at in range(1000)}, timeout=3600)
is_so(cache.get_many(["key0", "key999", "none"]), {"key0": 0, "key999": 999})
is_so(0 < cache.ttl("key7") <= 3600, True)
is_so(cache.delete_many(["key1", "key2", "none"]), 2)
is_so(sorted(cache.keys("key99?")), ["key99%d" % at for at in range(10)])
is_so(cache.touch("key3", 100), True)
is_so((cache.has_key("key3"), cache.has_key("key1")), (True, False))

print("again", flush=True)
sys.stdin.readline()
try:
    found = cache.get("one")
except Exception:
    # the next request is made over a new link
    found = cache.get("one")
is_so(found, {"a": [1, 2]})
is_so(cache.get_many(["key0", "key1", "key999"]), {"key0": 0, "key999": 999})
is_so(cache.delete("one"), True)
print("done", flush=True)
