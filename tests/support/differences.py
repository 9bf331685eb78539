"""What Redis answers otherwise than minired, request by request. `python3 -m tests.support.differences` writes it into docs/REDIS.md."""

import os
from dataclasses import dataclass
from typing import Optional, Tuple

from tests.support.program import ROOT
from tests.support.replies import CURSOR, INTEGER, NIL, NONE, NO_BOUND, NO_KEY, OK, POSITIVE, SYNTAX, arity, array, bulk, number, read

DOCUMENT = os.path.join(ROOT, "docs", "REDIS.md")
HEAD = "\n## Request by request\n"


@dataclass(frozen=True)
class Row:
    """A request that the two answer otherwise, and what is asked of Redis then, so that it holds what minired does."""

    request: str
    # nothing where it is another one each time, and `shown` says what it is
    redis: Optional[bytes]
    minired: bytes
    why: str
    then: Tuple[str, ...] = ()
    shown: str = ""


NO_FLOAT = b"-ERR value is not a valid float\r\n"
NO_FLOAT_BOUND = b"-ERR min or max is not a float\r\n"
TOO_LONG = b"-ERR string too long\r\n"
TOO_LARGE = b"-ERR string exceeds maximum allowed size (proto-max-bulk-len)\r\n"
BOTH_OPTIONS = b"-ERR GT, LT, and/or NX options at the same time are not compatible\r\n"
NX_AND_XX = b"-ERR XX and NX options at the same time are not compatible\r\n"
NO_LIMIT = b"-ERR syntax error, LIMIT is only supported in combination with either BYSCORE or BYLEX\r\n"
NO_SETINFO = b"-ERR unknown subcommand 'SETINFO'. Try CLIENT HELP.\r\n"
NO_DATABASE = b"-ERR DB index is out of range\r\n"
NO_SUM = b"-ERR resulting score is out of range\r\n"
NO_OPTION = b"-ERR Unsupported option FOO\r\n"
NX_AND_OTHERS = b"-ERR NX and XX, GT or LT options at the same time are not compatible\r\n"
GT_AND_LT = b"-ERR GT and LT options at the same time are not compatible\r\n"
NO_NAME = b"-ERR Client names cannot contain spaces, newlines or special characters.\r\n"
NO_PORT = b"-ERR Invalid master port\r\n"
NO_EXEC = b"-EXECABORT Transaction discarded because of: wrong number of arguments for 'exec' command\r\n"

WINDOW = "a last place in front of the first one is no place; the text is `hello`"
TWICE = "an option stands at most once"
FIRST = "arguments are read before a key is looked at; there is no such key"
WHOLE = "scores are whole numbers"
FINITE = "scores are finite"
WITHIN = "scores are at most 2^53 from 0"
EXCLUDE = "one text for options that exclude one another"
ITSELF = "there is no text of its own for it"
CLASS = "; the keys are `-` and `b`"
PORT = "a port that is none has no text of its own"
ALONE = "one of NX, XX, GT and LT stands alone"

# a request's letters may be large or small where no key has both
ROWS = [
    Row("CLIENT", arity("client"), SYNTAX, ITSELF),
    Row("CLIENT LIST", None, SYNTAX, "CLIENT has SETNAME and SETINFO alone", shown="its clients"),
    Row("CLIENT SETINFO lib-name me", NO_SETINFO, OK, "later versions of Redis have it, and clients ask for it"),
    Row("CLIENT SETNAME é", NO_NAME, OK, "no name is kept"),
    Row("COMMAND", None, NONE, "it is answered for clients that ask it at their start", shown="what it knows of each command"),
    Row("COMMAND DOCS get set", None, NONE, "it is answered for clients that ask it at their start", shown="what it knows of both"),
    Row("EXEC x", NO_EXEC, arity("exec"), "a transaction that is open stays so, and is marked; Redis ends it"),
    Row("EXPIRE k 10 FOO", NO_OPTION, SYNTAX, ITSELF),
    Row("EXPIRE k 10 GT LT", GT_AND_LT, SYNTAX, EXCLUDE),
    Row("EXPIRE k 10 NX GT", NX_AND_OTHERS, SYNTAX, EXCLUDE),
    Row("EXPIRE k 10 NX NX", number(1), SYNTAX, TWICE, ("PERSIST k",)),
    Row("EXPIRE k 10 XX GT", number(0), SYNTAX, ALONE),
    Row("GETRANGE k -100 -100", bulk("h"), bulk(""), WINDOW),
    Row("GETRANGE k 0 -6", bulk("h"), bulk(""), WINDOW),
    Row("KEYS [a-]", NONE, array("-"), "a `-` in front of the closing `]` stands for itself" + CLASS),
    Row("KEYS [\\a-c]", array("-"), array("b"), "a range may begin at a byte behind `\\`" + CLASS),
    Row("KEYS [a-\\c]", NONE, array("b"), "a range may end at a byte behind `\\`" + CLASS),
    Row("LINDEX x a", NIL, INTEGER, FIRST),
    Row("LSET x a z", NO_KEY, INTEGER, FIRST),
    Row("REPLICAOF h 70000", NO_PORT, INTEGER, PORT),
    Row("REPLICAOF h x", NO_PORT, INTEGER, PORT),
    Row("SCAN -1", None, CURSOR, "a cursor isn't below 0", shown="the keys of a part of its table"),
    Row("SCAN 5", None, b"*2\r\n" + bulk("0") + NONE, "all keys are named at cursor 0", shown="the keys of a part of its table"),
    Row("SELECT 1", OK, NO_DATABASE, "there is one database", ("SELECT 0",)),
    Row("SET k v GET GET", bulk("w"), SYNTAX, TWICE, ("SET k w",)),
    Row("SET k v NX NX", NIL, SYNTAX, TWICE),
    Row("SETRANGE z 536870912 q", TOO_LARGE, TOO_LONG, "another text"),
    Row("SETRANGE z 9223372036854775807 q", TOO_LARGE, TOO_LONG, "another text"),
    Row("SRANDMEMBER t -1", None, POSITIVE, "no member is drawn twice", shown="an array of one drawn member"),
    Row("ZADD top 9007199254740993 m", number(0), INTEGER, WITHIN + "; Redis rounds"),
    Row("ZADD z 1.5 d", number(1), INTEGER, WHOLE, ("ZREM z d",)),
    Row("ZADD z 5 d x e", NO_FLOAT, INTEGER, WHOLE),
    Row("ZADD z CH CH 1 a", number(0), SYNTAX, TWICE),
    Row("ZADD z LT GT 1 a", BOTH_OPTIONS, SYNTAX, EXCLUDE),
    Row("ZADD z NX GT 1 a", BOTH_OPTIONS, SYNTAX, EXCLUDE),
    Row("ZADD z NX XX 1 a", NX_AND_XX, SYNTAX, EXCLUDE),
    Row("ZADD z -inf d", number(1), INTEGER, FINITE, ("ZREM z d",)),
    Row("ZADD z -infinity d", number(1), INTEGER, FINITE, ("ZREM z d",)),
    Row("ZADD z inf d", number(1), INTEGER, FINITE, ("ZREM z d",)),
    Row("ZADD z infinity d", number(1), INTEGER, FINITE, ("ZREM z d",)),
    Row("ZCOUNT z 0 1.5", number(1), NO_BOUND, WHOLE),
    Row("ZCOUNT z 0 9007199254740993", number(6), NO_BOUND, WITHIN),
    Row("ZINCRBY top -1 m", bulk("-9007199254740992"), NO_SUM, WITHIN + "; Redis rounds"),
    Row("ZINCRBY top 1 m", bulk("9007199254740992"), NO_SUM, WITHIN + "; Redis rounds"),
    Row("ZINCRBY z +inf b", bulk("inf"), INTEGER, FINITE, ("ZADD z 2 b",)),
    Row("ZINCRBY z +infinity b", bulk("inf"), INTEGER, FINITE, ("ZADD z 2 b",)),
    Row("ZINCRBY z 0.5 a", bulk("3.5"), INTEGER, WHOLE, ("ZADD z 3 a",)),
    Row("ZINCRBY z 9007199254740993 a", bulk("9007199254740996"), INTEGER, WITHIN + "; Redis rounds", ("ZADD z 3 a",)),
    Row("ZPOPMIN z 1 2", SYNTAX, arity("zpopmin"), "a word too many is a wrong number of arguments"),
    Row("ZRANGE z 0 -1 LIMIT 0 1", NO_LIMIT, SYNTAX, ITSELF),
    Row("ZRANGEBYSCORE z 1.5 3", array("c"), NO_BOUND, WHOLE),
    Row("ZRANGEBYSCORE z x 3", NO_FLOAT_BOUND, NO_BOUND, "another text"),
]


def of(request, reply):
    """The row of a request that minired answers so, or none."""
    return next((row for row in ROWS if (row.request.lower(), row.minired) == (request.lower(), reply)), None)


def spelled(reply):
    """A reply as it is read."""
    if reply == NIL:
        return "nil"
    value, _ = read(reply)
    return spelled_value(value if reply[:1] in (b"*", b"$") else value[1:])


def spelled_value(value):
    if isinstance(value, list):
        return "an array of " + " and ".join(map(spelled_value, value)) if value else "an empty array"
    return "`%s`" % value.decode() if value else "an empty text"


def section():
    lines = ["", "| Request | Redis | minired | Why |", "|---|---|---|---|"]
    for row in sorted(ROWS, key=lambda it: it.request.split()[0]):
        lines.append("| `%s` | %s | %s | %s |" % (row.request, row.shown or spelled(row.redis), spelled(row.minired), row.why))
    return "\n".join(lines) + "\n"


def main():
    with open(DOCUMENT, encoding="utf-8") as it:
        before = it.read().partition(HEAD)[0]
    with open(DOCUMENT, "w", encoding="utf-8") as it:
        it.write(before + HEAD + section())


if __name__ == "__main__":
    main()
