"""Replies, and tables of commands with the replies that are wanted."""

import unittest

from tests.support.program import USUAL_BACKLOG, request, run

OK, PONG = b"+OK\r\n", b"+PONG\r\n"
NIL = b"$-1\r\n"
NO_LIST = b"*-1\r\n"
NONE = b"*0\r\n"
SYNTAX = b"-ERR syntax error\r\n"
INTEGER = b"-ERR value is not an integer or out of range\r\n"
POSITIVE = b"-ERR value is out of range, must be positive\r\n"
WRONG_KIND = b"-WRONGTYPE Operation against a key holding the wrong kind of value\r\n"
UNKNOWN = b"-ERR unknown command\r\n"
CURSOR = b"-ERR invalid cursor\r\n"
NO_BOUND = b"-ERR min or max is not a score\r\n"
NO_KEY = b"-ERR no such key\r\n"
READONLY = b"-READONLY You can't write against a read only replica.\r\n"
CHAINED = b"-ERR replicas are not chained\r\n"
OVERFLOW = b"-ERR increment or decrement would overflow\r\n"
# of transactions
QUEUED = b"+QUEUED\r\n"
NESTED = b"-ERR MULTI calls can not be nested\r\n"
EXEC_ALONE, DISCARD_ALONE = b"-ERR EXEC without MULTI\r\n", b"-ERR DISCARD without MULTI\r\n"
ABORTED = b"-EXECABORT Transaction discarded because of previous errors.\r\n"
NOT_ALLOWED = b"-ERR not allowed in a transaction\r\n"
# to BGREWRITEAOF
STARTED = b"+Background append only file rewriting started\r\n"


def refusal(why):
    """The reply to what is no request, behind which the link is closed."""
    return b"-ERR Protocol error: %s\r\n" % why.encode()


BULK_LENGTH, COUNT = refusal("invalid bulk length"), refusal("invalid multibulk length")
QUOTES, TOO_LONG = refusal("unbalanced quotes in request"), refusal("too big inline request")


def no_dollar(found):
    """The refusal of this character in the place of a dollar."""
    return refusal(f"expected '$', got '{found}'")


def number(value):
    return b":%d\r\n" % value


def bulk(text):
    text = text.encode() if isinstance(text, str) else text
    return b"$%d\r\n%s\r\n" % (len(text), text)


def array(*items):
    """Texts, `None` for nil, and numbers."""
    shown = [NIL if item is None else number(item) if isinstance(item, int) else bulk(item) for item in items]
    return b"*%d\r\n" % len(items) + b"".join(shown)


def array_of(*replies):
    return b"*%d\r\n" % len(replies) + b"".join(replies)


def arity(name):
    return b"-ERR wrong number of arguments for '%s' command\r\n" % name.encode()


def information(offset, role="master", first=1, followers=0, name="a" * 40, second=("0" * 40, -1), backlog=USUAL_BACKLOG):
    """INFO's text of a node whose backlog begins at an offset. Behind the id before stands the first offset that isn't its."""
    lines = [
        "# Replication",
        "role:" + role,
        "connected_slaves:%d" % followers,
        "master_replid:" + name,
        "master_replid2:" + second[0],
        "master_repl_offset:%d" % offset,
        "second_repl_offset:%d" % second[1],
        "repl_backlog_active:1",
        "repl_backlog_size:%d" % backlog,
        "repl_backlog_first_byte_offset:%d" % first,
        "repl_backlog_histlen:%d" % (offset - first + 1),
    ]
    return "".join(line + "\r\n" for line in lines)


def role_of_master(offset, *replicas):
    """ROLE's reply of a master, with the address, the port and the offset that each replica said."""
    return array_of(bulk("master"), number(offset), array_of(*(array_of(*map(bulk, it)) for it in replicas)))


def role_of_replica(host, port, link, offset):
    return array_of(bulk("slave"), bulk(host), number(port), bulk(link), number(offset))


def asked(lines):
    return b"".join(request(*line.split()) for line in lines)


def read(reply, at=0):
    """A reply as texts, numbers and lists of them, and where it ends."""
    end = reply.index(b"\r\n", at) + 2
    kind, head = reply[at : at + 1], reply[at + 1 : end - 2]
    if kind == b"$" and head != b"-1":
        return reply[end : end + int(head)], end + int(head) + 2
    if kind == b"*" and head != b"-1":
        items = []
        for _ in range(int(head)):
            item, end = read(reply, end)
            items.append(item)
        return items, end
    return reply[at : end - 2], end


class Answering(unittest.TestCase):
    def answers(self, rows, *words):
        """Each command on its own, so that the first wrong reply is told."""
        lines = [line for line, _ in rows]
        ran = run(asked(lines), "pipe", *words)
        self.assertEqual((ran.returncode, ran.stderr), (0, b""))
        rest = ran.stdout
        for line, reply in rows:
            self.assertEqual(rest[: len(reply)], reply, line)
            rest = rest[len(reply):]
        self.assertEqual(rest, b"")


class Playing(unittest.TestCase):
    def plays(self, calls, *words):
        """Each of many calls, given by its words, so that the first wrong reply is told."""
        ran = run(b"".join(request(*call) for call, _ in calls), "pipe", *words)
        self.assertEqual((ran.returncode, ran.stderr), (0, b""))
        at = 0
        for call, wanted in calls:
            self.assertEqual(ran.stdout[at : at + len(wanted)], wanted, call)
            at += len(wanted)
        self.assertEqual(len(ran.stdout), at)
