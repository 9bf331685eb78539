"""Each allocation of a run refused in turn."""

import os
import random
import subprocess
import unittest

from tests.commands.test_collections import HASHES, LISTS, SERVER, SETS
from tests.commands.test_sorted_sets import SORTED_SETS
from tests.commands.test_strings import KEYS, STRINGS
from tests.support.program import LATE, PROGRAM, built, request, run
from tests.support.refusing import Refusing
from tests.support.rehearsal import asked as asking, effect, holding
from tests.support.replies import (
    ABORTED, DISCARD_ALONE, EXEC_ALONE, NESTED, NIL, NONE, NOT_ALLOWED, OK, QUEUED, STARTED, SYNTAX, WRONG_KIND, arity, array, array_of, asked, bulk, information,
    number, role_of_master,
)
from tests.support.requests import EXEC, MULTI, PAIR, SET, SET_A, SET_B, SET_W, SET_X, framed
from tests.support.server import MIB

ASKED = b"".join(
    [
        request("SET", "k", "v"),
        request("GET", "k"),
        request("SET", "other", 300 * b"x"),
        request("SET", "k", 5000 * b"y"),
        request("GET", "k"),
        request("DEL", "k", "other", "k"),
        request("GET", "k"),
        b"SET \"a b\" 'x\\'y'\r\n",
        b"GET 'a b'\n",
        request("PING"),
    ]
)
ANSWERED = (
    b"+OK\r\n$1\r\nv\r\n+OK\r\n+OK\r\n$5000\r\n" + 5000 * b"y" + b"\r\n:2\r\n$-1\r\n+OK\r\n$3\r\nx'y\r\n+PONG\r\n"
)


# commands on deadlines at moment 1000, with keys that are expired at once
DEADLINES = [
    ("SETEX k 10 v", OK),
    ("SETEX k 20 w", OK),
    ("PSETEX l 1 v", OK),
    ("SET m v EX 10 GET", NIL),
    ("SET m w KEEPTTL", OK),
    ("EXPIRE k 30", number(1)),
    ("PEXPIREAT m 1001", number(1)),
    ("TTL k", number(30)),
    ("PTTL l", number(1)),
    ("PEXPIRETIME m", number(1001)),
    ("PERSIST k", number(1)),
    ("PERSIST k", number(0)),
    ("EXPIRE k -1", number(1)),
    ("RENAME m n", OK),
    ("PEXPIRETIME n", number(1001)),
    ("SET a v PXAT 1", OK),
    ("SET b v PXAT 1", OK),
    ("MGET b a n b", array(None, None, "w", None)),
    ("SET a v PXAT 1", OK),
    ("SET b v PXAT 1", OK),
    ("MSET b v a w", OK),
    ("SET c v PXAT 1", OK),
    ("KEYS *", array("a", "b", "l", "n")),
    ("RPUSH c x", number(1)),
    ("PEXPIRE c 1", number(1)),
    ("LPOP c", bulk("x")),
    ("SET d v PXAT 1", OK),
    ("SUNION d c", NONE),
    ("FLUSHALL", OK),
]

# transactions: of two effects, of one, of none, one that is refused, and one that is dropped
TRANSACTIONS = [
    ("MULTI", OK), ("SET a 1", QUEUED), ("SET b 2", QUEUED), ("MGET a b", QUEUED), ("EXEC", array_of(OK, OK, array("1", "2"))),
    ("MULTI", OK), ("INCR a", QUEUED), ("SET b 2 NX XX", QUEUED), ("LPUSH a x", QUEUED), ("EXEC", array_of(number(2), SYNTAX, WRONG_KIND)),
    ("MULTI", OK), ("MULTI", NESTED), ("INFO", QUEUED), ("ROLE", QUEUED), ("EXEC", array_of(bulk(information(83 + 30)), role_of_master(83 + 30))),
    ("MULTI", OK), ("SET c 3", QUEUED), ("GET", arity("get")), ("SHUTDOWN", NOT_ALLOWED), ("EXEC", ABORTED), ("EXEC", EXEC_ALONE),
    ("MULTI", OK), ("SET c 3", QUEUED), ("DISCARD", OK), ("DISCARD", DISCARD_ALONE), ("DBSIZE", number(2)),
]

REFUSAL = b"refused: out of memory"

# a dataset with more expired keys than a tick deletes, and others
HELD = ["SET a v PXAT 5", "HSET h f v g w", "RPUSH l x y", "PEXPIREAT l 4", "SADD s m", "ZADD z 1 m", "PEXPIREAT z 9", "PERSIST z", "SET a w KEEPTTL",
        *("SET k%02d v PXAT 5" % it for it in range(66))]
LOOKED_AT = ["given 5 0", "due", asking("PTTL", "a"), asking("DBSIZE"), "rebuild", "due", "rebuild"]
TICKED = ["master", "given 5 0", "tick", "tick", "tick"]


class Memory(Refusing):
    def beginnings(self, data, wanted, *words):
        """Whichever allocation is refused, the replies are a beginning of these."""
        self.assertEqual(run(data, "pipe", *words).stdout, wanted)

        def check(ran, was_refused):
            if ran.returncode == 0:
                self.assertEqual((ran.stdout, ran.stderr), (wanted, b""))
            else:
                self.assertTrue(was_refused)
                self.assertEqual((ran.returncode, ran.stderr), (3, b"minired: out of memory\n"))
                self.assertEqual(ran.stdout, wanted[: len(ran.stdout)])

        self.assertGreater(self.each_refusal(data, check, PROGRAM, "pipe", *words), 10)

    def test_replies_are_a_beginning_of_the_ample_run(self):
        self.beginnings(ASKED, ANSWERED)

    def test_replies_of_collections_are_too(self):
        for rows in (HASHES, LISTS, SETS, SORTED_SETS, STRINGS, KEYS, [*SERVER, ("QUIT", OK)]):
            self.beginnings(asked(line for line, _ in rows), b"".join(reply for _, reply in rows))

    def test_replies_of_what_outgrows_one_chunk_are_too(self):
        names = ["%02d" % it for it in range(66)]
        pairs = " ".join(f"{score} {name}" for score, name in enumerate(names))
        rows = [("SADD s " + " ".join(names), number(66)), ("ZADD z " + pairs, number(66)), ("SCARD s", number(66)), ("ZRANK z 65", number(65))]
        self.beginnings(asked(line for line, _ in rows), b"".join(reply for _, reply in rows))

    def test_replies_to_a_large_word_are_too(self):
        value = random.Random(20).randbytes(20 * MIB)
        self.beginnings(request("SET", "k", value) + request("APPEND", "k", "x") + request("GETRANGE", "k", "-3", "-1"), OK + number(len(value) + 1) + bulk(value[-2:] + b"x"))

    def test_replies_to_transactions_are_too(self):
        self.beginnings(asked(line for line, _ in TRANSACTIONS), b"".join(reply for _, reply in TRANSACTIONS))

    def test_a_file_has_what_was_answered_and_at_most_what_comes_next(self):
        # each request, its reply, and the file behind it
        rewritten = [(SET, OK, SET), (SET_W, OK, SET + SET_W), (request("BGREWRITEAOF"), STARTED, SET_W), (SET_X, OK, SET_W + SET_X)]
        waits = [(MULTI, OK, SET), (SET_A, QUEUED, SET), (SET_B, QUEUED, SET)]
        transacted = [(SET, OK, SET), *waits, (EXEC, array_of(OK, OK), SET + PAIR), (SET_W, OK, SET + PAIR + SET_W)]
        for rows in (rewritten, transacted):
            self.files_grow(rows)

    def files_grow(self, rows):
        """Whichever allocation is refused, the file is one that stands behind a row, and what was answered is in it."""
        replies = b"".join(reply for _, reply, _ in rows)
        files = [b"", *(file for _, _, file in rows)]
        path = os.path.join(self.room.name, "data.aof")

        def check(ran, was_refused):
            with open(path, "rb") as file:
                held = file.read()
            os.truncate(path, 0)
            answered = next(count for count in range(len(rows) + 1) if len(b"".join(reply for _, reply, _ in rows[:count])) >= len(ran.stdout))
            self.assertEqual(ran.stdout, replies[: len(ran.stdout)])
            self.assertIn(held, files[answered : answered + 2])
            if ran.returncode == 0:
                self.assertEqual((answered, ran.stderr), (len(rows), b""))
            else:
                self.assertTrue(was_refused)
                self.assertEqual(ran.returncode, 3)
                self.assertRegex(ran.stderr, rb"\Aminired: (out of memory|file failed\n[^\n]+)\n\Z")

        open(path, "wb").close()
        self.assertGreater(self.each_refusal(b"".join(data for data, _, _ in rows), check, PROGRAM, "pipe", "--aof", path), 20)

    def test_a_bad_line_is_refused_or_memory_is_out(self):
        def check(ran, was_refused):
            if was_refused and ran.returncode == 3:
                self.assertEqual((ran.stdout, ran.stderr), (b"", b"minired: out of memory\n"))
            else:
                self.assertEqual((ran.returncode, ran.stdout), (1, b""))
                self.assertRegex(ran.stderr, rb"\Aminired: [^\n]+\n\Z")

        self.assertGreater(self.each_refusal(b"", check, PROGRAM, "pipe", "--now", "x"), 10)

    def test_replies_on_deadlines_are_too(self):
        self.beginnings(asked(line for line, _ in DEADLINES), b"".join(reply for _, reply in DEADLINES), "--now", "1000")

    def rehearsed(self, calls):
        """Makes calls on what HELD leaves. One that is refused changes nothing: those behind it answer what they did from there on."""
        held = ["start 64", *(call for call, _ in holding(*HELD))]
        script = "".join(line + "\n" for line in [*held, *calls]).encode()
        ample = subprocess.run([built("rehearse")], input=script, capture_output=True, timeout=LATE).stdout.splitlines()
        refusals = set()

        def check(ran, was_refused):
            answers = ran.stdout.splitlines()
            if ran.returncode:
                self.assertEqual((was_refused, answers, ran.stderr), (True, [], b"rehearse: out of memory\n"))
            elif REFUSAL not in answers:
                self.assertEqual(answers, ample)
            else:
                at = answers.index(REFUSAL)
                self.assertTrue(was_refused)
                self.assertEqual(answers[:at], ample[:at])
                # an effect that lacked memory may have left anything
                if at >= len(held):
                    self.assertEqual(answers[at + 1 :], ample[at:-1])
                    refusals.add(calls[at - len(held)])

        self.assertGreater(self.each_refusal(script, check, built("rehearse")), 10)
        return refusals

    def test_a_tick_that_lacks_memory_deletes_nothing(self):
        self.assertEqual(self.rehearsed(TICKED), {"tick"})

    def test_what_is_rebuilt_and_due_without_memory(self):
        self.assertEqual(self.rehearsed(LOOKED_AT), set())

    def test_a_follower_that_lacks_memory_has_used_nothing(self):
        """Its step is made once more. Of a dataset within whose change it lacked memory nothing is said."""
        texts = [effect(line) for line in HELD[:9]]
        sent = b"+PONG\r\n+OK\r\n+OK\r\n+FULLRESYNC %s 0\r\n$%d\r\n" % (b"a" * 40, sum(map(len, texts))) + b"".join(texts)
        # each effect by itself, and all of them as one group, in two pieces
        stream, group = b"".join(texts), framed(*texts)
        steps = ["begin 0", "feed " + (sent + stream + group[:200]).hex(), *["step"] * (5 + len(texts) + 1), "feed " + group[200:].hex(), "step", "step", "shows"]
        script = ("follower " + ";".join(steps) + "\n").encode()
        ample = subprocess.run([built("rehearse_values")], input=script, capture_output=True, timeout=LATE).stdout.splitlines()
        self.assertEqual((ample.count(b"idle"), ample[-5:-1]), (2, [b"idle", b"fed", b"applies " + group.hex().encode(), b"idle"]))
        refusals = set()

        def check(ran, was_refused):
            answers = ran.stdout.splitlines()
            lacked = [it for it in answers if it.startswith(b"refuses")]
            refusals.update(lacked[:1])
            if ran.returncode:
                self.assertEqual((was_refused, answers, ran.stderr), (True, [], b"rehearse_values: out of memory\n"))
            elif not lacked:
                self.assertEqual(answers, ample)
            else:
                at = answers.index(lacked[0])
                self.assertTrue(was_refused)
                self.assertEqual(answers[:at], ample[:at])
                if lacked[0] == b"refuses: out of memory":
                    # one step more, so one that has nothing to do the less
                    rest = ample[at:]
                    rest.remove(b"idle")
                    self.assertEqual(answers[at + 1 :], rest)

        self.assertGreater(self.each_refusal(script, check, built("rehearse_values")), 10)
        self.assertEqual(refusals, {b"refuses: out of memory", b"refuses: out of memory, and the dataset is spent"})


if __name__ == "__main__":
    unittest.main()
