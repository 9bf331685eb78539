"""The tables of commands over a socket, on `minired serve` and on redis-server: what Redis answers otherwise stands in differences.py.

A row that draws members is played as the SREM of those that it took, and one that only looks at drawn ones isn't played: a server draws by chance.
Tables at a moment of their own aren't played either: a server has the system's clock. Lists that no server promises in an order are compared as sets are."""

import os
import sys
import unittest
from unittest import mock

from tests.commands import test_collections, test_sorted_sets, test_strings, test_transactions
from tests.support import differences, server
from tests.support.program import ROOT, needs
from tests.support.replies import OK, number, read

CASES = [test_strings.Strings, test_collections.Collections, test_sorted_sets.SortedSets, test_transactions.Transactions]
# commands whose replies list fields, members or keys in no order that Redis promises
UNORDERED = {"HKEYS", "HVALS", "SMEMBERS", "SINTER", "SUNION", "SDIFF", "KEYS"}
# commands that draw members
DRAWING = {"SPOP", "SRANDMEMBER"}


class Elsewhere(Exception):
    """A test plays no table of rows, or not only."""


def tables():
    """The rows that each test hands to `answers`, where it does nothing else, and where they need no clock or chance of their own."""
    for case in CASES:
        for name in unittest.defaultTestLoader.getTestCaseNames(case):
            test, found = case(name), []
            test.answers = lambda rows, *words: found.append((rows, words))
            module = sys.modules[case.__module__]
            others = {it: mock.Mock(side_effect=Elsewhere) for it in ("run", "run_in_pieces") if hasattr(module, it)}
            try:
                with mock.patch.multiple(module, **others):
                    getattr(test, name)()
            except Elsewhere:
                continue
            yield from ((name, rows) for rows, words in found if not words)


def settled(name, reply):
    """A reply in which the order that no server promises is that of bytes."""
    value, _ = read(reply)
    if not isinstance(value, list):
        return reply
    if name in UNORDERED:
        return sorted(value)
    if name == "HGETALL":
        return sorted(zip(value[::2], value[1::2]))
    return reply


def scanned(client, words):
    """What a scan names from its beginning to its end, in byte order."""
    cursor, keys = b"0", []
    while True:
        reply = client.asks("SCAN", cursor, *words[2:])
        if not reply.startswith(b"*"):
            return reply
        (cursor, some), _ = read(reply)
        keys += some
        if cursor == b"0":
            return sorted(keys)


class SideBySide(unittest.TestCase):
    def played(self, rows):
        """The rows that aren't drawn, with the members that a drawn one took taken by name."""
        for line, reply in rows:
            words = line.split()
            value, _ = read(reply)
            drawn = value if isinstance(value, list) else [value] if reply.startswith(b"$") and not reply.startswith(b"$-1") else []
            if words[0] not in DRAWING or not drawn:
                yield line, reply
            elif words[0] == "SPOP":
                yield " ".join(["SREM", words[1], *(it.decode() for it in drawn)]), number(len(drawn))

    def test_there_are_tables(self):
        found = list(tables())
        self.assertGreater(sum(len(rows) for _, rows in found), 500)
        self.assertEqual({"test_strings", "test_keys", "test_hashes", "test_lists", "test_sets", "test_the_server", "test_sorted_sets"} - {name for name, _ in found}, set())

    def test_on_the_server(self):
        it = server.Server()
        self.addCleanup(it.stop)
        for name, rows in tables():
            with it.client() as client, self.subTest(name=name):
                self.assertEqual(client.asks("FLUSHALL"), OK)
                for line, reply in self.played(rows):
                    self.assertEqual(client.asks_line(line), reply, line)

    def test_on_redis_server(self):
        needs(self, server.has_redis(), "redis-server")
        it = server.RedisServer()
        self.addCleanup(it.stop)
        used = set()
        for name, rows in tables():
            with it.client() as client, self.subTest(name=name):
                self.assertEqual(client.asks("FLUSHALL"), OK)
                for line, reply in self.played(rows):
                    self.is_as(client, line, reply, used)
        self.assertEqual([row for row in differences.ROWS if row.request not in used], [])

    def is_as(self, client, line, reply, used):
        """Redis answers as minired does, or as a row of the differences says; its dataset is then made the same."""
        words = line.split()
        row = differences.of(line, reply)
        if row:
            used.add(row.request)
            told = client.asks_line(line)
            if row.redis is not None:
                self.assertEqual(told, row.redis, line)
                self.assertNotEqual(told, reply, line)
            for again in row.then:
                self.assertNotEqual(client.asks_line(again)[:1], b"-", again)
        elif words[0] == "SCAN" and words[1:2] == ["0"] and reply.startswith(b"*"):
            self.assertEqual(scanned(client, words), sorted(read(reply)[0][1]), line)
        else:
            self.assertEqual(settled(words[0], client.asks_line(line)), settled(words[0], reply), line)

    def test_the_document_has_the_differences(self):
        with open(os.path.join(ROOT, "docs", "REDIS.md"), encoding="utf-8") as it:
            self.assertEqual(it.read().partition(differences.HEAD)[1:], (differences.HEAD, differences.section()))


if __name__ == "__main__":
    unittest.main()
