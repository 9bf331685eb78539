"""INFO and ROLE, byte for byte, and SHUTDOWN: in `pipe`, in `serve`, and as a node's step."""

import shutil
import subprocess
import unittest

from tests.support.program import LATE, USUAL_BACKLOG, needs, request, run, run_in_pieces
from tests.support.rehearsal import ID, Rehearsing, done, fed
from tests.support.replies import OK, PONG, SYNTAX, Answering, arity, bulk, information, number, role_of_master, role_of_replica
from tests.support.requests import GET, PING, SET, SET_W
from tests.support.serving import Serving
from tests.support.values import Playing, spelled

EMPTY = bulk("")


class TellingOfReplicas(Playing):
    """What a node tells that has replicas, or follows a master, by parts of the text that are handed in."""

    A, C = "a" * 40, "c" * 40

    def tells(self, *steps):
        """Steps on a stream that stood at 54 under one id and was then promoted, each with the text that it tells."""
        begun = [("new %s %d 54" % (self.A, USUAL_BACKLOG), "begun"), ("promote " + self.C, "promoted")]
        self.plays("lineage", begun + [(step, "text " + spelled(text)) for step, text in steps])

    def test_the_id_before_ends_behind_the_last_byte_that_it_had(self):
        told = {"first": 55, "name": self.C, "second": (self.A, 55)}
        self.tells(
            ("informs master 0", information(54, **told)),
            ("informs master 3", information(54, followers=3, **told)),
            ("informs slave 0", information(54, role="slave", **told)),
        )

    def test_a_master_tells_of_each_replica_what_it_told(self):
        self.tells(
            ("alone", role_of_master(54)),
            ("leads %s %s 41" % (spelled("10.0.0.7"), spelled("6380")), role_of_master(54, ("10.0.0.7", "6380", "41"), ("", "0", "0"))),
        )

    def test_a_replica_tells_whom_it_follows_and_how_far_it_has_come(self):
        self.tells(*[
            ("follows %s 6379 %s" % (spelled("node"), link), role_of_replica("node", 6379, link, 54))
            for link in ("connect", "sync", "connected")
        ])


class Telling(Answering):
    def test_the_text_has_316_bytes_at_offset_27(self):
        self.assertEqual(len(information(27)), 316)
        self.answers([("SET k v", OK), ("INFO replication", bulk(information(27)))], "--id", ID)

    def test_the_section_is_told_under_its_names_in_any_case(self):
        text = bulk(information(0))
        self.answers([(line, text) for line in ("INFO", "info", "INFO all", "INFO default", "INFO REPLICATION", "INFO Default")], "--id", ID)

    def test_other_sections_are_empty(self):
        self.answers([("INFO server", EMPTY), ("INFO keyspace", EMPTY), ("INFO everything", EMPTY), ("INFO replication2", EMPTY)])

    def test_a_section_may_be_an_empty_word(self):
        ran = run(request("INFO", ""), "pipe")
        self.assertEqual((ran.returncode, ran.stdout, ran.stderr), (0, EMPTY, b""))

    def test_what_is_told_goes_with_the_stream(self):
        self.answers([
            ("ROLE", role_of_master(0)),
            ("SET k v", OK),
            ("ROLE", role_of_master(27)),
            ("GET k", bulk("v")),
            ("SET k v", OK),
            ("INFO", bulk(information(27))),
            ("DEL k", number(1)),
            ("INFO", bulk(information(47))),
            ("role", role_of_master(47)),
        ], "--id", ID)

    def test_a_full_backlog_begins_behind_what_it_dropped(self):
        value, texts = "v" * (USUAL_BACKLOG - 100), 0
        for key in "ab":
            texts += len(request("SET", key, value))
        rows = [("SET a " + value, OK), ("SET b " + value, OK), ("INFO", bulk(information(texts, first=texts + 1 - USUAL_BACKLOG)))]
        self.answers(rows, "--id", ID)

    def test_a_word_too_many(self):
        self.answers([("INFO a b", arity("info")), ("ROLE x", arity("role")), ("SHUTDOWN now", SYNTAX), ("SHUTDOWN SAVE NOSAVE", SYNTAX), ("PING", PONG)])


class Ending(Serving):
    def test_shutdown_ends_the_run_without_a_reply(self):
        for line in ("SHUTDOWN", "shutdown", "SHUTDOWN SAVE", "SHUTDOWN NOSAVE", "shutdown nosave"):
            ran = run(PING + request(*line.split()) + PING, "pipe")
            self.assertEqual((ran.returncode, ran.stdout, ran.stderr), (0, PONG, b""), line)

    def test_however_the_input_is_cut(self):
        text = SET + request("SHUTDOWN") + GET
        for cut in range(1, len(text)):
            ran = run_in_pieces([text[:cut], text[cut:]], "pipe")
            self.assertEqual((ran.returncode, ran.stdout, ran.stderr), (0, OK, b""), cut)

    def test_the_file_has_what_was_answered(self):
        ran = run(SET + request("SHUTDOWN") + SET_W, "pipe", "--aof", self.path)
        self.assertEqual((ran.returncode, ran.stdout, ran.stderr), (0, OK, b""))
        self.assertEqual(self.bytes(), SET)

    def test_a_server_ends_with_status_0(self):
        it = self.serve(aof=self.path)
        first, second = self.client(it), self.client(it)
        self.assertEqual(first.asks("SET", "k", "v"), OK)
        second.send(request("SHUTDOWN"))
        self.assertEqual((second.rest(), first.rest()), (b"", b""))
        ended = it.ended()
        self.assertEqual((ended.returncode, ended.stdout, ended.stderr), (0, b"", b""))
        self.assertEqual(self.bytes(), SET)

    def test_replies_before_it_are_sent_and_their_writes_kept(self):
        it = self.serve(aof=self.path)
        client = self.client(it)
        client.send(SET + GET + request("SHUTDOWN", "NOSAVE"))
        self.assertEqual(client.rest(), OK + bulk("v"))
        self.assertEqual(it.ended().returncode, 0)
        self.assertEqual(self.bytes(), SET)
        again = self.client(self.serve(aof=self.path))
        self.assertEqual(again.asks("GET", "k"), bulk("v"))

    def test_a_shutdown_that_is_none_ends_nothing(self):
        it = self.serve()
        self.assertEqual(self.client(it).asks("SHUTDOWN", "now"), SYNTAX)
        self.goes_on(it)

    def test_redis_cli_asks_and_ends(self):
        needs(self, shutil.which("redis-cli"), "redis-tools")
        it = self.serve()
        asked = subprocess.run(["redis-cli", "-p", str(it.port), "INFO", "replication"], capture_output=True, timeout=LATE)
        self.assertIn(b"role:master\r\n", asked.stdout)
        ended = subprocess.run(["redis-cli", "-p", str(it.port), "SHUTDOWN"], capture_output=True, timeout=LATE)
        self.assertEqual((ended.returncode, ended.stdout, ended.stderr), (0, b"", b""))
        self.assertEqual(it.ended().returncode, 0)


class Stepping(Rehearsing):
    def test_a_node_tells_and_halts(self):
        self.rehearses([
            ("open", "opened"),
            fed(0, SET + request("INFO") + request("ROLE") + request("SHUTDOWN") + PING),
            ("step 0", done(OK, SET)),
            ("step 0", done(bulk(information(27)))),
            ("step 0", done(role_of_master(27))),
            ("step 0", "done h - -"),
            ("shows", "shows %s 27" % ID),
            ("step 0", done(PONG)),
            ("step 0", "idle"),
        ])

    def test_a_replica_tells_and_halts_too(self):
        self.rehearses([
            ("replica", "started"),
            ("open", "opened"),
            fed(0, request("INFO") + request("ROLE") + request("SHUTDOWN")),
            ("step 0", done(bulk(information(0, role="slave")))),
            ("step 0", done(role_of_replica("", 0, "connect", 0))),
            ("step 0", "done h - -"),
            ("shows", "shows %s 0" % ID),
        ])


if __name__ == "__main__":
    unittest.main()
