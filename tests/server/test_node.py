"""A node's calls: links side by side, their closing, their room, and the limits of its backlog."""

import subprocess
import unittest

from tests.support.program import LATE, built, request
from tests.support.rehearsal import ID, Rehearsing, done, fed, holding
from tests.support.replies import NIL, NONE, OK, PONG, READONLY, STARTED, UNKNOWN, arity, array, bulk, no_dollar, number
from tests.support.requests import GET, SET

# so many unread bytes a client's link may have
ROOM = 1_073_741_824


class Links(Rehearsing):
    def test_a_client_is_answered(self):
        self.rehearses([
            ("shows", "shows %s 0" % ID),
            ("open", "opened"),
            fed(0, SET[:20]),
            ("step 0", "idle"),
            fed(0, SET[20:]),
            fed(0, GET),
            ("step 0", done(OK, SET)),
            ("shows", "shows %s 27" % ID),
            ("step 0", done(bulk("v"))),
            ("step 0", "idle"),
        ])

    def test_each_cut_gives_the_same_answers(self):
        for cut in range(len(SET + GET)):
            self.rehearses([
                ("open", "opened"),
                fed(0, (SET + GET)[:cut]),
                ("step 0", None),
                ("step 0", None),
                fed(0, (SET + GET)[cut:]),
                ("step 0", None),
                ("step 0", None),
                ("step 0", "idle"),
                ("shows", "shows %s 27" % ID),
            ])

    def test_a_fault_closes_one_link(self):
        fault = no_dollar(":")
        self.rehearses([
            ("open", "opened"),
            ("open", "opened"),
            fed(0, b"*1\r\n:3\r\n"),
            fed(1, GET),
            ("step 0", done(fault, closes=True)),
            fed(0, GET),
            ("step 0", "closed"),
            ("step 1", done(NIL)),
        ])

    def test_quit_closes_its_link(self):
        self.rehearses([
            ("open", "opened"),
            fed(0, b"QUIT\r\nPING\r\n"),
            ("step 0", done(OK, closes=True)),
            ("step 0", "closed"),
        ])

    def test_a_closed_link_is_gone(self):
        self.rehearses([
            ("open", "opened"),
            ("open", "opened"),
            ("close 0", "closed"),
            ("room 0", "gone"),
            fed(0, GET, "refused: no such link"),
            ("step 0", "refused: no such link"),
            ("open", "opened"),
            ("room 0", "gone"),
            ("room 2", "room %d" % ROOM),
            fed(1, GET),
            ("step 1", done(NIL)),
        ])

    def test_a_node_stops_where_its_file_failed(self):
        self.rehearses([
            ("open", "opened"),
            fed(0, SET),
            ("file_failed", "stopped"),
            ("shows", "nothing"),
            ("room 0", "gone"),
            ("step 0", "refused: stopped"),
            fed(0, GET, "refused: stopped"),
            ("open", "refused: stopped"),
            ("tick", "refused: stopped"),
            ("file_failed", "stopped"),
            ("step 0", "refused: stopped"),
        ])

    def test_a_file_is_written_anew_in_one_step(self):
        self.rehearses([
            ("open", "opened"),
            fed(0, request("BGREWRITEAOF")),
            ("step 0", "done rs %s - -" % STARTED.hex()),
            fed(0, SET + request("SET", "k", "w") + request("bgrewriteaof")),
            ("step 0", done(OK, SET)),
            ("step 0", done(OK, request("SET", "k", "w"))),
            ("step 0", "done rs %s - %s" % (STARTED.hex(), request("SET", "k", "w").hex())),
            ("shows", "shows %s 54" % ID),
            fed(0, request("BGREWRITEAOF", "now")),
            ("step 0", done(arity("bgrewriteaof"))),
        ])

    def test_a_link_takes_no_more_than_its_room(self):
        self.rehearses([
            ("open", "opened"),
            ("room 0", "room %d" % ROOM),
            fed(0, b"*2"),
            ("room 0", "room %d" % (ROOM - 2)),
        ])

    def test_a_backlog_has_its_limits(self):
        for backlog, answer in [(1, "started"), (1_073_741_824, "started"), (0, "refused"), (1_073_741_825, "refused")]:
            ran = subprocess.run([built("rehearse")], input="start %d\n" % backlog, capture_output=True, text=True, timeout=LATE)
            self.assertEqual((ran.returncode, ran.stdout), (0, answer + "\n"))


class Replicas(Rehearsing):
    def answers(self, *rows):
        """Each line on a replica that holds a text, a list and a set: it has no effect, and the offset stays."""
        calls = [*holding("SET k v", "RPUSH l a b", "SADD s a b"), ("replica", "started"), ("open", "opened")]
        for line, reply in rows:
            calls += [fed(0, request(*line.split(" "))), ("step 0", done(reply)), ("shows", "shows %s 0" % ID)]
        self.rehearses(calls)

    def test_writes_are_refused(self):
        self.answers(
            ("SET k w", READONLY),
            ("GET k", bulk("v")),
            ("DEL k", READONLY),
            ("LPOP l", READONLY),
            ("LRANGE l 0 -1", array("a", "b")),
            ("SPOP s", READONLY),
            ("SRANDMEMBER s", bulk("a")),
            ("SCARD s", number(2)),
            ("FLUSHALL", READONLY),
            ("FLUSHDB SYNC", READONLY),
            ("DBSIZE", number(3)),
        )

    def test_a_write_that_would_change_nothing_is_refused_too(self):
        self.answers(("SET k v", READONLY), ("DEL x", READONLY), ("GETDEL x", READONLY), ("PERSIST k", READONLY), ("LTRIM l 0 -1", READONLY))

    def test_a_write_on_a_key_of_another_kind_is_refused_as_a_write(self):
        self.answers(("INCR l", READONLY), ("HGET l f", b"-WRONGTYPE Operation against a key holding the wrong kind of value\r\n"))

    def test_what_is_no_command_is_told_why(self):
        self.answers(("SET k", arity("set")), ("GETEX k", UNKNOWN), ("INCRBY k x", b"-ERR value is not an integer or out of range\r\n"))

    def test_the_server_answers(self):
        self.answers(("PING", PONG), ("ECHO m", bulk("m")), ("SELECT 0", OK), ("COMMAND", NONE))

    def test_its_file_is_written_anew(self):
        """Expired keys included."""
        effects = ["SET k v", "PEXPIREAT k 5", "RPUSH l a b"]
        texts = b"".join(request(*it.split(" ")) for it in effects)
        self.rehearses([
            *holding(*effects),
            ("replica", "started"),
            ("given 9 0", "given"),
            ("open", "opened"),
            fed(0, request("BGREWRITEAOF")),
            ("step 0", "done rs %s - %s" % (STARTED.hex(), texts.hex())),
            ("shows", "shows %s 0" % ID),
        ])

    def test_what_ends_a_link_and_empty_requests_are_as_on_a_master(self):
        self.rehearses([
            ("replica", "started"),
            ("open", "opened"),
            fed(0, b"*0\r\nQUIT\r\n"),
            ("step 0", done(b"")),
            ("step 0", done(OK, closes=True)),
            ("step 0", "closed"),
            ("open", "opened"),
            fed(1, b"*1\r\n:3\r\n"),
            ("step 1", done(no_dollar(":"), closes=True)),
        ])


if __name__ == "__main__":
    unittest.main()
