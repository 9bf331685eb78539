"""Three servers that make turns of the event loop, joined by a network in memory: a course by hand, and random schedules beside the plain model.

    SYSTEM_EVENTS=8000000 python3 -m unittest tests.replication.test_systems
    python3 -m tests.replication.test_systems EVENTS SEED

play schedules of so many events; the second one from this seed on, and it tells what there was. After each event the servers that may have changed are shown: whoever showed
one id and offset showed one dataset, and each answer is the model's. A schedule that differs is made as short as it can be."""

import os
import sys
import unittest
from collections import Counter

from tests.models.system import hexadecimal
from tests.models.system_scripts import schedule
from tests.support.program import IS_UNPROVED, request
from tests.support.systems import Shown, difference, played, shortest

EVENTS = int(os.environ.get("SYSTEM_EVENTS", "50000" if IS_UNPROVED else "1000000"))
EVENTS_OF_A_SCHEDULE = 2_000

# what is sent in the course, as digits. Each text of an effect has a length that the offsets below are made of: 27 and 30
SET, INCR, GET = (hexadecimal(request(*it.split(" "))) for it in ("SET k v", "INCR n", "GET n"))
INCRBY, SET_N = (hexadecimal(request(*it.split(" "))) for it in ("INCRBY n 1", "SET n 1"))
FOLLOW, NO_ONE = (hexadecimal(request(*it.split(" "))) for it in ("REPLICAOF 127.0.0.1 7000", "REPLICAOF NO ONE"))
PING, PONG, OK, ONE = hexadecimal(request("PING")), hexadecimal(b"+PONG\r\n"), hexadecimal(b"+OK\r\n"), hexadecimal(b":1\r\n")
PORT, CAPABILITIES = (hexadecimal(request("REPLCONF", *it.split(" "))) for it in ("listening-port 7001", "capa eof capa psync2"))
# the ids of the two nodes as they start, the one that the promoted node takes in its fourteenth turn, and that of the master which comes back
FIRST, SECOND, THIRD, FOURTH = ("%040x" % number for number in (1, 100, 114, 1000))
# a copy is asked for with `?`, and behind 27 bytes the stream from the next one on
ASKS_ANEW, ASKS_ON = (hexadecimal(request("PSYNC", *it)) for it in (("?", "-1"), (FIRST, "28")))
COPY = hexadecimal(b"+FULLRESYNC %s 27\r\n$27\r\n" % FIRST.encode()) + SET
CONTINUE = hexadecimal(b"+CONTINUE %s\r\n" % FIRST.encode()) + INCRBY


def length(digits):
    return len(digits) // 2


def handshake(number, asks, answer):
    """A replica comes to its master on the connection with this number, which that has accepted: line by line, up to the answer to PSYNC, which is on its way then."""
    rows = []
    for said, told, next_said in ((PING, PONG, PORT), (PORT, OK, CAPABILITIES), (CAPABILITIES, OK, asks), (asks, answer, None)):
        rows += [("deliver %d other 10000" % number, "delivered %d" % length(said)), ("turn 0", "turned 1 1 0;wrote %d other %s" % (number, told))]
        if next_said:
            rows += [("deliver %d opener 10000" % number, "delivered %d" % length(told)), ("turn 1", "turned 1 1 0;wrote %d opener %s" % (number, next_said))]
    return rows


COURSE = [
    # a master, and a client whose request waits until the connection is accepted
    ("start 0 master 1 1000 always 1000", "started"),
    ("client 0", "connection 0"),
    ("send 0 " + SET, "sent"),
    ("deliver 0 other 27", "none"),
    ("turn 0", "turned 0 0 0"),
    ("accept 0", "accepted"),
    ("turn 0", "turned 0 0 0;accepted 0"),
    ("deliver 0 other 10", "delivered 10"),
    ("turn 0", "turned 1 0 0"),
    ("show 0", f"master {FIRST} 0 - 0 0"),
    ("deliver 0 other 27", "delivered 17"),
    ("turn 0", f"turned 1 1 0;wrote 0 other {OK}"),
    ("show 0", f"master {FIRST} 27 {SET} 27 27"),
    ("deliver 0 opener 3", "delivered 2b4f4b"),
    ("deliver 0 opener 3", "delivered 0d0a"),
    ("deliver 0 opener 3", "none"),
    # a second server is told to follow it, and dials at once
    ("start 1 replica 100 1000 no 1000", "started"),
    ("client 1", "connection 1"),
    ("accept 1", "accepted"),
    ("turn 1", "turned 0 0 0;accepted 1"),
    ("show 1", f"connect {SECOND} 0 - 0 0"),
    ("send 1 " + FOLLOW, "sent"),
    ("deliver 1 other 1000", "delivered %d" % length(FOLLOW)),
    ("turn 1", f"turned 1 1 0;dialled 2 127.0.0.1:7000;wrote 1 other {OK};wrote 2 opener {PING}"),
    ("show 1", f"sync {SECOND} 0 - 0 0"),
    # the dial waits for a late accept, and a copy comes in two pieces
    ("turn 0", "turned 0 0 0"),
    ("turn 1", "turned 0 0 0"),
    ("accept 2", "accepted"),
    ("accept 2", "none"),
    ("turn 0", "turned 0 0 0;accepted 2"),
    *handshake(2, ASKS_ANEW, COPY),
    ("deliver 2 opener 60", "delivered 60"),
    ("turn 1", "turned 2 1 0"),
    ("show 1", f"sync {SECOND} 0 - 0 0"),
    ("deliver 2 opener 1000", "delivered %d" % (length(COPY) - 60)),
    ("turn 1", "turned 1 1 0"),
    ("show 1", f"connected {FIRST} 27 {SET} 27 27"),
    # half of what is written then is delivered before the connection breaks: the replica dials again, and goes on where it was
    ("send 0 " + INCR, "sent"),
    ("deliver 0 other 1000", "delivered %d" % length(INCR)),
    ("turn 0", f"turned 1 1 0;wrote 2 other {INCRBY};wrote 0 other {ONE}"),
    ("show 0", f"master {FIRST} 57 {SET}{SET_N} 57 57"),
    ("deliver 2 opener 15", "delivered 15"),
    ("cut 2", "cut"),
    ("deliver 2 opener 15", "none"),
    ("turn 1", f"turned 1 0 0;dialled 3 127.0.0.1:7000;wrote 3 opener {PING};closed 2 opener"),
    ("show 1", f"sync {FIRST} 27 {SET} 27 27"),
    ("accept 3", "accepted"),
    ("turn 0", "turned 0 0 0;accepted 3;closed 2 other"),
    *handshake(3, ASKS_ON, CONTINUE),
    ("deliver 3 opener 1000", "delivered %d" % length(CONTINUE)),
    ("turn 1", "turned 2 2 0"),
    ("show 1", f"connected {FIRST} 57 {SET}{SET_N} 57 27"),
    # it is promoted, and both go on by themselves
    ("send 1 " + NO_ONE, "sent"),
    ("deliver 1 other 1000", "delivered %d" % length(NO_ONE)),
    ("turn 1", f"turned 1 1 1;wrote 1 other {OK};closed 3 opener"),
    ("show 1", f"master {THIRD} 57 {SET}{SET_N} 57 27"),
    ("send 1 " + SET, "sent"),
    ("send 0 " + INCR, "sent"),
    ("deliver 3 other 1000", "ended"),
    ("turn 0", "turned 0 0 0;closed 3 other"),
    # the promoted server is killed as nothing was synced since the copy, and the old one with all synced; each begins with what its file keeps
    ("kill 1 15", "killed 42"),
    ("deliver 1 opener 1000", "delivered " + OK + OK),
    ("deliver 1 opener 1000", "ended"),
    ("turn 1", "down"),
    ("kill 0 0", "killed 57"),
    ("start 0 master 1000 1000 always 1000", "started"),
    ("show 0", f"master {FOURTH} 0 {SET}{SET_N} 57 0"),
    ("start 1 master 200 1000 always 1000", "started"),
    ("show 1", f"master {200:040x} 0 {SET} 27 0"),
]


class Course(unittest.TestCase):
    def test_a_course_by_hand(self):
        lines, answers = zip(*COURSE)
        for row, found in zip(COURSE, played(lines)):
            self.assertEqual((row[0], found), row)

    def test_it_is_what_the_program_is_run_on(self):
        for name, column in (("stdin", 0), ("stdout", 1)):
            with open(os.path.join("crates", "rehearse_systems", name), encoding="utf-8") as text:
                self.assertEqual(text.read().splitlines(), [row[column] for row in COURSE], name)


def plays(events, seed):
    """Plays schedules of so many events from this seed on, and counts what there was."""
    counts = Counter()
    while counts["events"] < events:
        lines, answers = schedule(seed + counts["schedules"], min(events, EVENTS_OF_A_SCHEDULE))
        found, shown = played(lines), Shown()
        differs = shown.look(lines, found) or difference(lines, found, answers)
        if differs:
            raise AssertionError("seed %d: %s\n%s" % (seed + counts["schedules"], differs, "\n".join(shortest(lines))))
        counts["schedules"] += 1
        counts["shared"] += shown.shared()
        counts.update(kinds(lines, answers))
    return counts


# what a server wrote that is looked for
TOLD = {"copy": b"+FULLRESYNC ", "continued": b"+CONTINUE ", "chained": b"-ERR replicas are not chained"}


def kinds(lines, answers):
    """How often there was what."""
    counts = Counter()
    for line, answer in zip(lines, answers):
        name, first = line.split(" ")[0], answer.split(" ")[0]
        counts["shows" if name == "show" else "events"] += 1
        counts[name + " " + first] += 1
        if name == "turn":
            counts["taken ids"] += answer.partition(";")[0].endswith(" 1")
            counts["dials"] += ";dialled" in answer
            for kind, text in TOLD.items():
                counts[kind] += answer.count(hexadecimal(text))
    return counts


class Schedules(unittest.TestCase):
    def test_servers_that_show_one_id_and_offset_never_differ(self):
        counts = plays(EVENTS, 0)
        for what in ("shared", "copy", "continued", "chained", "taken ids", "dials", "cut cut", "kill killed", "deliver ended", "turn halted", "show connected"):
            self.assertGreater(counts[what], 0, what)


if __name__ == "__main__":
    print(dict(plays(int(sys.argv[1]), int(sys.argv[2])).most_common()))
