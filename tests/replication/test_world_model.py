"""The slow, plain model of a world: the description's rows on it, a node that is fed by hand, and random worlds in which no two nodes may differ in silence."""

import pickle
import subprocess
import sys
import unittest
from collections import Counter
from itertools import islice
from unittest import mock

from tests.models.dataset import Given, rebuild
from tests.models.node import CLOSED, IDLE, LIMIT, Append, Close, Grow, Halt, Node, NodeFault, Replace, Send, Used
from tests.models.world import World, answer, answers
from tests.models.world_scripts import Scripter, script, shortened
from tests.models.world_watch import EVENTS_OF_A_WORLD, watched
from tests.support.accept_rows import AcceptRows
from tests.support.handshake import ANSWERS
from tests.support.program import LATE, ROOT, USUAL_BACKLOG, request
from tests.support.replies import OK, QUEUED, array_of, bulk
from tests.support.requests import EXEC, MULTI, PAIR, PING, SET, SET_A, SET_B, framed
from tests.support.world_rows import Rows, info, started

A, B = b"a" * 40, b"b" * 40
FRESH = b"1" * 40
NOW = Given(0, 0)


class WorldRows(Rows, AcceptRows, unittest.TestCase):
    def answers_to(self, script, backlog):
        return [it.decode() for it in answers(script.encode(), backlog)]


class AsAProgram(unittest.TestCase):
    def runs(self, script, *words):
        ran = subprocess.run([sys.executable, "-m", "tests.models.world", *words], cwd=ROOT, input=script, capture_output=True, timeout=LATE)
        return ran.returncode, ran.stdout

    def test_a_script_is_answered(self):
        script = b'start a\n\nclient 0\nsend 0 INFO\ndeliver 0 b 14\nstep 0 b 0 0 1\ndeliver 0 a 1000\ngot 0\nwrong\nshow 0\nshow 0'
        shown = b"0 " + b"a" * 40 + b" 0"
        self.assertEqual(self.runs(script), (0, b"node 0\nlink 0\nok\nok\nok\nrefused 3\n\nbad line\n%s\n" % shown))
        self.assertIn(b"repl_backlog_size:27\\x0d", self.runs(script.replace(b"1000", b"314"), "--backlog", "27")[1])
        for words in (["--backlog"], ["--backlog", "0"], ["--backlog", "1073741825"], ["27"]):
            self.assertEqual(self.runs(script, *words), (1, b""))


class Following(unittest.TestCase):
    """A replica whose master is played by hand, and says what no node says."""

    def setUp(self):
        self.node = Node(B, {}, True, 0, USUAL_BACKLOG)
        self.link = self.dialed()
        self.assertEqual(self.greeted(), request("PSYNC", "?", "-1"))
        self.assertEqual(self.takes(b"+FULLRESYNC %s 27\r\n" % A), [])
        self.assertEqual(self.takes(b"$27\r\n" + SET), [Replace(SET)])
        self.assertEqual(self.node.shows(), (A, 27))

    def dialed(self):
        link, outs = self.node.dial()
        self.assertEqual(outs, [Send(link, request("PING"))])
        return link

    def takes(self, data):
        self.node.feed(self.link, data)
        return self.node.step(self.link, NOW, FRESH)

    def greeted(self):
        """The last line of the handshake."""
        for line in ANSWERS[:3]:
            (told,) = self.takes(line)
        return told.data

    def refuses(self, wanted, *pieces):
        """The last of the pieces is refused, and the next handshake ends with this line; what was shown is shown."""
        held = self.node.held
        for piece in pieces[:-1]:
            self.assertIn(self.takes(piece), ([], IDLE))
        self.assertEqual(self.takes(pieces[-1]), [Close(self.link)])
        self.assertEqual(self.node.step(self.link, NOW, FRESH), CLOSED)
        self.assertEqual((self.node.shows(), self.node.held, self.node.role()), ((A, 27), held, "connect"))
        self.link = self.dialed()
        self.assertEqual(self.greeted(), request("PSYNC", *wanted))

    def again(self):
        """The link has broken, and the handshake stands at its last answer."""
        self.node.close(self.link)
        self.link = self.dialed()
        self.assertEqual(self.greeted(), request("PSYNC", A, "28"))

    def test_an_answer_is_used_in_two_steps(self):
        """The line, and the snapshot once its last byte is there; until then nothing else is shown."""
        self.node = Node(B, {}, True, 0, USUAL_BACKLOG)
        self.link = self.dialed()
        self.greeted()
        whole = b"+FULLRESYNC %s 27\r\n$27\r\n" % A + SET
        self.assertEqual((len(whole), self.node.role()), (89, "sync"))
        self.node.feed(self.link, whole[:88])
        for wanted in ([], IDLE, IDLE):
            self.assertEqual((self.node.step(self.link, NOW, FRESH), self.node.shows()), (wanted, (B, 0)))
        self.assertEqual((self.node.unread(self.link), self.node.room(self.link)), (31, float("inf")))
        self.assertEqual(self.takes(whole[88:]), [Replace(SET)])
        self.assertEqual((self.node.shows(), self.node.role(), self.node.unread(self.link)), ((A, 27), "connected", 0))

    def test_no_effect_in_the_stream(self):
        self.refuses(("?", "-1"), b"*1\r\n$3\r\nFOO\r\n")

    def test_an_effect_that_cant_be_applied(self):
        self.refuses(("?", "-1"), request("LPOP", "k", "1"))

    def test_a_group_is_used_at_once(self):
        for at in range(82):
            self.assertEqual((self.takes(PAIR[at : at + 1]), self.node.shows(), rebuild(self.node.held)), (IDLE, (A, 27), SET))
        self.assertEqual(self.takes(PAIR[82:] + PING), [Append(PAIR)])
        self.assertEqual((self.node.shows(), rebuild(self.node.held), self.node.ring), ((A, 110), SET_A + SET_B + SET, PAIR))
        self.assertEqual((self.node.step(self.link, NOW, FRESH), self.node.shows()), ([], (A, 124)))

    def test_no_group_in_the_stream(self):
        for data in (EXEC, framed(), framed(SET), MULTI + PING, MULTI + SET + PING, MULTI + MULTI, MULTI + request("GET", "k"), MULTI + b"x", framed(request("LPOP", "k", "1"), SET)):
            self.setUp()
            self.refuses(("?", "-1"), data)

    def test_a_group_that_cant_be_applied_as_a_whole(self):
        self.assertEqual(self.takes(framed(SET_A, request("LPOP", "k", "1"))[:-1]), IDLE)
        with self.assertRaisesRegex(NodeFault, "stopped"):
            self.takes(EXEC[-1:])
        self.assertIsNone(self.node.shows())

    def test_a_group_at_the_limit(self):
        self.node.limit = 110
        self.assertEqual((self.takes(PAIR), self.node.shows()), ([Append(PAIR)], (A, 110)))
        self.setUp()
        self.node.limit = 109
        self.refuses(("?", "-1"), PAIR)

    def test_a_short_id(self):
        self.again()
        self.refuses((A, "28"), b"+CONTINUE " + 39 * b"b" + b"\r\n")

    def test_a_snapshot_that_is_none(self):
        self.again()
        self.refuses(("?", "-1"), b"+FULLRESYNC %s 5\r\n" % B, b"$3\r\nabc")

    def test_bytes_that_no_command_begins_with(self):
        for data in (b"x", b"*0", b"*-1", b"*01", b"*1\r\n$3\r\nGETx", b"+OK\r\n", b"\r\n"):
            self.setUp()
            self.refuses(("?", "-1"), data)

    def test_lines_that_are_no_answer(self):
        lines = (b"+OK\r\n", b"$3\r\n", b"-ERR replicas are not chained\r\n", b"+CONTINUE %s \r\n" % A, b"+CONTINUE  %s\r\n" % A, b"+continue %s\r\n" % A, b"+\n", b"x", b"+x\rx")
        lines += (b"+CONTINUE %s\r\n" % (b"A" * 40), b"+FULLRESYNC %s\r\n" % A, b"+FULLRESYNC %s -1\r\n" % A, b"+FULLRESYNC %s 01\r\n" % A, b"+FULLRESYNC %s %d\r\n" % (A, 2**62 + 1))
        for line in (*lines, b"+" + 1024 * b"x"):
            self.setUp()
            self.again()
            self.refuses((A, "28"), line)

    def test_the_longest_line(self):
        self.again()
        self.assertEqual(self.takes(b"+" + 1023 * b"x"), IDLE)
        self.assertEqual(self.takes(b"\r\n"), [Close(self.link)])

    def test_lines_in_the_place_of_a_snapshots(self):
        for line in (b"+OK\r\n", b"-ERR no\r\n", b"$-1\r\n", b"$01\r\n", b"$%d\r\n" % (2**62 + 1), b"*1"):
            self.setUp()
            self.again()
            self.refuses((A, "28"), b"+FULLRESYNC %s 5\r\n" % B, line)

    def test_a_snapshot_that_ends_inside_of_an_effect(self):
        self.again()
        self.refuses(("?", "-1"), b"+FULLRESYNC %s 5\r\n" % B, b"$26\r\n" + SET[:25], SET[25:])

    def test_nothing_goes_on_without_an_offer(self):
        self.node = Node(B, {}, True, 0, USUAL_BACKLOG)
        self.link = self.dialed()
        self.greeted()
        self.assertEqual(self.takes(b"+CONTINUE %s\r\n" % B), [Close(self.link)])
        self.assertEqual(self.node.shows(), (B, 0))

    def test_another_id_goes_on(self):
        self.again()
        self.assertEqual(self.takes(b"+CONTINUE %s\r\n" % B), [])
        self.assertEqual((self.node.shows(), self.node.second, self.node.second_offset), ((B, 27), A, 28))
        self.assertEqual(self.takes(request("PING")), [])
        self.assertEqual(self.takes(request("DEL", "k")), [Append(request("DEL", "k"))])
        self.assertEqual((self.node.shows(), self.node.first()), ((B, 61), 28))

    def test_an_effect_past_the_offsets_limit(self):
        self.node.limit = 27 + 53
        self.assertEqual(self.takes(SET), [Append(SET)])
        self.assertEqual(self.takes(request("PING")), [])
        self.assertEqual(self.takes(request("PING")), [Close(self.link)])
        self.assertEqual(self.node.shows(), (A, 68))


class Serving(unittest.TestCase):
    """A master's calls, and what they give out."""

    def setUp(self):
        self.node = Node(A, {}, False, 0, USUAL_BACKLOG)
        self.link = self.node.open()

    def asks(self, link, *words, given=NOW):
        self.node.feed(link, request(*words))
        return self.node.step(link, given, FRESH)

    def replica(self):
        link = self.node.open()
        self.assertEqual(len(self.asks(link, "PSYNC", "?", "-1")), 1)
        return link

    def test_what_is_given_out_stands_in_order(self):
        first, second = self.replica(), self.replica()
        wanted = [Grow([[(b"SET", b"k", b"v")]]), Append(SET), Send(first, SET), Send(second, SET), Send(self.link, OK)]
        self.assertEqual(self.asks(self.link, "SET", "k", "v"), wanted)
        self.assertEqual(self.asks(self.link, "BGREWRITEAOF")[0], Replace(SET))
        self.assertEqual(self.asks(self.link, "SHUTDOWN"), [Halt()])
        ends = self.asks(self.link, "REPLICAOF", "h", "1")
        self.assertEqual(ends[:3], [Send(self.link, OK), Close(first), Close(second)])
        self.assertTrue(self.node.waits())
        self.assertEqual(self.asks(self.link, "REPLICAOF", "no", "one"), [Send(self.link, OK), Used(FRESH)])

    def test_what_a_transaction_gives_out(self):
        """Nothing but answers until its end, and then one group."""
        replica = self.replica()
        for words, told in (("MULTI",), OK), (("SET", "a", "1"), QUEUED), (("GET", "a"), QUEUED), (("SET", "b", "2"), QUEUED):
            self.assertEqual(self.asks(self.link, *words), [Send(self.link, told)])
        wanted = [Grow([[(b"SET", b"a", b"1"), (b"SET", b"b", b"2")]]), Append(PAIR), Send(replica, PAIR), Send(self.link, array_of(OK, bulk("1"), OK))]
        self.assertEqual(self.asks(self.link, "EXEC"), wanted)
        self.assertEqual((self.node.offset, self.node.ring), (83, PAIR))

    def test_a_group_at_the_offsets_limit(self):
        """What doesn't fit with its frame does nothing, and the others are done."""
        for room, told, size in ((83, [OK, OK], 83), (82, [OK, LIMIT], 27), (26, [LIMIT, LIMIT], 0)):
            self.setUp()
            self.node.limit = room
            for words in (("MULTI",), ("SET", "a", "1"), ("SET", "b", "2")):
                self.asks(self.link, *words)
            self.assertEqual(self.asks(self.link, "EXEC")[-1], Send(self.link, array_of(*told)))
            self.assertEqual(self.node.offset, size)

    def test_what_is_told_of_replication(self):
        self.asks(self.link, "SET", "k", "v")
        self.assertEqual(bulk(self.node.info()), info("master", "a", 27, 1))
        self.assertEqual(len(self.node.info()), 316)

    def test_a_replicas_end_takes_acknowledgements_alone(self):
        for data in (request("PING"), request("REPLCONF", "capa", "eof"), request("REPLCONF", "ACK", "x"), b"*x", request("PSYNC", "?", "-1")):
            link = self.replica()
            self.node.feed(link, b"\r\n*0\r\n" + request("replconf", "ack", "5"))
            self.assertEqual([self.node.step(link, NOW, FRESH) for _ in range(4)], [[], [], [], IDLE])
            self.node.feed(link, data)
            self.assertEqual(self.node.step(link, NOW, FRESH), [Close(link)])
            self.assertEqual((self.node.step(link, NOW, FRESH), self.node.unread(link)), (CLOSED, 0))

    def test_the_offsets_limit(self):
        """A command whose effects would pass it does nothing, the deletion of a past key with it."""
        limit = b"-ERR offset limit\r\n"
        for key in ("k", "l"):
            self.asks(self.link, "SET", key, "1", "PX", "5")
        before = self.node.held
        for lines, room in ((["DEL k l", "DEL k l"], 39), (["SET k w", "GET k"], 19), (["SET k w"], 46)):
            self.node.limit = 88 + room
            for line in lines:
                self.assertEqual(self.asks(self.link, *line.split(), given=Given(5)), [Send(self.link, limit)])
        self.assertEqual((self.node.held, self.node.offset), (before, 88))
        self.assertEqual(self.asks(self.link, "GET", "k", given=Given(5))[0], Grow([[(b"DEL", b"k")]]))

    def test_a_tick_ends_at_the_offsets_limit(self):
        for key in ("k", "l"):
            self.asks(self.link, "SET", key, "1", "PX", "5")
        self.replica()
        self.node.limit = 88 + 39
        self.assertEqual(self.node.tick(Given(5))[0], Grow([[(b"DEL", b"k")]]))
        self.assertEqual((self.node.offset, self.node.mark), (108, None))

    def test_a_heartbeat_that_doesnt_fit(self):
        self.replica()
        self.node.tick(Given(0))
        self.node.limit = 13
        self.assertEqual((self.node.tick(Given(10_000)), self.node.mark), ([], 10_000))

    def test_a_clock_that_goes_back(self):
        self.replica()
        for now, offset in ((50_000, 0), (40_000, 0), (49_999, 0), (50_000, 14)):
            self.node.tick(Given(now))
            self.assertEqual(self.node.offset, offset)

    def test_a_stopped_node(self):
        self.node.file_failed()
        for call in (self.node.open, self.node.info, lambda: self.node.tick(NOW), lambda: self.node.feed(self.link, b""), lambda: self.node.step(self.link, NOW, FRESH)):
            with self.assertRaisesRegex(NodeFault, "stopped"):
                call()
        self.assertEqual((self.node.shows(), self.node.room(self.link), self.node.role()), (None, None, "master"))


class Refusals(unittest.TestCase):
    def test_a_refused_event_changes_nothing(self):
        refused = Counter()
        for seed in range(8):
            scripter = Scripter(seed)
            for line in islice(scripter.lines(), 500):
                before = pickle.dumps(scripter.world)
                told = answer(scripter.world, line) or b"nothing"
                if told.startswith((b"refused", b"bad", b"nothing")):
                    refused[told] += 1
                    self.assertEqual(pickle.dumps(scripter.world), before, line)
        self.assertEqual(set(refused), {b"refused 1", b"refused 2", b"refused 3", b"bad line", b"nothing"})

    def test_input_that_is_full(self):
        """No more than a request's longest text is taken of a client, and the reasons before this one come first."""
        self.addCleanup(mock.patch.stopall)
        # a gigabyte of the model's bytes would take seconds
        mock.patch("tests.models.node.MOST_OF_A_TEXT", 1000).start()
        world = World()
        for line in (b"start a", b"client 0"):
            answer(world, line)
        world.command(0, b"*" * 1001)
        told = [answer(world, line) for line in (b"deliver 0 b 1001", b"deliver 0 b 1002", b"deliver 0 b 1000", b"deliver 0 b 1")]
        self.assertEqual(told, [b"refused 5", b"refused 3", b"ok", b"refused 5"])
        self.assertEqual([answer(world, line) for line in (b"step 0 b 0 0 1", b"deliver 0 b 1")], [b"ok", b"refused 2"])
        self.assertEqual(world.took(0, 0), b"")
        self.assertTrue(world.links[0][1].sent.startswith(b"-ERR Protocol error: invalid multibulk length"))

    def test_a_stopped_node_takes_nothing(self):
        world = World()
        for line in (b"start a", b"replica b", b"client 0", b"send 0 SET k v", b"deliver 0 b 27", b"dial 1 0"):
            answer(world, line)
        world.node(0).file_failed()
        before = pickle.dumps(world)
        for line in (b"step 0 b 0 0 1", b"tick 0 5", b"break 0 b", b"client 0", b"deliver 1 b 14", b"step 1 b 0 0 1"):
            self.assertEqual((line, answer(world, line)), (line, b"ok"))
        self.assertEqual(pickle.dumps(world), before)
        self.assertEqual(answer(world, b"show 0"), b"0 stopped")
        # nobody comes to it, and a stopped node that doesn't wait doesn't dial
        for line, wanted in ((b"break 1 a", b"ok"), (b"dial 1 0", b"ok"), (b"dial 0 1", b"refused 2"), (b"client 0", b"ok"), (b"got 1", b"refused 2")):
            self.assertEqual((line, answer(world, line)), (line, wanted))
        self.assertEqual((answer(world, b"restart 0 27 c"), answer(world, b"show 0"), answer(world, b"client 0")), (b"ok", b"0 " + b"c" * 40 + b" 0", b"link 2"))


    def test_a_stopped_node_neither_connects_nor_accepts(self):
        """The link waits on, and is accepted once the node has begun anew."""
        world = World()
        for line in (b"start a", b"replica b", b"replica c", b"connect 1"):
            answer(world, line)
        for node in (0, 2):
            world.node(node).file_failed()
        before = pickle.dumps(world)
        for line in (b"accept 0 0", b"accept 0 2", b"connect 2"):
            self.assertEqual((line, answer(world, line)), (line, b"ok"))
        self.assertEqual(pickle.dumps(world), before)
        for line, wanted in ((b"connect 0", b"refused 2"), (b"restart 0 0 d", b"ok"), (b"accept 0 0", b"ok"), (b"deliver 0 b 14", b"ok"), (b"accept 0 2", b"refused 2")):
            self.assertEqual((line, answer(world, line)), (line, wanted))


class Files(unittest.TestCase):
    def test_any_bytes_are_loaded(self):
        world = World()
        world.start(A, False)
        rows = [(SET + b"*3\r\n$3\r\nSE", 27), (b"x", 0), (SET + request("LPOP", "k", "1") + SET, 27), (SET + request("FOO"), 27), (request("PING"), 14)]
        rows += [(SET + PAIR[:82], 27), (SET + framed(SET_A, request("LPOP", "k", "1")) + SET, 27), (SET + framed(SET_A) + SET, 27), (framed(SET, request("DEL", "a")) + PAIR[:15], 76)]
        for place, (kept, used) in enumerate(rows):
            world.restart(0, kept, b"%040x" % (place + 1))
            self.assertEqual((world.file(0), rebuild(world.node(0).held)), (kept[:used], SET if used >= 27 else b""))

    def test_a_file_is_written_anew(self):
        world = World()
        for line in (b"start a", b"client 0", b"send 0 SET k v", b"send 0 SET k w", b"send 0 BGREWRITEAOF", b"deliver 0 b %d" % (54 + len(request("BGREWRITEAOF")))):
            answer(world, line)
        for size in (27, 54, 27):
            self.assertEqual((answer(world, b"step 0 b 0 0 1"), len(world.file(0))), (b"ok", size))
        self.assertEqual((world.file(0), world.node(0).offset), (request("SET", "k", "w"), 54))


class RandomWorlds(unittest.TestCase):
    def test_no_two_nodes_differ_in_silence(self):
        seen = watched(0, EVENTS_OF_A_WORLD)
        for seed in range(1, 10):
            seen += watched(seed, EVENTS_OF_A_WORLD)
        for what, least in (("caught up", 1000), ("branches", 20), ("larger groups", 50), ("refused 1", 20), ("refused 2", 20), ("refused 3", 5), ("connect", 50), ("accept", 50), ("restart", 10), ("corrupted file", 20)):
            self.assertGreater(seen[what], least, what)

    def test_a_seed_has_its_script(self):
        first = script(7, 300)
        self.assertEqual(first, script(7, 300))
        self.assertNotEqual(first, script(8, 300))
        self.assertEqual(first.script.count(b"\n"), 300)
        self.assertEqual(answers(first.script, first.backlog), first.answers)

    def test_a_script_is_shortened(self):
        """To what it takes of it to have a node show an id and offset."""
        lines = [line.encode() for line, _ in started().rows] + script(4, 400).script.split(b"\n")[:-1]
        wanted = b"0 " + b"a" * 40 + b" 27"

        def shows(rest):
            return wanted in answers(b"".join(line + b"\n" for line in [*rest, b"show 0"]))

        self.assertEqual(shortened(lines, shows), [b"start a", b"client 0", b"send 0 SET k v", b"deliver 0 b 27", b"step 0 b 0 0 1"])
