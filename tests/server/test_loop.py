"""The event loop over a wire, a file and a source in memory: bad requests, deaf clients, files and wires of which each call fails in turn, and time, as the built
`rehearse_turns` plays them."""

import unittest

from tests.support.handshake import GREETED, GREETS, NOTHING_TO_CONTINUE, announces, asks_from, continues
from tests.support.program import request
from tests.support.replies import BULK_LENGTH, CHAINED, COUNT, NIL, OK, PONG, QUEUED, QUOTES, READONLY, STARTED, array, array_of, bulk, no_dollar, number
from tests.support.requests import EXEC, GET, LEAD, MULTI, PAIR, PING, SET, SET_A, SET_B, SET_W, SET_X, framed
from tests.support.server import UNREAD
from tests.support.turns import ADDRESS, ALL, ENDS, FAILED, FAILS, NOT_READY, OBEY, Followed, Peer, Playing, counts, followed, peer

# beginnings of requests whose last byte no request has there, and the refusal
DOOMED = [
    (b"*-2", COUNT),
    (b"*01", COUNT),
    (b"*1\rx", COUNT),
    (b"*1\r\n$01", BULK_LENGTH),
    (b"*1\r\n$x", BULK_LENGTH),
    (b"*1\r\n\x01", no_dollar("?")),
    (b'"a"b', QUOTES),
    (b'"a\n', QUOTES),
    (b'"' + 65_535 * b"x", QUOTES),
    (b"*1\r\n$536870913", BULK_LENGTH),
    (b"*1048577", COUNT),
]
# a large value: four replies of it are as much as a client may leave unread
LARGE = 16_777_216
# how many turns it takes to read such a value
LONG = 6
OFFERS = asks_from("b", 1)


class BadRequests(Playing):
    def test_they_are_refused_at_the_byte_that_dooms_them(self):
        for doomed, refusal in DOOMED:
            with self.subTest(doomed=doomed[:20]):
                before = [doomed[:-1]] if len(doomed) > 100 else [doomed[at : at + 1] for at in range(len(doomed) - 1)]
                turns, loop = self.plays(len(before) + 1, accepts=[peer(*before, doomed[-1:] + PING), peer(*[None] * len(before), PING)])
                for it in turns[:-1]:
                    self.assertEqual(it.links.accepted[0].written, b"")
                    self.assertEqual(it.links.accepted[0].state, "open")
                bad, other = turns[-1].links.accepted
                # what stands behind is read, but not answered
                self.assertEqual((bad.state, bad.written), ("closed", refusal))
                self.assertEqual((other.state, other.written), ("open", PONG))
                self.shown(turns[-1], "a", 0)
                self.assertEqual(loop.file().held, b"")

    def test_who_was_refused_is_closed_once_the_refusal_is_written(self):
        turns, _ = self.plays(3, accepts=[peer(b"*-2", takes=[1, NOT_READY, ALL])])
        self.assertEqual([(it.links.accepted[0].state, it.links.accepted[0].written) for it in turns], [
            ("open", COUNT[:1]),
            ("open", COUNT[:1]),
            ("closed", COUNT),
        ])


class Deaf(Playing):
    """A client sets the greatest value and asks for it five times."""

    def left(self, size, takes):
        """How many of its steps used something, whether it was given up, and its link, where it takes so much."""
        turns, _ = self.plays(LONG, accepts=[peer(request("SET", "k", size * b"x"), 5 * GET, takes=takes)])
        done, _, deaf = counts(turns)
        return done, deaf, turns[-1].links.accepted[0]

    def test_who_reads_nothing_is_closed_in_place_of_a_step(self):
        # a reply to SET, and four to GET
        self.assertEqual(5 + 4 * len(bulk(LARGE * b"x")), UNREAD + 57)
        done, deaf, link = self.left(LARGE, takes=[])
        self.assertEqual((done, deaf, link.state, link.written), (5, 1, "closed", b""))

    def test_who_takes_one_byte_too_few_is_closed_too(self):
        done, deaf, link = self.left(LARGE, takes=[NOT_READY, 56])
        self.assertEqual((done, deaf, link.state, len(link.written)), (5, 1, "closed", 56))

    def test_who_takes_just_as_much_goes_on(self):
        done, deaf, link = self.left(LARGE, takes=[NOT_READY, 57])
        self.assertEqual((done, deaf, link.state, len(link.written)), (6, 0, "open", 57))

    def test_who_left_a_little_less_goes_on(self):
        done, deaf, link = self.left(LARGE - 15, takes=[])
        self.assertEqual((done, deaf, link.state), (6, 0, "open"))

    def test_the_end_of_a_transaction_is_one_step(self):
        """More may come of it at once than a client may leave unread; in place of the next step who takes nothing of it is closed."""
        size = 5 + 5 + 5 * len(QUEUED) + len(array(*(5 * [LARGE * b"x"])))
        self.assertGreater(size, UNREAD)
        for more, takes, done, deaf, state in ((b"", [], 8, 0, "open"), (PING, [], 8, 1, "closed"), (PING, 30, 9, 0, "open")):
            turns, _ = self.plays(LONG, accepts=[peer(request("SET", "k", LARGE * b"x"), MULTI + 5 * GET + EXEC + more, takes=takes)])
            link = turns[-1].links.accepted[0]
            self.assertEqual((counts(turns)[0], counts(turns)[2], link.state), (done, deaf, state))
            self.assertEqual(len(link.written), 0 if takes == [] else size + len(PONG))

    def test_a_replica_that_reads_nothing_is_kept(self):
        """More waits for it than a client may leave unread, and what it says goes on to be used."""
        sets = b"".join(request("SETRANGE", "k%d" % it, str(LARGE - 1), "x") for it in range(5))
        says = NOTHING_TO_CONTINUE + 2 * request("REPLCONF", "ACK", "1")
        turns, _ = self.plays(3, accepts=[peer(sets), peer(None, says, takes=[])])
        self.assertEqual((counts(turns), turns[-1].links.accepted[1].state), ((8, 0, 0), "open"))

    def test_a_replica_is_heard_however_much_waits(self):
        """All that it says is read in the turn in which it comes, though as much waits as has a client not be read of. Until its PSYNC is answered it is a client."""
        acks = 200 * request("REPLCONF", "ACK", "1")
        for waits in (LARGE, 5 * LARGE):
            sets = b"".join(request("SETRANGE", "k%d" % it, str(LARGE - 1), "x") for it in range(waits // LARGE))
            asks = b"".join(request("GET", "k%d" % it) for it in range(waits // LARGE))
            replica, client = peer(None, NOTHING_TO_CONTINUE, acks, takes=[]), peer(None, asks, PING, takes=[])
            turns, _ = self.plays(4, accepts=[peer(sets), replica, client])
            replica, client = turns[-1].links.accepted[1:]
            self.assertEqual((replica.state, replica.read), ("open", len(NOTHING_TO_CONTINUE + acks)))
            self.assertNotEqual(client.read, len(asks + PING))
        late = peer(None, request("GET", "k0"), NOTHING_TO_CONTINUE, takes=[])
        turns, _ = self.plays(4, accepts=[peer(request("SETRANGE", "k0", str(LARGE - 1), "x")), late])
        self.assertEqual(turns[-1].links.accepted[1].read, len(request("GET", "k0")))


class Files(Playing):
    """Three requests, each read in a turn of its own. As the node starts its empty file is read by one call."""

    def ends(self, **how):
        """The turns of three requests up to a fault, the file, and what was sent."""
        turns, loop = self.plays(3, accepts=[peer(SET, SET_W, SET_X)], **how)
        return turns, loop.file(), turns[-1].links.accepted[0].written

    def test_without_a_failure(self):
        for how in ({}, {"short": 1}):
            turns, file, written = self.ends(**how)
            self.assertEqual((written, file.held, file.synced), (3 * OK, SET + SET_W + SET_X, 81))
            self.shown(turns[-1], "a", 81)

    def fails(self, call, told, held):
        turns, file, written = self.ends(fails=call)
        self.assertEqual([it.told for it in turns[told:]], ["fault: file failed", *["over"] * (2 - told)])
        self.assertEqual((written, file.held, file.used), (told * OK, held, len(held)))
        # the link is left to who ends
        self.assertEqual(turns[-1].links.accepted[0].state, "open")
        for it in turns[told:]:
            self.assertIsNone(it.shows)

    def test_a_write_fails(self):
        for call, told, held in [(2, 0, b""), (4, 1, SET), (6, 2, SET + SET_W)]:
            self.fails(call, told, held)

    def test_a_sync_fails(self):
        for call, told, held in [(3, 0, SET), (5, 1, SET + SET_W), (7, 2, SET + SET_W + SET_X)]:
            self.fails(call, told, held)

    def test_a_write_fails_in_its_middle(self):
        """A byte a write: the second one's tenth fails, and what was written of it isn't read any more."""
        turns, file, written = self.ends(short=1, fails=1 + 27 + 1 + 10)
        self.assertEqual((turns[1].told, turns[1].shows, written), ("fault: file failed", None, OK))
        self.assertEqual((file.held, file.used), (SET + SET_W[:9], 27))

    def test_a_transaction_is_one_append(self):
        """Nothing is in the file before its end. Each client gets what it asked for in that turn behind the sync."""
        turns, loop = self.plays(3, accepts=[peer(SET, MULTI + SET_A, SET_B + EXEC), peer(None, GET, request("DBSIZE"))])
        told = [OK, OK + OK + QUEUED, OK + OK + QUEUED + QUEUED + array_of(OK, OK)]
        self.assertEqual([it.links.accepted[0].written for it in turns], told)
        self.assertEqual((loop.file().held, loop.file().synced), (SET + PAIR, 27 + 83))
        for turn, offset in zip(turns, (27, 27, 110)):
            self.shown(turn, "a", offset)
        self.assertEqual(turns[-1].links.accepted[1].written, bulk("v") + number(3))

    def test_a_write_of_a_transaction_fails_in_its_middle(self):
        """A byte a write. What was written of it isn't read any more, and nobody is told that it was done; also where the sync fails behind all of it."""
        for count in range(84):
            turns, loop = self.plays(3, accepts=[peer(SET, MULTI + SET_A + SET_B, EXEC + GET)], short=1, fails=1 + 27 + 1 + count + 1)
            self.assertEqual((turns[2].told, turns[2].shows), ("fault: file failed", None))
            self.assertEqual(turns[2].links.accepted[0].written, OK + OK + QUEUED + QUEUED)
            self.assertEqual((loop.file().held, loop.file().used), (SET + PAIR[:count], 110 if count == 83 else 27))

    def test_the_first_read_fails(self):
        loop = self.loop()
        self.assertEqual(loop.start(fails=1), "fault: file failed")

    def test_a_replacement_fails(self):
        asks = [peer(SET, SET_W, request("BGREWRITEAOF"), PING)]
        turns, loop = self.plays(4, accepts=asks)
        self.assertEqual((loop.file().held, turns[-1].links.accepted[0].written), (SET_W, 2 * OK + STARTED + PONG))
        turns, loop = self.plays(4, accepts=asks, fails=6)
        self.assertEqual([it.told for it in turns[2:]], ["fault: file failed", "over"])
        self.assertEqual((loop.file().held, turns[-1].links.accepted[0].written), (SET + SET_W, 2 * OK))

    def test_without_syncs(self):
        """No call syncs, so that a failure of the next call is that of the next write."""
        turns, file, written = self.ends(sync="no")
        self.assertEqual((written, file.held, file.synced), (3 * OK, SET + SET_W + SET_X, 0))
        turns, file, written = self.ends(sync="no", fails=3)
        self.assertEqual((turns[1].told, written, file.held), ("fault: file failed", OK, SET))

    def test_others_are_sent_nothing_either(self):
        """Nobody gets what the turn has for them, once its file has failed: no reply to what only reads, and no stream."""
        replica, reader = peer(NOTHING_TO_CONTINUE), peer(None, GET)
        turns, _ = self.plays(2, accepts=[peer(None, SET), replica, reader], fails=2)
        self.assertEqual(turns[1].told, "fault: file failed")
        self.assertEqual([it.written for it in turns[1].links.accepted], [b"", announces("a", 0, b""), b""])

    def test_what_the_file_has_is_there_as_the_node_starts(self):
        """What stands behind the last whole effect is cut off."""
        turns, loop = self.plays(1, accepts=[peer(GET)], held=SET + SET_W[:20])
        self.assertEqual(turns[0].links.accepted[0].written, bulk("v"))
        self.shown(turns[0], "a", 0)
        self.assertEqual(loop.file().held, SET)

    def test_a_group_in_the_file_is_there_as_a_whole_as_the_node_starts(self):
        for held, cut in ((SET + PAIR, b""), (SET + PAIR, PAIR[:82]), (SET, PAIR[:82]), (SET, framed(SET_A, request("LPUSH", "k", "x")) + SET_W)):
            turns, loop = self.plays(1, accepts=[peer(request("DBSIZE") + GET)], held=held + cut)
            self.assertEqual(turns[0].links.accepted[0].written, number(3 if PAIR in held else 1) + bulk("v"))
            self.assertEqual(loop.file().held, held)


class Wires(Playing):
    """Each call of a wire fails in turn. The link of that call closes, and what goes over the others is as before."""

    def setUp(self):
        # three clients, each with a key of its own, and what each is answered in a turn
        self.peers = [[request(*line.split(" ")) for line in lines] for lines in (
            ("SET a 1", "INCR a", "GET a"),
            ("RPUSH b x", "LRANGE b 0 -1", "LPOP b"),
            ("SADD c m", "SCARD c", "PING"),
        )]
        self.replies = [
            [OK, number(2), bulk("2")],
            [number(1), b"*1\r\n" + bulk("x"), bulk("x")],
            [number(1), number(1), PONG],
        ]
        self.whole = [b"".join(it) for it in self.replies]

    def peer(self, at):
        return peer(*self.peers[at], takes=3)

    def others(self, turns, at):
        links = turns[-1].links.accepted
        for other, whole in enumerate(self.whole):
            if other != at:
                self.assertEqual((links[other].state, links[other].written), ("open", whole), other)
        return links[at] if at is not None else None

    def test_without_a_failure(self):
        turns, _ = self.plays(3, accepts=[self.peer(at) for at in range(3)])
        self.others(turns, None)
        self.assertEqual(counts(turns), (9, 0, 0))

    def failing(self, at, kind, call):
        """The turns in which this call on one of the links fails."""
        peers = [self.peer(it) for it in range(3)]
        getattr(peers[at], kind)[call] = FAILED
        return self.plays(5, accepts=peers)

    def test_a_read_fails(self):
        """Each read of a link: of two in a turn the first gives what came, and the second finds that no more did."""
        for at in range(3):
            for call in range(6):
                turns, loop = self.failing(at, "reads", call)
                lost = self.others(turns, at)
                # where nothing more is read the replies of that turn aren't written any more
                told = b"".join(self.replies[at][: call // 2])
                self.assertEqual((lost.state, lost.written), ("closed", told), (at, call))
                self.assertEqual(counts(turns), (6 + (call + 1) // 2, 0, 0))

    def test_a_write_fails(self):
        for at in range(3):
            for call in range(3):
                turns, _ = self.failing(at, "writes", call)
                lost = self.others(turns, at)
                self.assertEqual((lost.state, lost.written), ("closed", b"".join(self.replies[at][:call])), (at, call))
                # what was asked is done, and nothing is read any more
                self.assertEqual(counts(turns), (6 + call + 1, 0, 0))

    def test_an_accept_fails(self):
        """It closes nobody's link. Who comes behind it comes in the next turn."""
        for at in range(3):
            peers = [self.peer(it) for it in range(3)]
            peers.insert(at, FAILED)
            turns, _ = self.plays(4, accepts=peers)
            links = turns[-1].links.accepted
            self.assertEqual(len(turns[0].links.accepted), at + 1)
            self.assertEqual(links.pop(at).state, FAILED)
            self.assertEqual([(it.state, it.written) for it in links], [("open", it) for it in self.whole])

    def test_a_wait_fails(self):
        """The loop ends, and nothing has changed since the turn before."""
        for at in range(3):
            turns, loop = self.plays(3, accepts=[self.peer(it) for it in range(3)], waits=["done"] * at + ["failed"])
            self.assertEqual([it.told for it in turns[at:]], ["fault: socket failed", *["over"] * (2 - at)])
            for it in turns[at:]:
                self.assertEqual(it[1:], turns[at - 1][1:] if at else (([], []), ("a" * 40, 0)))

    def test_a_write_that_takes_little(self):
        """A client that takes a byte a write gets a byte a turn, and another is served meanwhile."""
        turns, _ = self.plays(5, accepts=[peer(PING, takes=[1, 1, 1, 0, ALL]), peer(*[PING] * 5)])
        self.assertEqual([it.links.accepted[0].written for it in turns], [PONG[:1], PONG[:2], PONG[:3], PONG[:3], PONG])
        self.assertEqual(turns[-1].links.accepted[1].written, 5 * PONG)

    def test_an_end_is_no_failure(self):
        """What waits for who sends no more is still written; what it left unread is nothing any more."""
        turns, _ = self.plays(3, accepts=[Peer([PING.hex(), ENDS], [3, NOT_READY, ALL]), Peer([PING[:9].hex(), ENDS], [ALL])])
        self.assertEqual([it.links.accepted[0][::2] for it in turns], [("open", PONG[:3]), ("open", PONG[:3]), ("closed", PONG)])
        self.assertEqual([it.links.accepted[1].state for it in turns], ["closed"] * 3)

    def test_behind_quit_nothing_is_read(self):
        turns, _ = self.plays(2, accepts=[peer(request("QUIT"), PING)])
        link = turns[-1].links.accepted[0]
        self.assertEqual((link.state, link.read, link.written), ("closed", len(request("QUIT")), OK))


class Replicas(Playing):
    """A master's replicas: what they are sent, and what becomes of it where a call on one of their links fails."""

    def test_a_whole_copy_and_the_stream(self):
        turns, loop = self.plays(3, accepts=[peer(SET, None, SET_W), peer(None, GREETS + NOTHING_TO_CONTINUE)])
        self.assertEqual([it.links.accepted[1].written for it in turns[1:]], [GREETED + announces("a", 27, SET), GREETED + announces("a", 27, SET) + SET_W])
        self.assertEqual(loop.file().held, SET + SET_W)

    def test_a_replica_goes_on_from_where_it_was(self):
        turns, _ = self.plays(3, accepts=[peer(SET, SET_W, SET_X), peer(None, asks_from("a", 28))])
        self.assertEqual(turns[-1].links.accepted[1].written, continues("a") + SET_W + SET_X)

    def test_what_the_stream_has_left_behind_is_copied_whole(self):
        turns, _ = self.plays(4, accepts=[peer(SET, SET_W, SET_X), peer(None, None, None, asks_from("a", 28))], backlog=27)
        self.assertEqual(turns[-1].links.accepted[1].written, announces("a", 81, SET_X))

    def test_one_is_lost(self):
        """A client and another replica get what they got before, whichever call fails."""
        client, other = OK + OK + OK, GREETED + announces("a", 27, SET) + SET_W + SET_X
        for kind, count in (("reads", 4), ("writes", 3)):
            for call in range(1 if kind == "reads" else 0, count):
                lost = peer(None, GREETS + NOTHING_TO_CONTINUE, takes=3)
                getattr(lost, kind).extend([NOT_READY] * (count - len(getattr(lost, kind))))
                getattr(lost, kind)[call] = FAILED
                turns, loop = self.plays(5, accepts=[peer(SET, None, SET_W, SET_X), lost, peer(None, GREETS + NOTHING_TO_CONTINUE)])
                links = turns[-1].links.accepted
                self.assertEqual([it.state for it in links], ["open", "closed", "open"], (kind, call))
                self.assertEqual([links[0].written, links[2].written], [client, other])
                self.assertEqual(links[1].written, other[: len(links[1].written)])
                self.assertEqual(loop.file().held, SET + SET_W + SET_X)

    def test_a_lost_client_takes_nothing_from_a_replica(self):
        """What was done of its requests is in the stream and in the file, and nothing else."""
        for call in range(6):
            client = peer(SET, SET_W, SET_X)
            client.reads[call] = FAILED
            turns, loop = self.plays(5, accepts=[peer(NOTHING_TO_CONTINUE), client])
            stream = b"".join([SET, SET_W, SET_X][: (call + 1) // 2])
            self.assertEqual([it.written for it in turns[-1].links.accepted], [announces("a", 0, b"") + stream, OK * (call // 2)])
            self.assertEqual((loop.file().held, turns[-1].shows), (stream, ("a" * 40, len(stream))))

    def test_a_heartbeat(self):
        """The first moment counts from where no time had passed, and nothing is sent before ten seconds are over."""
        turns, _ = self.plays(4, accepts=[peer(SET), peer(NOTHING_TO_CONTINUE)], moments=[1000, 10_999, 11_000, 20_999])
        self.assertEqual([it.shows[1] for it in turns], [27, 27, 41, 41])
        whole = announces("a", 27, SET)
        self.assertEqual([it.links.accepted[1].written for it in turns], [whole, whole, whole + PING, whole + PING])

    def test_an_expired_key_is_deleted_there_too(self):
        """It goes to the file first, in the turn whose moment it is."""
        sets, deletes = request("SET", "k", "v", "PXAT", "5"), request("DEL", "k")
        turns, loop = self.plays(3, accepts=[peer(request("SET", "k", "v", "PX", "5")), peer(NOTHING_TO_CONTINUE)], moments=[0, 4, 5])
        whole = announces("a", len(sets), SET + request("PEXPIREAT", "k", "5"))
        self.assertEqual([it.links.accepted[1].written for it in turns], [whole, whole, whole + deletes])
        self.assertEqual(loop.file().held, sets + deletes)
        turns, loop = self.plays(3, accepts=[peer(request("SET", "k", "v", "PX", "5")), peer(NOTHING_TO_CONTINUE)], moments=[0, 4, 5], fails=4)
        self.assertEqual((turns[2].told, turns[2].links.accepted[1].written, loop.file().held), ("fault: file failed", whole, sets))


    def test_ticks_keep_up(self):
        """More keys than a tick deletes expire at once: they are all gone in that turn, in order."""
        keys = ["k%02d" % it for it in range(70)]
        held = b"".join(request("SET", it, "v") + request("PEXPIREAT", it, "5") for it in keys)
        turns, loop = self.plays(2, accepts=[peer(NOTHING_TO_CONTINUE)], held=held, moments=[4, 5])
        deletes = b"".join(request("DEL", it) for it in keys)
        self.assertEqual([it.links.accepted[0].written for it in turns], [announces("a", 0, held), announces("a", 0, held) + deletes])
        self.assertEqual(loop.file().held, held + deletes)


class Moments(Playing):
    """The clock moves while a turn lasts."""

    def test_each_step_has_the_time_at_which_it_is_made(self):
        """A second passes within a turn, before a lock is taken in it for less."""
        asks = request("SET", "lock", "mine", "NX", "PX", "697") + request("PEXPIRETIME", "lock")
        asked = request("BGREWRITEAOF") + asks
        for passes, moment in ([0], 1697), ([0, 1000], 2697), ([0, 0, 696], 1697), ([300, 700, 5], 2697):
            turns, _ = self.plays(2, accepts=[peer(asked, asks)], moments=[1000, 2000], passes=passes)
            self.assertEqual(turns[0].links.accepted[0].written, STARTED + OK + number(moment))
            # in the next turn it is taken again, unless it is still held
            again = turns[1].links.accepted[0].written[len(turns[0].links.accepted[0].written) :]
            self.assertEqual(again, (OK if moment == 1697 else NIL) + number(2697))

    def test_each_tick_has_the_time_at_which_it_is_made(self):
        """A key that expires between two ticks of a turn goes in it."""
        keys = ["k%02d" % it for it in range(70)]
        held = b"".join(request("SET", it, "v") + request("PEXPIREAT", it, "5") for it in keys) + request("SET", "late", "v") + request("PEXPIREAT", "late", "6")
        for passes, gone in ([0], keys), ([0, 0, 0, 1], [*keys, "late"]):
            turns, loop = self.plays(2, accepts=[peer(NOTHING_TO_CONTINUE)], held=held, moments=[4, 5], passes=passes)
            self.assertEqual(loop.file().held, held + b"".join(request("DEL", it) for it in gone))

    def test_no_moment_goes_back(self):
        """Not from turn to turn either."""
        asks = request("SET", "k", "v", "PX", "1000") + request("PEXPIRETIME", "k")
        turns, _ = self.plays(3, accepts=[peer(asks, asks, asks)], moments=[5000, 4000, 5001], passes=[0, 0, 7, 0, 0, 0])
        self.assertEqual(turns[-1].links.accepted[0].written, (OK + number(6000)) + (OK + number(6007)) + (OK + number(6007)))


class Following(Playing):
    """A node that is told whom to follow: it was a master without keys, and offers to go on from there."""

    def follows(self, turns, *dialled, client=(), **how):
        return self.plays(turns, accepts=[peer(OBEY, *client)], connects=dialled, id="b", **how)

    def test_a_whole_copy_and_the_stream(self):
        turns, loop = self.follows(3, peer(GREETED + announces("a", 27, SET), SET_W), client=(None, GET))
        master, client = turns[-1].links.dialled[0], turns[-1].links.accepted[0]
        self.assertEqual((master.state, master.address, master.written), ("open", ADDRESS, GREETS + OFFERS))
        self.assertEqual(turns[0].links.dialled[0].written, PING)
        self.shown(turns[1], "a", 27)
        self.shown(turns[2], "a", 54)
        self.assertEqual(client.written[:5], OK)
        self.assertIn(client.written[5:], (bulk("v"), bulk("w")))
        self.assertEqual((loop.file().held, loop.call("role")), (SET + SET_W, "connected"))

    def test_who_never_followed_has_nothing_to_go_on_from(self):
        """A node that starts as a replica is told of no master, and dials nobody until it is."""
        turns, _ = self.follows(3, peer(GREETED + announces("a", 27, SET)), role="replica")
        self.assertEqual(turns[-1].links.dialled[0].written, GREETS + NOTHING_TO_CONTINUE)
        self.shown(turns[-1], "a", 27)
        turns, _ = self.plays(2, role="replica", connects=[peer()])
        self.assertNotIn("open", [it.state for it in turns[-1].links.dialled])

    def test_a_copy_without_its_last_byte_is_nothing(self):
        answer = GREETED + announces("a", 27, SET)
        turns, loop = self.follows(3, peer(answer[:-1], FAILS), peer(GREETED + announces("a", 27, SET)))
        self.assertEqual([it.shows for it in turns], [("b" * 40, 0)] * 3)
        self.assertEqual([it.state for it in turns[-1].links.dialled], ["closed", "open"])
        self.assertEqual(loop.file().held, b"")
        self.shown(self.turn(loop), "a", 27)
        self.assertEqual(loop.file().held, SET)

    def test_a_broken_stream_is_gone_on_with(self):
        """Half of an effect counts for nothing: the master is asked from behind the last whole one."""
        turns, loop = self.follows(5, peer(GREETED + announces("a", 27, SET), SET_W[:26], ENDS), peer(GREETED + continues("a") + SET_W))
        self.shown(turns[2], "a", 27)
        self.shown(turns[4], "a", 54)
        self.assertEqual(turns[-1].links.dialled[1].written, GREETS + asks_from("a", 28))
        self.assertEqual(loop.file().held, SET + SET_W)

    def test_a_group_is_taken_with_its_last_byte(self):
        """Until then no offset within it is shown, and nothing of it is in the file."""
        turns, loop = self.follows(5, peer(GREETED + announces("a", 27, SET), PAIR[:40], PAIR[40:82], PAIR[82:] + SET_W))
        for turn in turns[1:4]:
            self.shown(turn, "a", 27)
        self.shown(turns[4], "a", 137)
        self.assertEqual((loop.file().held, loop.file().commands), (SET + PAIR + SET_W, SET_A + SET_B + SET_W))

    def test_a_broken_group_is_asked_for_again(self):
        for cut in (1, 15, 42, 69, 82):
            turns, loop = self.follows(5, peer(GREETED + announces("a", 27, SET), PAIR[:cut], ENDS), peer(GREETED + continues("a") + PAIR))
            self.shown(turns[2], "a", 27)
            self.shown(turns[4], "a", 110)
            self.assertEqual(turns[-1].links.dialled[1].written, GREETS + asks_from("a", 28))
            self.assertEqual(loop.file().held, SET + PAIR)

    def test_a_torn_group_ends_it(self):
        """As where memory ran out: the node shows nothing any more, and nothing of the group is in the file or told to a client."""
        torn, asked = framed(SET_A, request("LPUSH", "k", "x"), SET_B), request("MGET", "a", "k")
        turns, loop = self.follows(4, peer(GREETED + announces("a", 27, SET), torn, SET_W), client=(None, asked, asked))
        self.assertEqual([it.told for it in turns[2:]], ["fault: out of memory", "over"])
        self.assertEqual((turns[2].shows, turns[3].shows, loop.file().held), (None, None, SET))
        self.assertIn(turns[3].links.accepted[0].written, (OK, OK + array(None, "v")))

    def test_a_write_of_a_group_fails_in_its_middle(self):
        """A byte a write. What is there of the group's text is nothing to whoever starts with the file."""
        found = set()
        for call in range(2, 150):
            _, loop = self.follows(4, peer(GREETED + announces("a", 27, SET), PAIR), fails=call, short=1)
            file = loop.file()
            self.assertEqual(file.commands, {0: b"", 27: SET, 110: SET_A + SET_B + SET}[file.used])
            self.assertIn(file.held, ([b""] if not file.used else [SET + PAIR[:count] for count in range(83)] if file.used == 27 else [SET + PAIR]))
            found.add((file.held, file.used))
        self.assertLessEqual({*((SET + PAIR[:count], 27) for count in range(83)), (SET + PAIR, 110)}, found)

    def test_a_connect_fails(self):
        """While the clock stands still each turn dials; while it moves a tenth of a second passes between the first two, and then twice as much."""
        turns, _ = self.follows(4, FAILED, FAILED, peer(PONG))
        self.assertEqual([it.state for it in turns[-1].links.dialled], [FAILED, FAILED, "open"])
        self.assertEqual([len(it.links.dialled) for it in turns], [1, 2, 3, 3])
        turns, _ = self.follows(6, FAILED, FAILED, peer(PONG), moments=[1000, 1050, 1099, 1100, 1299, 1300])
        self.assertEqual([len(it.links.dialled) for it in turns], [1, 1, 1, 2, 2, 3])
        self.assertEqual({it.links.accepted[0].written for it in turns}, {OK})

    def test_each_dial_that_leads_to_no_stream_doubles_the_wait(self):
        """From a tenth of a second to five seconds, whether nobody is there, the link ends, or the master refuses or has half of a copy."""
        waits = [100, 200, 400, 800, 1600, 3200, 5000, 5000]
        moments = [1000]
        for it in waits:
            moments += [moments[-1] + it - 1, moments[-1] + it]
        half = GREETED + announces("a", 27, SET)[:-1]
        for master in (FAILED, peer(ENDS), peer(FAILS), peer(b"-ERR\r\n"), peer(half, ENDS)):
            with self.subTest(master=master):
                turns, _ = self.follows(len(moments), *[master] * len(moments), moments=moments)
                self.assertEqual([len(it.links.dialled) for it in turns], [1] + [it + more for it in range(1, len(waits) + 1) for more in (0, 1)])

    def test_behind_a_stream_waits_are_short_again(self):
        """So they are where it broke, and where another master is named; not where a copy was only announced."""
        copy = peer(GREETED + announces("a", 27, SET), None, ENDS)
        moments = [1000, 1100, 1300, 1700, 1701, 1702, 1703, 1799, 1800, 1899, 1900, 2099, 2100]
        turns, _ = self.follows(len(moments), FAILED, FAILED, FAILED, copy, FAILED, FAILED, FAILED, moments=moments)
        self.assertEqual([len(it.links.dialled) for it in turns], [1, 2, 3, 4, 4, 4, 4, 4, 5, 5, 6, 6, 7])
        part = peer(GREETED + announces("a", 27, SET)[:-1], None, ENDS)
        turns, _ = self.follows(len(moments), FAILED, FAILED, FAILED, part, FAILED, FAILED, FAILED, moments=moments)
        self.assertEqual([len(it.links.dialled) for it in turns], [1, 2, 3, *[4] * 10])
        moments = [1000, 1100, 1300, 1301, 1400, 1401]
        named = [None, None, request("REPLICAOF", "127.0.0.2", "7000")]
        turns, _ = self.follows(len(moments), *[FAILED] * 6, client=named, moments=moments)
        self.assertEqual([len(it.links.dialled) for it in turns], [1, 2, 3, 4, 4, 5])

    def test_what_came_of_it_is_counted(self):
        """In the turn in which it came: each line that was answered, a copy that is announced and one that is there, a stream that goes on, and what was refused."""
        copy, length = announces("a", 27, SET), len(announces("a", 27))
        for said, wanted in (
            ([GREETED], [Followed(greeted=3)]),
            ([PONG, OK, OK, copy], [Followed(greeted=1)] * 3 + [Followed(announced=1, copied=1, bytes=27)]),
            ([GREETED + copy[:length], copy[length:-1], copy[-1:] + SET_W], [Followed(greeted=3, announced=1), Followed(), Followed(copied=1, bytes=27)]),
            ([GREETED + continues("b"), SET_W], [Followed(greeted=3, continued=1), Followed()]),
            ([b"-ERR\r\n"], [Followed(refused=1)]),
            ([PONG + b"-ERR\r\n"], [Followed(greeted=1, refused=1)]),
            ([GREETED + b"+NO\r\n"], [Followed(greeted=3, refused=1)]),
            ([GREETED + copy[:length] + b"-ERR\r\n"], [Followed(greeted=3, announced=1, refused=1)]),
            ([GREETED + copy[:length] + b"$27\r\n" + 27 * b"x"], [Followed(greeted=3, announced=1, refused=1)]),
            ([GREETED + copy, b"x"], [Followed(greeted=3, announced=1, copied=1, bytes=27), Followed(spoiled=1)]),
            ([GREETED + copy + GET], [Followed(greeted=3, announced=1, copied=1, bytes=27, spoiled=1)]),
        ):
            with self.subTest(said=said):
                turns, _ = self.follows(1 + len(said), peer(*said))
                self.assertEqual([followed([it]) for it in turns], [Followed(), *wanted])

    def test_what_did_not_come_of_the_master_is_not_counted(self):
        """A master that goes, another that is named, a promotion, and what clients ask meanwhile, also where nothing is answered."""
        first = peer(GREETED[:7], None, None)
        for asked in (b"\r\n", GET, request("REPLICAOF", "127.0.0.2", "7000"), LEAD, request("QUIT"), b"*-2", request("BGREWRITEAOF")):
            turns, _ = self.follows(3, first, peer(), client=(None, asked))
            self.assertEqual(followed(turns), Followed(greeted=1), asked)
        for end in (ENDS, FAILS):
            turns, _ = self.follows(4, peer(GREETED + announces("a", 27, SET), SET_W, end), peer())
            self.assertEqual(followed(turns), Followed(greeted=3, announced=1, copied=1, bytes=27))
        for asked in (request("REPLICAOF", "127.0.0.2", "7000"), LEAD, request("BGREWRITEAOF"), request("QUIT")):
            turns, _ = self.follows(3, peer(GREETED + announces("a", 27, SET), None), peer(), client=(None, asked))
            self.assertEqual(followed(turns), Followed(greeted=3, announced=1, copied=1, bytes=27), asked)
        turns, _ = self.plays(2, accepts=[peer(SET + request("BGREWRITEAOF")), peer(NOTHING_TO_CONTINUE, b"x\r\n" * 9)])
        self.assertEqual(followed(turns), Followed())

    def test_another_master_is_dialled_at_once(self):
        turns, _ = self.follows(2, FAILED, peer(), client=(request("REPLICAOF", "127.0.0.2", "7000"),), moments=[1000, 1001])
        self.assertEqual([it.address for it in turns[-1].links.dialled], ["", "127.0.0.2:7000"])

    def test_each_call_on_the_masters_link_fails(self):
        """The master is dialled anew, and asked from where the node stands. Its client is answered as before."""
        some, more = asks_from("a", 28), asks_from("a", 55)
        for kind, asked in (("reads", [OFFERS, some, some, more, more]), ("writes", [OFFERS, some])):
            for call, last in enumerate(asked):
                with self.subTest(kind=kind, call=call):
                    first = peer(GREETED + announces("a", 27, SET), SET_W, None, takes=2)
                    getattr(first, kind)[call] = FAILED
                    second = peer(GREETED + announces("a", 54, SET_W))
                    turns, loop = self.follows(8, first, second, client=[*[None] * 6, GET])
                    self.assertEqual([it.state for it in turns[-1].links.dialled], ["closed", "open"])
                    self.assertEqual(turns[-1].links.dialled[1].written, GREETS + last)
                    self.assertEqual(turns[-1].links.accepted[0].written, OK + bulk("w"))
                    self.shown(turns[-1], "a", 54)
                    self.assertEqual(loop.file().held, SET_W)

    def test_an_acknowledgement(self):
        turns, _ = self.follows(7, peer(GREETED + announces("a", 41, SET)), moments=[1000] * 5 + [1999, 2000])
        said = GREETS + OFFERS
        self.assertEqual([it.links.dialled[0].written for it in turns[4:]], [said, said, said + request("REPLCONF", "ACK", "41")])

    def test_a_replica_refuses_writes_and_has_no_replicas(self):
        turns, _ = self.follows(3, peer(GREETED + announces("a", 27, SET)), client=(SET_W + NOTHING_TO_CONTINUE,))
        self.assertEqual(turns[-1].links.accepted[0].written, OK + READONLY + CHAINED)

    def test_a_promotion_takes_an_id(self):
        """The id that was drawn last: one in each turn, and another once one was used."""
        turns, _ = self.follows(4, peer(GREETED + announces("a", 27, SET)), client=(None, LEAD + SET_W, OBEY + LEAD), ids=[it * 40 for it in "12345"])
        self.shown(turns[1], "a", 27)
        self.shown(turns[2], "3", 54)
        self.assertEqual(turns[2].links.dialled[0].state, "closed")
        self.shown(turns[3], "5", 54)
        self.assertEqual([counts([it])[1] for it in turns], [0, 0, 1, 1])

    def test_replicas_of_a_node_that_obeys_are_closed(self):
        turns, _ = self.plays(2, accepts=[peer(SET, OBEY), peer(NOTHING_TO_CONTINUE)], connects=[peer()])
        self.assertEqual([it.state for it in turns[-1].links.accepted], ["open", "closed"])
        self.assertEqual(turns[-1].links.dialled[0].written, PING)


class Ending(Playing):
    def test_shutdown_is_the_last_turn(self):
        """It goes to its end: who stands behind is still served."""
        turns, _ = self.plays(3, accepts=[peer(PING, request("SHUTDOWN")), peer(None, SET, GET)])
        self.assertEqual([it.told.split(" ")[0] for it in turns], ["turned", "halted", "over"])
        self.assertEqual([it.written for it in turns[-1].links.accepted], [PONG, OK])

    def test_turns_are_served(self):
        loop = self.loop(accepts=[peer(SET, SET_W, SET_X, GET)])
        self.assertEqual((loop.call("serve 3"), loop.shows()), ("served", ("a" * 40, 81)))
        self.assertEqual(loop.links().accepted[0].written, 3 * OK)
        self.assertEqual((loop.call("serve 0"), loop.call("turn").split(" ")[0]), ("served", "turned"))
        self.assertEqual(loop.links().accepted[0].written, 3 * OK + bulk("x"))

    def test_none_is_served_behind_shutdown(self):
        loop = self.loop(accepts=[peer(SET, request("SHUTDOWN"), SET_W)])
        self.assertEqual((loop.call("serve 9"), loop.call("serve 9"), loop.call("turn")), ("served", "over", "over"))
        self.assertEqual((loop.shows(), loop.file().held), (("a" * 40, 27), SET))

    def test_none_is_served_behind_a_fault(self):
        loop = self.loop(accepts=[peer(SET, SET_W, SET_X)], fails=4)
        self.assertEqual((loop.call("serve 9"), loop.call("serve 9"), loop.shows()), ("fault: file failed", "over", None))
        self.assertEqual(loop.links().accepted[0].written, OK)


if __name__ == "__main__":
    unittest.main()
