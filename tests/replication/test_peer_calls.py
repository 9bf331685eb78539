"""Calls on a node that follows or is followed: what its clients, its replicas and its master say, its limits, and how it stops."""

import unittest

from tests.support.handshake import GREETED, NOTHING_TO_CONTINUE, announces, asks_from, continues
from tests.support.peers import IDLE, PeerFault, Playing, sent, shape, tells_info
from tests.support.program import request
from tests.support.replies import BULK_LENGTH, CHAINED, INTEGER, NIL, OK, PONG, READONLY, STARTED, SYNTAX, TOO_LONG, UNKNOWN, arity, array, bulk, no_dollar, number, role_of_master
from tests.support.requests import DEL, EXEC, MULTI, PAIR, PING, SET, SET_A, SET_B, SET_W, framed

LIMIT = b"-ERR offset limit\r\n"
MOST_OFFSET = 2**62
# requests that change no dataset, with their replies, of a master and of a replica
UNCHANGING = [
    ("*0\r\n", b""),
    ("\r\n", b""),
    ("*-1\r\n", b""),
    ("PING\r\n", PONG),
    ("GET\r\n", arity("get")),
    ("GET k\r\n", NIL),
    ("NOTHING\r\n", UNKNOWN),
    ("REPLCONF listening-port 6379 ip-address ::1\r\n", OK),
    ("replconf CAPA eof capa psync2\r\n", OK),
    ("REPLCONF capa\r\n", SYNTAX),
    ("REPLCONF\r\n", SYNTAX),
    ("REPLCONF color red\r\n", SYNTAX),
    ("REPLCONF ACK 5\r\n", b""),
    ("REPLCONF ACK x\r\n", SYNTAX),
    ("REPLCONF GETACK *\r\n", SYNTAX),
    ("PSYNC ? x\r\n", INTEGER),
    ("PSYNC ?\r\n", arity("psync")),
    ("REPLICAOF h 0\r\n", INTEGER),
    ("REPLICAOF h 65536\r\n", INTEGER),
    ("REPLICAOF h 01\r\n", INTEGER),
    ("SLAVEOF h -1\r\n", INTEGER),
    ("REPLICAOF h\r\n", arity("replicaof")),
    ("SLAVEOF\r\n", arity("slaveof")),
    ("SHUTDOWN NOW\r\n", SYNTAX),
]


class Asking(Playing):
    """What a client asks, of a master and of a replica."""

    def test_a_key_is_set_and_got(self):
        master = self.master()
        client = master.open()
        self.assertEqual(master.asks(client, SET), [("grow", SET), ("append", SET), ("send", client, OK)])
        self.assertEqual(master.answers(client, "GET k\r\n"), bulk("v"))
        self.shown(master, "a", 27)
        self.assertEqual(master.file, SET)

    def test_requests_that_change_no_dataset(self):
        for node in (self.master(), self.replica("a")):
            client = node.open()
            for line, reply in UNCHANGING:
                self.assertEqual(node.asks(client, line), [("send", client, reply)] if reply else [], line)
                self.shown(node, "a", 0)
            for line in ("SHUTDOWN\r\n", "shutdown nosave\r\n"):
                self.assertEqual(node.asks(client, line), [("halt",)])
            self.assertEqual((node.waits(), node.file), (node.role() != "master", b""))

    def test_the_file_is_written_anew(self):
        master, client = self.started()
        master.asks(client, SET_W)
        self.assertEqual(master.file, SET + SET_W)
        replica = self.replica()
        self.follow(replica, master)
        for node, link in ((master, client), (replica, replica.open())):
            self.assertEqual(node.asks(link, "BGREWRITEAOF\r\n"), [("replace", SET_W), ("send", link, STARTED)])
            self.shown(node, "a", 54)
            self.assertEqual(node.file, SET_W)

    def test_a_client_that_leaves_or_lies_is_answered_once(self):
        for node in (self.master(), self.replica()):
            for line, reply in [("QUIT\r\nPING\r\n", OK), ("*1\r\n$-5\r\nPING\r\n", BULK_LENGTH), ("*1\r\n:3\r\n", no_dollar(":"))]:
                client = node.open()
                self.assertEqual(node.asks(client, line), [("send", client, reply), ("close", client)])
                self.assertTrue(node.is_closed(client))
                self.assertEqual((node.room(client), node.unread(client)), (ENDLESS, 0))
                node.feed(client, b"PING\r\n")
                self.assertTrue(node.is_closed(client))
                node.close(client)
                self.assertEqual((node.room(client), node.unread(client)), (None, None))

    def test_a_replica_refuses_writes_behind_the_faults_of_reading(self):
        master, _ = self.started()
        replica = self.replica()
        self.follow(replica, master)
        client = replica.open()
        writes = [SET_W, DEL, "DEL nothing\r\n", "EXPIRE k 10\r\n", "LPOP k\r\n", "FLUSHALL\r\n", "FLUSHDB\r\n"]
        reads = [("SET k\r\n", arity("set")), ("SET k v NX XX\r\n", SYNTAX), ("INCRBY k x\r\n", INTEGER), ("GET k\r\n", bulk("v")), ("DBSIZE\r\n", number(1))]
        for line, reply in [*((it, READONLY) for it in writes), *reads]:
            self.assertEqual(replica.answers(client, line), reply, line)
        self.shown(replica, "a", 27)

    def test_a_replica_answers_psync_and_stays_at_a_clients_end(self):
        master, _ = self.started()
        replica = self.replica()
        self.follow(replica, master)
        client = replica.open()
        for line in ("PSYNC ? -1\r\n", "PSYNC %s 28\r\n" % ("a" * 40)):
            self.assertEqual(replica.answers(client, line), CHAINED)
        self.assertEqual(replica.answers(client, "PING\r\n"), PONG)
        self.assertIn(b"\r\nconnected_slaves:0\r\n", replica.info())

    def test_a_master_is_told_to_be_one(self):
        master, client = self.started()
        joined = self.follow(self.replica(), master)
        for line in ("REPLICAOF NO ONE\r\n", "slaveof no one\r\n"):
            self.assertEqual(master.asks(client, line, fresh="7" * 40), [("send", client, OK)])
        self.assertEqual(master.info(), tells_info("master", "a", 27, 1, replicas=1))
        self.assertIn(("send", joined.above, SET_W), master.asks(client, SET_W))

    def test_a_replica_is_told_whom_to_follow(self):
        master, _ = self.started()
        replica = self.replica()
        client = replica.open()
        self.assertEqual(replica.shapes(client, "REPLICAOF h 1\r\n"), "send 0 5, follow")
        # it follows that one already, with and without a link
        self.assertEqual(replica.shapes(client, "SLAVEOF h 1\r\n"), "send 0 5")
        self.follow(replica, master)
        self.assertEqual(replica.shapes(client, "REPLICAOF h 1\r\n"), "send 0 5")
        self.assertFalse(replica.waits())
        # another port, and another host
        self.assertEqual(replica.asks(client, "REPLICAOF h 2\r\n"), [("send", client, OK), ("close", 1), ("follow", b"h", 2)])
        self.assertTrue(replica.waits())
        self.assertEqual(replica.asks(client, "REPLICAOF g 2\r\n"), [("send", client, OK), ("follow", b"g", 2)])
        self.shown(replica, "a", 27)
        self.assertEqual(self.join(replica, master).answer, continues("a"))
        # it leaves before it has used the answer
        self.assertEqual(replica.shapes(client, "REPLICAOF h 1\r\n"), "send 0 5, close 2, follow")
        self.shown(replica, "a", 27)

    def test_a_master_that_is_to_follow_closes_its_replicas_links(self):
        master, client = self.started()
        joined = self.follow(self.replica(), master)
        other = master.open()
        outs = master.asks(client, "REPLICAOF 127.0.0.1 65535\r\n")
        self.assertEqual(outs, [("send", client, OK), ("close", joined.above), ("follow", b"127.0.0.1", 65535)])
        self.assertEqual((master.is_closed(joined.above), master.is_closed(other), master.waits()), (True, False, True))
        self.assertEqual(master.answers(other, SET_W), READONLY)
        self.assertEqual(master.info(), tells_info("slave", "a", 27, 1))

    def test_a_half_read_request_outlives_a_change_of_roles(self):
        node = self.replica("a")
        client, other = node.open(), node.open()
        node.feed(client, SET[:20])
        self.assertEqual(node.step(client), IDLE)
        # both requests come at once, and the second one finds a master
        self.assertEqual(node.shapes(other, "REPLICAOF NO ONE\r\nSET k w\r\n"), "send 1 5, used")
        self.assertEqual(shape(node.does(other)), "grow 27, append 27, send 1 5")
        self.assertEqual(node.shapes(client, SET[20:]), "grow 27, append 27, send 0 5")

    def test_requests_come_one_byte_at_a_time(self):
        master = self.master()
        client, said = master.open(), b""
        for byte in SET + b"GET k\r\n":
            master.feed(client, bytes([byte]))
            said += master.talks(client)
        self.assertEqual(said, OK + bulk("v"))
        self.shown(master, "a", 27)


# as many bytes as a node of 64 bits has room for where it sets no limit, and as a client's link takes
ENDLESS, ROOM = 2**64 - 1, 1_073_741_824
# what closes the link of a replica at its master
NO_ACKNOWLEDGEMENTS = [
    "PING\r\n", "NOTHING\r\n", "GET\r\n", "QUIT\r\n", "SHUTDOWN\r\n", "SET k v\r\n", "PSYNC ? -1\r\n", "REPLICAOF NO ONE\r\n", "REPLICAOF h 1\r\n", "BGREWRITEAOF\r\n",
    "REPLCONF listening-port 1\r\n", "REPLCONF ACK\r\n", "REPLCONF ACK x\r\n", "REPLCONF ACK 1 ACK\r\n", "REPLCONF ACK 1 capa eof\r\n", "*x", "*1\r\n:", "'a'b",
]


class Noting(Playing):
    """What comes at a replica's end."""

    def at_replica(self):
        master, client = self.started()
        return master, client, self.follow(self.replica(), master).above

    def test_acknowledgements_are_noted(self):
        master, client, link = self.at_replica()
        for data, offset in [(request("REPLCONF", "ACK", "27"), "27"), ("replconf ack 5\r\n", "5")]:
            self.assertEqual(master.asks(link, data), [])
            self.assertEqual(master.answers(client, "ROLE\r\n"), role_of_master(27, ("", "0", offset)))

    def test_what_is_no_port_or_address_is_not_kept(self):
        """What is longer than one can be is answered the same, and it is as if it hadn't been said."""
        longest = 255 * "a"
        for said, told in [
            ([("listening-port", "65535"), ("ip-address", longest)], (longest, "65535")),
            ([("listening-port", "655350"), ("ip-address", longest + "a")], ("", "0")),
            ([("listening-port", "7"), ("listening-port", "000007"), ("ip-address", "::1"), ("ip-address", 1000 * "1")], ("::1", "7")),
        ]:
            for at_once in (True, False):
                with self.subTest(said=said, at_once=at_once):
                    master, client = self.started()
                    link = master.open()
                    for words in [[word for pair in said for word in pair]] if at_once else said:
                        self.assertEqual(master.answers(link, request("REPLCONF", *words)), OK)
                    self.assertEqual(master.answers(link, asks_from("a", 28)), continues("a"))
                    self.assertEqual(master.answers(client, "ROLE\r\n"), role_of_master(27, (*told, "0")))

    def test_empty_requests_are_used(self):
        master, client, link = self.at_replica()
        for data in ("\r\n", "*0\r\n", "*-1\r\n", "  \n"):
            self.assertEqual(master.asks(link, data), [])
        self.assertEqual(master.step(link), IDLE)
        self.assertIn(("send", link, SET_W), master.asks(client, SET_W))

    def test_a_request_waits_for_its_last_byte(self):
        master, _, link = self.at_replica()
        for byte in request("REPLCONF", "ACK", "27"):
            self.assertEqual(master.step(link), IDLE)
            master.feed(link, bytes([byte]))
        self.assertEqual((master.does(link), master.step(link)), ([], IDLE))

    def test_anything_else_closes_the_link_without_a_reply(self):
        for line in NO_ACKNOWLEDGEMENTS:
            with self.subTest(line=line):
                master, client, link = self.at_replica()
                self.assertEqual(master.asks(link, line), [("close", link)])
                self.assertEqual((master.is_closed(link), master.room(link)), (True, ENDLESS))
                master.feed(link, b"REPLCONF ACK 27\r\n")
                self.assertTrue(master.is_closed(link))
                self.shown(master, "a", 27)
                self.assertEqual(master.answers(client, "ROLE\r\n"), role_of_master(27))
                self.assertEqual(master.shapes(client, SET_W), "grow 27, append 27, send 0 5")

    def test_what_comes_behind_psync_is_a_replicas(self):
        master, client = self.started()
        link = master.open()
        outs = master.asks(link, "PSYNC %s 28\r\nREPLCONF ACK 9\r\nPING\r\n" % ("a" * 40))
        self.assertEqual((outs, len(continues("a"))), ([("send", link, continues("a"))], 52))
        self.assertEqual(master.does(link), [])
        self.assertEqual(master.answers(client, "ROLE\r\n"), role_of_master(27, ("", "0", "9")))
        self.assertEqual(master.does(link), [("close", link)])


# what a replica that stands at 27 under `a` heard so far, and the lines that it refuses then: it goes on from there with the next link
LINES = ["-ERR no\r\n", "-\r\n", "$5\r\n", "$01\r\n", "*", "x", ":1\r\n", "+a\rb", "+a\n", "\r\n"]
CONTINUED, ANNOUNCED = GREETED + continues("a"), GREETED + announces("b", 5)
REFUSED_ANSWERS = ["", " " + "b" * 40, " " + "b" * 39 + " 5", " " + "b" * 41 + " 5", " " + "B" * 40 + " 5", " " + "g" * 40 + " 5"]
REFUSED_ANSWERS += [" %s %s" % ("b" * 40, it) for it in ("-1", "05", "4611686018427387905", "99999999999999999999", "5 5")]
REFUSED_ANSWERS = ["+FULLRESYNC" + it for it in REFUSED_ANSWERS]
REFUSED_ANSWERS += ["+OK", "+", "+CONTINUE", "+CONTINUE " + "a" * 39, "+CONTINUE " + "A" * 40, "+CONTINUE" + "a" * 40, "+continue " + "a" * 40]
REFUSED = [
    (b"", LINES),
    (PONG, LINES),
    (PONG + OK, LINES),
    (GREETED, [*(it + "\r\n" for it in REFUSED_ANSWERS), "-ERR replicas are not chained\r\n", "$5\r\n", "*"]),
    (ANNOUNCED, ["+OK\r\n", "-ERR no\r\n", "$x\r\n", "$\r\n", "$-1\r\n", "$05\r\n", "$4611686018427387905\r\n", "*", "s"]),
]
# and what is no stream, or no snapshot: there is nothing to continue then
SPOILED = [
    (CONTINUED, [
        request("FOO"), request("LPOP", "k", "1"), request("set", "k", "w"), request("GET", "k"), request("PING", "k"), b"*0", b"*-", b"\r\n", b"+OK\r\n", b"SET k w\r\n",
        EXEC, framed(), framed(SET_W), MULTI + MULTI, MULTI + SET_W + PING, MULTI + SET_W + request("GET", "k"), MULTI + b"*0", framed(request("LPOP", "k", "1"), SET_W),
        # a note stands in a file alone
        b"#", b"#\n", b"#TS:5\r\n" + SET_W, MULTI + SET_W + b"#\n",
    ]),
    (ANNOUNCED, [
        b"$3\r\nabc", b"$100\r\n" + request("FOO"), b"$13\r\n" + request("FOO"), b"$28\r\n" + request("LPOP", "k", "1"),
        b"$26\r\n" + SET_W[:26], b"$28\r\n" + SET_W + b"*", b"$2\r\n\r\n", b"$1\r\n#", b"$29\r\n#\n" + SET_W, b"$34\r\n" + SET_W + b"#TS:5\r\n",
    ]),
]


class Listening(Playing):
    """What a replica takes at the link to its master, which is played by hand."""

    def at_27(self):
        """A replica at 27 under `a`, whose link is gone."""
        master, _ = self.started()
        replica = self.replica()
        replica.close(self.follow(replica, master).below)
        return replica

    def heard(self, replica, data):
        """A link on which the replica has used so much."""
        link = self.dialled(replica)
        replica.feed(link, data)
        replica.settles(link)
        return link

    def asked(self, replica):
        """The last line of a handshake."""
        link = self.dialled(replica)
        replica.feed(link, GREETED)
        lines = replica.talks(link)
        replica.close(link)
        return lines[46 + 59 :]

    def test_bad_lines_and_refusals_close_the_link(self):
        for heard, refused in REFUSED:
            for line in refused:
                with self.subTest(heard=heard, line=line):
                    replica = self.at_27()
                    link = self.heard(replica, heard)
                    self.assertEqual(replica.asks(link, line), [("close", link)])
                    self.assertTrue(replica.waits())
                    self.shown(replica, "a", 27)
                    self.assertEqual(self.asked(replica), asks_from("a", 28))

    def test_a_link_that_the_replica_left_is_closed(self):
        """What is fed to it is dropped, until its host closes it."""
        for heard, client_asks, data in [
            # a bad line, a refusal, and what is no stream
            (b"", None, "x"), (GREETED, None, "-ERR no\r\n"), (CONTINUED, None, "x"),
            # it is promoted, or turns to another
            (b"", "REPLICAOF NO ONE\r\n", None), (CONTINUED, "REPLICAOF NO ONE\r\n", None), (CONTINUED, "REPLICAOF h 2\r\n", None),
        ]:
            with self.subTest(heard=heard, client_asks=client_asks, data=data):
                replica = self.at_27()
                client, link = replica.open(), self.heard(replica, heard)
                replica.feed(link, SET_W[:20] if client_asks else b"")
                outs = replica.asks(client, client_asks, fresh="c" * 40) if client_asks else replica.asks(link, data)
                self.assertIn(("close", link), outs)
                self.assertEqual((replica.is_closed(link), replica.room(link), replica.unread(link)), (True, ENDLESS, 0))
                replica.feed(link, SET_W)
                self.assertEqual((replica.is_closed(link), replica.unread(link)), (True, 0))
                self.assertEqual(replica.answers(client, "GET k\r\n"), bulk("v"))
                replica.close(link)
                self.assertEqual((replica.room(link), replica.unread(link)), (None, None))
                for call in (replica.step, lambda it: replica.feed(it, b"x")):
                    with self.assertRaisesRegex(PeerFault, "no such link"):
                        call(link)

    def test_any_line_answers_the_first_three(self):
        replica = self.at_27()
        link = self.dialled(replica)
        for line, length in [(b"+\r\n", 46), (announces("b", 5), 59), (b"+CONTINUE x\r\n", len(asks_from("a", 28)))]:
            self.assertEqual(len(replica.answers(link, line)), length)
        self.assertEqual(replica.step(link), IDLE)

    def test_a_line_has_so_many_bytes_at_most(self):
        line = b"+" + 1023 * b"x"
        replica = self.at_27()
        link = self.heard(replica, line)
        self.assertEqual(replica.shapes(link, "\r\n"), "send 1 46")
        replica.feed(link, line)
        self.assertEqual(replica.step(link), IDLE)
        self.assertEqual(replica.asks(link, "x"), [("close", link)])

    def test_what_is_no_stream_leaves_nothing_to_continue(self):
        for heard, spoiled in SPOILED:
            for data in spoiled:
                with self.subTest(heard=heard, data=data):
                    replica = self.at_27()
                    client = replica.open()
                    link = self.heard(replica, heard)
                    self.assertEqual(replica.asks(link, data), [("close", link)])
                    self.assertTrue(replica.waits())
                    self.shown(replica, "a", 27)
                    self.assertEqual((replica.answers(client, "GET k\r\n"), replica.answers(client, "DBSIZE\r\n")), (bulk("v"), number(1)))
                    self.assertEqual((replica.file, self.asked(replica)), (SET, NOTHING_TO_CONTINUE))

    def test_a_bad_effect_is_refused_behind_the_good_ones(self):
        replica = self.at_27()
        link = self.heard(replica, CONTINUED)
        self.assertEqual(replica.asks(link, SET_W + request("FOO")), [("append", SET_W)])
        self.assertEqual(replica.does(link), [("close", link)])
        self.shown(replica, "a", 54)
        self.assertEqual(self.asked(replica), NOTHING_TO_CONTINUE)

    def test_a_group_is_used_in_one_step(self):
        """Its effects are there at once, and its text is one piece of the file."""
        replica = self.at_27()
        client, link = replica.open(), self.heard(replica, CONTINUED)
        for at in range(len(PAIR) - 1):
            replica.feed(link, PAIR[at : at + 1])
            self.assertEqual(replica.step(link), IDLE)
            self.shown(replica, "a", 27)
            self.assertEqual(replica.answers(client, "MGET a b k\r\n"), array(None, None, "v"))
        self.assertEqual(replica.asks(link, PAIR[-1:] + SET_W + PAIR), [("append", PAIR)])
        self.shown(replica, "a", 110)
        self.assertEqual(replica.answers(client, "MGET a b k\r\n"), array("1", "2", "v"))
        self.assertEqual((replica.does(link), replica.does(link), replica.step(link)), ([("append", SET_W)], [("append", PAIR)], IDLE))
        self.shown(replica, "a", 110 + 27 + 83)
        self.assertEqual(replica.file, SET + PAIR + SET_W + PAIR)

    def test_a_replica_that_was_promoted_has_the_groups_to_send(self):
        replica = self.at_27()
        client, link = replica.open(), self.heard(replica, CONTINUED + PAIR)
        replica.asks(client, "REPLICAOF NO ONE\r\n", fresh="c" * 40)
        self.assertEqual((replica.answers(replica.open(), asks_from("a", 28)), replica.room(link)), (continues("c") + PAIR, ENDLESS))
        self.assertEqual(replica.answers(replica.open(), NOTHING_TO_CONTINUE), announces("c", 110, SET_A + SET_B + SET))

    def test_a_half_group_is_let_go_with_its_link(self):
        for cut in range(1, len(PAIR)):
            replica = self.at_27()
            link = self.heard(replica, CONTINUED + PAIR[:cut])
            self.assertEqual(replica.unread(link), cut)
            replica.close(link)
            self.assertEqual(self.asked(replica), asks_from("a", 28))
            link = self.heard(replica, CONTINUED + PAIR[:1])
            self.assertEqual(replica.asks(link, PAIR[1:]), [("append", PAIR)])
            self.shown(replica, "a", 110)

    def test_what_is_there_to_continue_comes_back(self):
        replica = self.at_27()
        client = replica.open()
        link = self.heard(replica, CONTINUED)
        self.assertEqual(replica.asks(link, "x"), [("close", link)])
        self.assertEqual(self.asked(replica), NOTHING_TO_CONTINUE)
        # another master alone changes nothing about that
        replica.asks(client, "REPLICAOF h 2\r\n")
        self.assertEqual(self.asked(replica), NOTHING_TO_CONTINUE)
        replica.asks(client, "REPLICAOF NO ONE\r\n", fresh="c" * 40)
        replica.asks(client, "REPLICAOF h 2\r\n")
        self.assertEqual(self.asked(replica), asks_from("c", 28))

    def test_a_replica_that_never_synchronized_has_nothing_to_continue(self):
        replica = self.replica()
        client = replica.open()
        self.assertEqual(self.asked(replica), NOTHING_TO_CONTINUE)
        link = self.heard(replica, GREETED)
        self.assertEqual(replica.asks(link, continues("a")), [("close", link)])
        self.shown(replica, "b", 0)
        self.assertEqual(self.asked(replica), NOTHING_TO_CONTINUE)
        replica.asks(client, "REPLICAOF NO ONE\r\n", fresh="c" * 40)
        replica.asks(client, "REPLICAOF h 1\r\n")
        self.assertEqual(self.asked(replica), asks_from("c", 1))

    def test_one_byte_at_a_time(self):
        for data, shown in [
            (CONTINUED + SET_W, ("a" * 40, 54)),
            (CONTINUED + PAIR, ("a" * 40, 110)),
            (GREETED + announces("b", 5, SET_W), ("b" * 40, 5)),
            (GREETED + announces("b", 5, b""), ("b" * 40, 5)),
            (GREETED + announces("b", 5, PING), ("b" * 40, 5)),
        ]:
            replica, steps = self.at_27(), 0
            link = self.dialled(replica)
            for byte in data:
                self.shown(replica, "a", 27)
                replica.feed(link, bytes([byte]))
                steps += replica.settles(link)
            self.assertEqual((steps, replica.shows()), (5, shown))
            # its mark is unset: at the second tick it acknowledges
            self.assertEqual(replica.tick(0), [])
            self.assertEqual(replica.tick(1000), [("send", link, request("REPLCONF", "ACK", str(shown[1])))])

    def test_a_snapshot_comes_in_pieces(self):
        replica = self.at_27()
        client, link = replica.open(), self.heard(replica, ANNOUNCED)
        data = b"$27000\r\n" + 1000 * SET_W
        for at in range(0, len(data) - 1, 1000):
            replica.feed(link, data[at : min(at + 1000, len(data) - 1)])
            self.assertEqual(replica.step(link), IDLE)
            self.shown(replica, "a", 27)
            self.assertEqual(replica.answers(client, "GET k\r\n"), bulk("v"))
        self.assertEqual(replica.asks(link, data[-1:]), [("replace", SET_W)])
        self.shown(replica, "b", 5)
        self.assertEqual(replica.answers(client, "GET k\r\n"), bulk("w"))


class Limits(Playing):
    """Nodes at the greatest offset."""

    def replica_at(self, left, snapshot):
        """A replica that many bytes before the limit, and its link."""
        replica = self.replica()
        link = self.dialled(replica)
        replica.feed(link, GREETED + announces("a", MOST_OFFSET - left, snapshot))
        self.assertEqual(replica.settles(link), 5)
        return replica, link

    def master_at(self, left, snapshot):
        """The same, promoted, with a client and a replica of its own, whose links are 1 and 2."""
        master, _ = self.replica_at(left, snapshot)
        client = master.open()
        master.asks(client, "REPLICAOF NO ONE\r\n", fresh="c" * 40)
        master.asks(master.open(), "PSYNC ? -1\r\n")
        return master, client

    def left(self, peer, id, left):
        self.shown(peer, id, MOST_OFFSET - left)

    def test_no_effect_passes_the_limit(self):
        snapshot = request("SET", "a", "1", "PXAT", "5")
        master, client = self.master_at(14, snapshot)
        # what rebuilds a key and its deadline
        self.assertEqual((len(snapshot), master.file), (44, request("SET", "a", "1") + request("PEXPIREAT", "a", "5")))
        for line, now, reply in [(SET, 0, LIMIT), ("GET k\r\n", 0, NIL), ("GET a\r\n", 0, bulk("1")), ("GET a\r\n", 5, LIMIT), ("FLUSHALL\r\n", 0, LIMIT), ("DEL k\r\n", 0, number(0))]:
            self.assertEqual(master.asks(client, line, now), [("send", client, reply)], line)
        # the key's deletion has no room either, and a tick ends before it
        for now in (10, 10010):
            self.assertEqual(master.tick(now), [])
        self.left(master, "c", 14)

    def test_an_effect_may_end_at_the_limit(self):
        master, client = self.master_at(27, b"")
        self.assertEqual(master.answers(client, "SET k vv\r\n"), LIMIT)
        self.assertEqual(master.answers(client, SET), OK)
        self.left(master, "c", 0)
        self.assertEqual((master.answers(client, "DEL k\r\n"), master.answers(client, "GET k\r\n")), (LIMIT, bulk("v")))

    def test_a_tick_ends_before_the_limit(self):
        snapshot = request("SET", "a", "1", "PXAT", "5") + request("SET", "b", "1", "PXAT", "4")
        master, _ = self.master_at(30, snapshot)
        gone = request("DEL", "b")
        self.assertEqual((len(snapshot), len(gone)), (88, 20))
        self.assertEqual(master.tick(10), [("grow", gone), ("append", gone), ("send", 2, gone)])
        self.assertEqual(master.tick(11), [])
        self.left(master, "c", 10)

    def test_the_last_heartbeat_comes_at_the_limit(self):
        master, client = self.master_at(14, b"")
        for now, outs in [(0, []), (10000, [("grow", PING), ("send", 2, PING)]), (20000, []), (30000, [])]:
            self.assertEqual(master.tick(now), outs, now)
        self.left(master, "c", 0)
        self.assertEqual(master.answers(client, SET), LIMIT)
        self.assertEqual(master.answers(client, "PSYNC %s %d\r\n" % ("c" * 40, MOST_OFFSET + 1)), continues("c"))

    def test_a_replica_takes_the_stream_up_to_the_limit(self):
        replica, link = self.replica_at(14, b"")
        self.assertEqual(replica.asks(link, PING), [])
        self.left(replica, "a", 0)
        self.assertEqual(replica.asks(link, PING), [("close", link)])
        self.left(replica, "a", 0)
        replica, link = self.replica_at(14, b"")
        self.assertEqual(replica.asks(link, SET), [("close", link)])
        self.left(replica, "a", 14)

    def test_a_group_may_end_at_the_limit(self):
        """One that would pass it is refused once a byte is there for which there is no room."""
        replica, link = self.replica_at(83, b"")
        self.assertEqual(replica.asks(link, PAIR), [("append", PAIR)])
        self.left(replica, "a", 0)
        for left in (0, 14, 15, 42, 69, 82):
            replica, link = self.replica_at(left, b"")
            replica.feed(link, PAIR[:left])
            self.assertEqual(replica.step(link), IDLE)
            self.assertEqual(replica.asks(link, PAIR[left : left + 1]), [("close", link)])
            self.left(replica, "a", left)


class Lasting(Playing):
    """Links and outs that come and go, and a node that stops."""

    def refuses(self, why, *calls):
        for call in calls:
            with self.assertRaisesRegex(PeerFault, "^" + why + "$"):
                call()

    def test_a_backlog_has_its_limits(self):
        for backlog, answer in [(0, "refused"), (1, "started"), (1_073_741_824, "started"), (1_073_741_825, "refused")]:
            self.assertEqual(self.program.call("start", self.program.nodes, "a" * 40, "master", 6379, backlog), (answer, []))
            self.program.nodes += answer == "started"

    def test_a_stopped_node_shows_nothing(self):
        master, client = self.started()
        replica = self.replica()
        for node, link, waits in [(master, client, False), (replica, replica.open(), True)]:
            node.feed(link, PING)
            node.file_failed()
            node.file_failed()
            self.assertEqual((node.shows(), node.waits(), node.room(link), node.unread(link)), (None, waits, None, None))
            self.refuses("stopped", node.open, lambda: node.feed(link, b""), lambda: node.step(link), node.info, lambda: node.tick(0))
            if waits:
                self.refuses("stopped", node.dial)
            node.close(link)
            self.refuses("stopped", lambda: node.feed(link, b""))
            self.assertIsNone(node.shows())

    def test_a_torn_group_stops_the_node(self):
        """Of a group that can be applied in part nothing is shown, and nothing goes to the file."""
        for torn in (framed(SET_A, request("LPOP", "k", "1")), framed(request("DEL", "none"), SET_A, request("RENAME", "none", "k"), SET_B)):
            master, _ = self.started()
            replica = self.replica()
            client, link = replica.open(), self.follow(replica, master).below
            replica.feed(link, torn[:-1])
            self.assertEqual(replica.step(link), IDLE)
            self.shown(replica, "a", 27)
            replica.feed(link, torn[-1:])
            self.refuses("stopped", lambda: replica.step(link), lambda: replica.step(link), lambda: replica.feed(client, PING), replica.open, replica.info)
            self.assertEqual((replica.shows(), replica.file), (None, SET))

    def test_a_link_that_is_gone_is_no_link(self):
        master, client = self.started()
        gone = master.open()
        master.close(gone)
        other = master.open()
        self.assertNotEqual(gone, other)
        self.refuses("no such link", lambda: master.feed(gone, b""), lambda: master.step(gone))
        self.assertIsNone(master.room(gone))
        master.close(gone)
        self.assertEqual((master.room(other), master.answers(client, "GET k\r\n")), (ROOM, bulk("v")))

    def test_a_closed_end_gives_its_bytes_back(self):
        """.. before its host closes it: a client's, and that of a link to a master which is left."""
        long, master, replica = 48 << 20, self.master(), self.replica()
        below = self.dialled(replica)
        replica.feed(below, GREETED + announces("b", 5, b""))
        replica.settles(below)
        for node, link in ((master, master.open()), (replica, below)):
            node.feed(link, b"*3\r\n$3\r\nSET\r\n$1\r\nk\r\n$%d\r\n" % long)
            for _ in range(long >> 20):
                node.feed(link, bytes(1 << 20))
            self.assertEqual(node.step(link), IDLE)
            held = self.program.memory()
            # no line end stands behind the word
            self.assertIn(("close", link), node.asks(link, b"xx"))
            self.assertTrue(node.is_closed(link))
            self.assertLess(self.program.memory(), held - long // 2)

    def test_a_full_input_is_never_idle(self):
        # the longest request: two words, of 536,870,912 and of 536,870,880 bytes
        master = self.master()
        client, piece = master.open(), bytes(16_777_216)
        master.feed(client, b"*2\r\n$536870912\r\n")
        for _ in range(32):
            master.feed(client, piece)
        self.assertEqual(master.step(client), IDLE)
        master.feed(client, b"\r\n$536870880\r\n")
        for _ in range(31):
            master.feed(client, piece)
        master.feed(client, piece[:-32])
        self.assertEqual((master.room(client), master.step(client)), (2, IDLE))
        self.refuses("input full", lambda: master.feed(client, b"\r\nx"))
        self.assertEqual(master.room(client), 2)
        master.feed(client, b"\r\n")
        self.assertEqual((master.room(client), master.unread(client)), (0, ROOM))
        self.assertEqual(sent(client, master.does(client)), UNKNOWN)
        self.assertEqual((master.room(client), master.unread(client)), (ROOM, 0))
        # a line that never ends
        master.feed(client, 65_537 * b"x")
        self.assertEqual(master.room(client), ROOM - 65_537)
        self.assertEqual(master.does(client), [("send", client, TOO_LONG), ("close", client)])

    def test_a_master_may_send_without_end(self):
        replica = self.replica()
        self.assertEqual(replica.room(self.dialled(replica)), ENDLESS)

    def test_outs_are_used_again(self):
        """Outs that were long leave nothing behind in the next ones."""
        master, client = self.started()
        replica = self.replica()
        joined = self.follow(replica, master)
        for line, outs in [
            (SET_W, "grow 27, append 27, send 1 27, send 0 5"),
            ("BGREWRITEAOF\r\n", "replace 27, send 0 48"),
            ("SHUTDOWN\r\n", "halt"),
            ("REPLICAOF h 1\r\n", "send 0 5, close 1, follow"),
            ("REPLICAOF NO ONE\r\n", "send 0 5, used"),
        ]:
            self.assertEqual(master.shapes(client, line), outs, line)
            self.assertEqual((master.tick(0), master.shapes(client, "PING\r\n")), ([], "send 0 7"), line)
        reader = replica.open()
        for effect, outs in [(SET_W, "append 27"), (PING, ""), (SET, "append 27")]:
            self.assertEqual(replica.shapes(joined.below, effect), outs)
            self.assertEqual((replica.step(joined.below), replica.shapes(reader, "PING\r\n")), (IDLE, "send 1 7"))
        self.shown(replica, "a", 27 + 27 + 14 + 27)


if __name__ == "__main__":
    unittest.main()
