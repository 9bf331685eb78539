"""Nodes that follow one another: the snapshot and the stream, changes of roles, time, and what they tell of themselves. Bytes are carried from node to node by hand."""

import unittest

from tests.support.handshake import CAPABILITIES, NOTHING_TO_CONTINUE, PORT, announces, asks_from, continues
from tests.support.peers import IDLE, Playing, sent, shape, tells_info
from tests.support.program import request
from tests.support.replies import CHAINED, NIL, OK, PONG, READONLY, arity, bulk, number, role_of_master, role_of_replica
from tests.support.requests import DEL, PING, SET, SET_W, SET_X

# what a master with one key sends to a replica without anything to continue, and what that sends
PONG_TO_SNAPSHOT, PING_TO_PSYNC = 7 + 5 + 5 + 57 + 5 + 27, 14 + 46 + 59 + 30


class Following(Playing):
    """A replica and its master: the snapshot, the stream, and what a broken link costs."""

    def test_an_empty_master_sends_an_empty_snapshot(self):
        master = self.master()
        self.assertEqual(master.answers(master.open(), "PSYNC ? -1\r\n"), announces("a", 0, b""))

    def test_a_snapshot_has_the_dataset(self):
        master, _ = self.started()
        self.assertEqual(master.answers(master.open(), "PSYNC ? -1\r\n"), announces("a", 27, SET))

    def test_a_replica_is_synchronized_with(self):
        master, _ = self.started()
        replica = self.replica()
        self.assertEqual((replica.waits(), master.waits(), master.dial()), (True, False, None))
        below, above, line = self.dialled(replica), master.open(), PING
        self.assertFalse(replica.waits())
        for says, hears in [(PING, PONG), (PORT, OK), (CAPABILITIES, OK)]:
            self.assertEqual(line, says)
            master.feed(above, line)
            self.assertEqual(master.talks(above), hears)
            replica.feed(below, hears)
            line = replica.talks(below)
        self.assertEqual((line, len(line)), (NOTHING_TO_CONTINUE, 30))
        master.feed(above, line)
        answer = master.talks(above)
        self.assertEqual(len(answer), 57 + 5 + 27)
        replica.feed(below, answer[:88])
        self.assertEqual((replica.does(below), replica.step(below)), ([], IDLE))
        self.shown(replica, "b", 0)
        replica.feed(below, answer[88:])
        self.assertEqual(replica.does(below), [("replace", SET)])
        self.shown(replica, "a", 27)
        self.assertEqual((replica.file, replica.step(below)), (SET, IDLE))

    def test_a_snapshot_without_its_last_byte_is_nothing(self):
        master, _ = self.started()
        replica = self.replica()
        joined = self.join(replica, master)
        replica.feed(joined.below, joined.answer[:88])
        self.assertEqual(replica.settles(joined.below), 1)
        replica.close(joined.below)
        self.assertTrue(replica.waits())
        self.shown(replica, "b", 0)
        self.assertEqual(self.follow(replica, master).asked, NOTHING_TO_CONTINUE)
        self.shown(replica, "a", 27)
        self.assertEqual(replica.answers(replica.open(), "GET k\r\n"), bulk("v"))

    def test_a_backlog_of_one_effect_reaches_back_so_far(self):
        master, client = self.started(backlog=27)
        replica = self.replica(backlog=27)
        joined = self.follow(replica, master)
        self.shown(replica, "a", 27)
        replica.close(joined.below)
        master.close(joined.above)
        master.asks(client, SET_W)
        self.shown(master, "a", 54)
        joined = self.join(replica, master)
        self.assertEqual((joined.asked, joined.answer), (asks_from("a", 28), continues("a") + SET_W))
        replica.close(joined.below)
        master.asks(client, SET_X)
        self.shown(master, "a", 81)
        # the first end is closed, and the second one is open still
        self.assertEqual(master.info(), tells_info("master", "a", 81, 55, replicas=1, backlog=27))
        joined = self.follow(replica, master)
        self.assertEqual((joined.asked, joined.answer), (asks_from("a", 28), announces("a", 81, SET_X)))
        self.shown(replica, "a", 81)

    def test_a_replica_keeps_a_key_whose_deadline_has_come(self):
        master, replica = self.master(), self.replica()
        client = master.open()
        master.asks(client, SET, now=1000)
        self.assertEqual(master.shapes(client, "EXPIRE k 10\r\n", now=1000), "grow 37, append 37, send 0 4")
        joined = self.follow(replica, master)
        self.shown(replica, "a", 64)
        reader = replica.open()
        for line, now, answer in [("GET k\r\n", 12000, NIL), ("PTTL k\r\n", 12000, number(-2)), ("GET k\r\n", 10999, bulk("v"))]:
            self.assertEqual(replica.answers(reader, line, now), answer)
        self.assertEqual(replica.tick(12000), [])
        self.shown(replica, "a", 64)
        outs = master.asks(client, "GET k\r\n", now=11000)
        self.assertEqual(outs, [("grow", DEL), ("append", DEL), ("send", joined.above, DEL), ("send", client, NIL)])
        replica.feed(joined.below, DEL)
        self.assertEqual((len(DEL), replica.does(joined.below)), (20, [("append", DEL)]))
        self.shown(replica, "a", 84)
        self.assertEqual(replica.answers(reader, "EXISTS k\r\n", now=10999), number(0))

    def test_a_half_read_effect_is_dropped(self):
        master, client = self.started()
        replica = self.replica()
        joined = self.follow(replica, master)
        outs = master.asks(client, SET_W)
        self.assertEqual(outs, [("grow", SET_W), ("append", SET_W), ("send", joined.above, SET_W), ("send", client, OK)])
        replica.feed(joined.below, SET_W[:26])
        self.assertEqual(replica.step(joined.below), IDLE)
        self.shown(replica, "a", 27)
        replica.close(joined.below)
        self.shown(replica, "a", 27)
        joined = self.join(replica, master)
        self.assertEqual((joined.asked, len(joined.answer)), (asks_from("a", 28), 52 + 27))
        replica.feed(joined.below, joined.answer)
        for outs, offset in [([], 27), ([("append", SET_W)], 54)]:
            self.assertEqual(replica.does(joined.below), outs)
            self.shown(replica, "a", offset)
        # it goes on under the same id: there is no second one
        self.assertEqual(replica.info(), tells_info("slave", "a", 54, 28))
        self.assertEqual(replica.file, SET + SET_W)

    def test_a_snapshot_and_the_stream_come_in_one_piece(self):
        master, client = self.started()
        replica = self.replica()
        joined = self.join(replica, master)
        replica.feed(joined.below, joined.answer + sent(joined.above, master.asks(client, SET_W)))
        self.assertEqual(replica.settles(joined.below), 3)
        self.shown(replica, "a", 54)

    def test_the_replicas_end_breaks_at_each_byte(self):
        for whole in range(PONG_TO_SNAPSHOT):
            with self.subTest(whole=whole):
                master, _ = self.started()
                replica = self.replica()
                below, above, line, left = self.dialled(replica), master.open(), PING, whole
                for _ in range(4):
                    master.feed(above, line)
                    answer = master.talks(above)
                    replica.feed(below, answer[:left])
                    left -= min(left, len(answer))
                    line = replica.talks(below)
                replica.close(below)
                self.assertEqual(left, 0)
                self.shown(replica, "b", 0)
                self.follow(replica, master)
                self.shown(replica, "a", 27)

    def test_the_masters_end_breaks_at_each_byte(self):
        for whole in range(PING_TO_PSYNC):
            with self.subTest(whole=whole):
                master, _ = self.started()
                replica = self.replica()
                below, above, line, left = self.dialled(replica), master.open(), PING, whole
                for _ in range(4):
                    master.feed(above, line[:left])
                    left -= min(left, len(line))
                    replica.feed(below, master.talks(above))
                    line = replica.talks(below)
                master.close(above)
                self.assertEqual((left, replica.waits()), (0, False))
                self.shown(replica, "b", 0)
                replica.close(below)
                self.follow(replica, master)
                self.shown(replica, "a", 27)


class Promoting(Playing):
    """Nodes that change their roles: a split, and what comes back from it."""

    def split(self):
        """A master at 54 under `a`; its first replica, promoted at 27, which is at 54 under `b`; and its second one, still at 27."""
        self.old, self.old_client = self.started()
        self.first, self.second = self.replica("d"), self.replica("e")
        self.follow(self.first, self.old)
        self.second_link = self.follow(self.second, self.old)
        self.shown(self.first, "a", 27)
        self.shown(self.second, "a", 27)
        self.assertEqual(self.old.shapes(self.old_client, SET_X), "grow 27, append 27, send 1 27, send 2 27, send 0 5")
        self.shown(self.old, "a", 54)
        self.first_client = self.first.open()
        outs = self.first.asks(self.first_client, "REPLICAOF NO ONE\r\n", fresh="b" * 40)
        self.assertEqual(outs, [("send", self.first_client, OK), ("close", 0), ("used", "b" * 40)])
        self.assertFalse(self.first.waits())
        self.shown(self.first, "b", 27)
        self.assertEqual(self.first.shapes(self.first_client, SET_W), "grow 27, append 27, send 1 5")
        self.shown(self.first, "b", 54)
        self.assertEqual(self.first.info(), tells_info("master", "b", 54, 28, second="a", second_offset=28))

    def test_a_replica_goes_on_under_the_promoted_ones_id(self):
        self.split()
        self.second.close(self.second_link.below)
        joined = self.join(self.second, self.first)
        self.assertEqual((joined.asked, joined.answer), (asks_from("a", 28), continues("b") + SET_W))
        self.second.feed(joined.below, joined.answer)
        self.assertEqual(self.second.settles(joined.below), 2)
        self.shown(self.second, "b", 54)
        self.assertEqual(self.second.info(), tells_info("slave", "b", 54, 28, second="a", second_offset=28))
        self.assertEqual(self.second.answers(self.second.open(), "GET k\r\n"), bulk("w"))

    def test_the_old_master_comes_back_and_loses_what_it_wrote(self):
        self.split()
        outs = self.old.asks(self.old_client, "REPLICAOF h 1\r\n")
        self.assertEqual(outs, [("send", 0, OK), ("close", 1), ("close", 2), ("follow", b"h", 1)])
        self.shown(self.old, "a", 54)
        joined = self.follow(self.old, self.first)
        self.assertEqual((joined.asked, joined.answer), (asks_from("a", 55), announces("b", 54, SET_W)))
        self.shown(self.old, "b", 54)
        self.assertEqual(self.old.info(), tells_info("slave", "b", 54, 55))
        self.assertEqual((self.old.file, self.old.answers(self.old_client, "GET k\r\n")), (SET_W, bulk("w")))

    def test_a_master_goes_on_under_the_id_of_who_was_promoted_again(self):
        self.split()
        # the promoted one comes back to the old master, and is promoted once more
        self.assertEqual(self.first.shapes(self.first_client, "REPLICAOF h 1\r\n"), "send 1 5, follow")
        joined = self.follow(self.first, self.old)
        self.assertEqual((joined.asked, joined.answer), (asks_from("b", 55), announces("a", 54, SET_X)))
        self.shown(self.first, "a", 54)
        self.assertEqual(self.first.info(), tells_info("slave", "a", 54, 55))
        outs = self.first.asks(self.first_client, "SLAVEOF no one\r\n", fresh="c" * 40)
        self.assertEqual(outs, [("send", 1, OK), ("close", joined.below), ("used", "c" * 40)])
        self.shown(self.first, "c", 54)
        self.assertEqual(self.first.info(), tells_info("master", "c", 54, 55, second="a", second_offset=55))
        self.old.asks(self.old_client, "REPLICAOF h 1\r\n")
        joined = self.join(self.old, self.first)
        self.assertEqual((joined.asked, joined.answer), (asks_from("a", 55), continues("c")))
        self.old.feed(joined.below, joined.answer)
        self.assertEqual(self.old.settles(joined.below), 1)
        self.shown(self.old, "c", 54)
        self.assertEqual(self.old.info(), tells_info("slave", "c", 54, 1, second="a", second_offset=55))

    def test_the_second_id_continues_up_to_where_it_ended(self):
        self.split()
        full, short = 57 + 5 + 27, 52
        for id, wanted, length in [
            ("a" * 40, 28, short + 27),
            # one byte more than the second id has, and one less than the backlog
            ("a" * 40, 29, full),
            ("a" * 40, 27, full),
            ("b" * 40, 27, full),
            ("b" * 40, 28, short + 27),
            ("b" * 40, 55, short),
            ("b" * 40, 56, full),
            ("b" * 40, -1, full),
            ("b" * 40, 0, full),
            ("b" * 40, -(2**63), full),
            ("b" * 40, 2**63 - 1, full),
            ("B" * 40, 55, full),
            ("b" * 39, 55, full),
            ("0" * 40, 28, full),
        ]:
            answer = self.first.answers(self.first.open(), "psync %s %d\r\n" % (id, wanted))
            self.assertEqual(len(answer), length, (id, wanted))

    def test_a_replica_writes_nothing(self):
        master, _ = self.started()
        replica = self.replica()
        self.follow(replica, master)
        self.assertEqual(replica.answers(replica.open(), SET), READONLY)
        self.shown(replica, "a", 27)
        self.assertEqual(replica.file, SET)

    def test_replicas_are_not_chained(self):
        self.split()
        # the first one is a replica once more, that nobody is to follow
        self.first.asks(self.first_client, "REPLICAOF h 1\r\n")
        self.second.close(self.second_link.below)
        joined = self.join(self.second, self.first)
        self.assertEqual(joined.answer, CHAINED)
        self.second.feed(joined.below, joined.answer)
        self.assertEqual(self.second.does(joined.below), [("close", joined.below)])
        self.assertTrue(self.second.waits())
        self.shown(self.second, "a", 27)
        # it still has something to continue
        self.assertEqual(len(self.follow(self.second, self.old).answer), 52 + 27)
        self.shown(self.second, "a", 54)

    def test_a_master_that_was_a_replica_for_a_while_takes_a_fresh_id(self):
        master, client = self.started()
        master.asks(client, "REPLICAOF h 1\r\n")
        self.assertEqual(master.answers(client, SET_W), READONLY)
        self.assertEqual(master.shapes(client, "REPLICAOF NO ONE\r\n", fresh="b" * 40), "send 0 5, used")
        self.shown(master, "b", 27)
        self.assertEqual(master.info(), tells_info("master", "b", 27, 1, second="a", second_offset=28))

    def test_a_key_outlives_two_changes_of_roles(self):
        first, second = self.master("1"), self.master("2")
        near, far = first.open(), second.open()
        first.asks(near, SET)
        second.asks(far, "REPLICAOF node 1\r\n")
        self.assertEqual(self.follow(second, first).asked, asks_from("2", 1))
        self.assertEqual(second.answers(far, "GET k\r\n"), bulk("v"))
        second.asks(far, "REPLICAOF NO ONE\r\n", fresh="4" * 40)
        second.asks(far, SET_W)
        first.asks(near, "REPLICAOF node 2\r\n")
        self.assertEqual(len(self.follow(first, second).answer), 52 + 27)
        self.assertEqual(first.answers(near, "GET k\r\n"), bulk("w"))
        self.shown(first, "4", 54)
        self.shown(second, "4", 54)

    def test_a_replica_that_dials_itself_is_refused(self):
        replica = self.replica()
        below, above = self.dialled(replica), replica.open()
        replica.feed(above, PING)
        for _ in range(4):
            replica.feed(below, replica.talks(above))
            replica.feed(above, sent(below, replica.does(below)))
        self.assertTrue(replica.waits())
        self.assertEqual(replica.answers(above, "PING\r\n"), PONG)
        self.shown(replica, "b", 0)


class Beating(Playing):
    """What a node does as time passes."""

    def ticks(self, peer, *rows):
        """A tick at each moment, with the outs' shape."""
        for now, outs in rows:
            self.assertEqual(shape(peer.tick(now)), outs, now)

    def test_a_heartbeat_comes_every_ten_seconds(self):
        master, _ = self.started()
        replica = self.replica()
        joined = self.follow(replica, master)
        beat = [("grow", PING), ("send", joined.above, PING)]
        for now, outs, offset in [(1000, [], 27), (10999, [], 27), (11000, beat, 41), (20999, [], 41), (21000, beat, 55)]:
            self.assertEqual(master.tick(now), outs, now)
            self.shown(master, "a", offset)
            replica.feed(joined.below, sent(joined.above, outs))
            self.assertEqual(replica.settles(joined.below), 1 if outs else 0)
            self.shown(replica, "a", offset)
        # it stands in the stream, and in no file
        self.assertEqual((len(PING), master.file, replica.file), (14, SET, SET))
        self.assertEqual(replica.info(), tells_info("slave", "a", 55, 28))
        self.assertEqual(master.answers(master.open(), "PSYNC %s 42\r\n" % ("a" * 40)), continues("a") + PING)

    def test_an_acknowledgement_comes_every_second(self):
        master, client = self.started()
        replica = self.replica()
        joined = self.follow(replica, master)
        master.tick(1000)
        replica.feed(joined.below, sent(joined.above, master.tick(11000)))
        self.assertEqual(replica.does(joined.below), [])
        self.ticks(replica, (1000, ""), (1999, ""))
        acknowledged = request("REPLCONF", "ACK", "41")
        self.assertEqual((len(acknowledged), replica.tick(2000)), (35, [("send", joined.below, acknowledged)]))
        self.assertEqual(master.answers(client, "ROLE\r\n"), role_of_master(41, ("", "0", "0")))
        self.assertEqual(master.asks(joined.above, acknowledged), [])
        self.assertEqual(master.answers(client, "ROLE\r\n"), role_of_master(41, ("", "0", "41")))
        self.ticks(replica, (2999, ""), (3000, "send 0 35"))

    def test_one_replica_is_caught_up(self):
        master, _ = self.started()
        first, second = self.replica("b"), self.replica("c")
        near = self.follow(first, master)
        self.follow(second, master)
        master.tick(0)
        outs = master.tick(10000)
        self.assertEqual(shape(outs), "grow 14, send 1 14, send 2 14")
        first.feed(near.below, sent(near.above, outs))
        self.assertEqual(first.settles(near.below), 1)
        self.shown(first, "a", 41)
        self.shown(second, "a", 27)

    def test_the_mark_stays_where_nobody_hears(self):
        master, _ = self.started()
        self.ticks(master, (0, ""), (10000, ""), (20000, ""))
        self.shown(master, "a", 27)
        replica = self.replica()
        joined = self.join(replica, master)
        self.ticks(master, (20001, "grow 14, send 1 14"))
        # before the stream a replica acknowledges nothing, and its mark stays too
        self.ticks(replica, (0, ""), (1000, ""), (2000, ""))
        replica.feed(joined.below, joined.answer)
        self.assertEqual(replica.settles(joined.below), 2)
        self.ticks(replica, (2001, "send 0 35"))
        replica.close(joined.below)
        self.ticks(replica, (9000, ""))

    def test_a_clock_that_went_back_sets_the_mark(self):
        master, _ = self.started()
        replica = self.replica()
        self.follow(replica, master)
        self.ticks(master, (50000, ""), (1000, ""), (10999, ""), (11000, "grow 14, send 1 14"))
        self.ticks(replica, (50000, ""), (1000, ""), (1999, ""), (2000, "send 0 35"))

    def test_a_change_of_role_forgets_the_mark(self):
        node, client = self.started()
        node.tick(0)
        node.asks(client, "REPLICAOF h 1\r\n")
        self.follow(node, self.master("b"))
        self.shown(node, "b", 0)
        self.ticks(node, (5000, ""), (5999, ""), (6000, "send 1 34"))
        node.asks(client, "REPLICAOF NO ONE\r\n", fresh="9" * 40)
        node.asks(node.open(), "PSYNC ? -1\r\n")
        self.ticks(node, (20000, ""), (29999, ""), (30000, "grow 14, send 2 14"))

    def test_expired_keys_go_in_order_of_deadline_and_key(self):
        master = self.master()
        client = master.open()
        for line in ("SET b 1 PX 5\r\n", "SET a 1 PX 5\r\n", "SET c 1 PX 4\r\n"):
            self.assertEqual(master.shapes(client, line), "grow 44, append 44, send 0 5")
        gone = b"".join(request("DEL", key) for key in "cab")
        self.assertEqual((len(gone), master.tick(5)), (60, [("grow", gone), ("append", gone)]))
        self.shown(master, "a", 192)

    def test_a_tick_deletes_at_most_64_keys_and_beats_behind_them(self):
        master, replica = self.master(), self.replica()
        client, keys = master.open(), ["%02d" % it for it in range(70)]
        for key in keys:
            master.asks(client, "SET %s v PX 5\r\n" % key)
        self.follow(replica, master)
        master.tick(0)
        # a heartbeat behind the deletions isn't filed
        gone = b"".join(request("DEL", key) for key in keys[:64])
        self.assertEqual((len(gone), len(gone + PING)), (1344, 1358))
        self.assertEqual(master.tick(10000), [("grow", gone + PING), ("append", gone), ("send", 1, gone + PING)])
        self.ticks(master, (10001, "grow 126, append 126, send 1 126"), (10002, ""))
        # the replica deletes none by itself
        self.ticks(replica, (10000, ""))


class Telling(Playing):
    """What a node tells of itself, by INFO and by ROLE."""

    def test_a_master_tells_of_its_stream(self):
        master, client = self.started()
        told = tells_info("master", "a", 27, 1)
        self.assertEqual((len(told), master.info()), (316, told))
        for line in ("INFO replication\r\n", "INFO\r\n", "info ALL\r\n", "INFO default\r\n"):
            outs = master.asks(client, line)
            self.assertEqual((shape(outs), sent(client, outs)), ("send 0 324", bulk(told)))
        self.assertEqual(master.answers(client, "INFO server\r\n"), bulk(""))

    def test_a_master_tells_of_its_replicas(self):
        master, client = self.started()
        self.assertEqual(master.answers(client, "ROLE\r\n"), role_of_master(27))
        self.assertEqual(master.answers(client, "ROLE x\r\n"), arity("role"))
        replica = self.replica(port=6380)
        joined = self.follow(replica, master)
        self.assertEqual(master.answers(client, "ROLE\r\n"), role_of_master(27, ("", "6380", "0")))
        # a client that asks for the stream without saying anything of itself, after one that says its address
        other, third = master.open(), master.open()
        self.assertEqual(master.answers(other, "REPLCONF ip-address ::1\r\n"), OK)
        master.asks(other, "PSYNC ? -1\r\n")
        master.asks(third, "PSYNC ? -1\r\n")
        self.assertEqual(master.asks(other, "REPLCONF ACK 20\r\n"), [])
        told = role_of_master(27, ("", "6380", "0"), ("::1", "0", "20"), ("", "0", "0"))
        self.assertEqual(master.answers(client, "ROLE\r\n"), told)
        self.assertEqual(master.info(), tells_info("master", "a", 27, 1, replicas=3))
        master.close(joined.above)
        master.close(other)
        self.assertEqual(master.info(), tells_info("master", "a", 27, 1, replicas=1))
        master.close(third)
        self.assertEqual(master.answers(client, "ROLE\r\n"), role_of_master(27))

    def test_replicas_stand_in_the_order_in_which_they_became_some(self):
        master, client = self.started()
        links = [master.open() for _ in range(3)]
        for link, port in zip(links, "123"):
            master.asks(link, "REPLCONF listening-port %s\r\n" % port)
        for link in (links[2], links[0], links[1]):
            master.asks(link, "PSYNC ? -1\r\n")
        self.assertEqual(master.answers(client, "ROLE\r\n"), role_of_master(27, *(("", port, "0") for port in "312")))

    def test_a_replica_tells_of_its_master(self):
        master, _ = self.started()
        replica = self.replica()
        client = replica.open()

        def tells(*words):
            self.assertEqual((replica.answers(client, "ROLE\r\n"), replica.role()), (role_of_replica(*words), words[2]))

        tells("", 0, "connect", 0)
        outs = replica.asks(client, "REPLICAOF localhost 6379\r\n")
        self.assertEqual(outs, [("send", client, OK), ("follow", b"localhost", 6379)])
        joined = self.join(replica, master)
        tells("localhost", 6379, "sync", 0)
        replica.feed(joined.below, joined.answer)
        replica.does(joined.below)
        tells("localhost", 6379, "sync", 0)
        replica.does(joined.below)
        tells("localhost", 6379, "connected", 27)
        self.assertEqual(replica.info(), tells_info("slave", "a", 27, 28))
        replica.close(joined.below)
        tells("localhost", 6379, "connect", 27)


if __name__ == "__main__":
    unittest.main()
