"""Servers that follow what is no master or a master that sends groups, what a master knows of its replicas, and masters that redis-cli names."""

import random
import shutil
import socket
import subprocess
import time
import unittest

from tests.support.handshake import GREETED, PART, WHOLE, asks_from
from tests.support.program import LATE, needs, request
from tests.support.replicas import Played, closes, garbage, said_in
from tests.support.replicating import Replicating, leads
from tests.support.replies import OK, PONG, READONLY, array, bulk, number, role_of_replica
from tests.support.requests import EXEC, MULTI, PAIR, PING, SET, SET_A, SET_W, framed
from tests.support.server import HOST, until

# how long after the last write a master knows how far its replicas are, in seconds
ACKNOWLEDGED = 2
# what a server says of a master that it can't dial, and of one that it can't reach
UNDIALLED = b"not dialled: its host is no IPv4 address, or no socket is left"
UNREACHED = b"not reached, or link lost in the handshake"
# dials in a second, at most
MOST_DIALS = 50


class WrongMasters(Replicating):
    """A node that is told to follow what is no master: it serves reads, doesn't spin, and follows again once there is one."""

    def setUp(self):
        super().setUp()
        self.replica = self.node()
        self.writes.play(self.replica, 50)
        self.assertEqual(self.replica.asks("SET", "k", "v"), OK)
        self.held = self.looks(self.replica)[0].held

    def serves_reads(self, host, port, link="connect"):
        """It holds what it held, and says whom it follows and how far it has come."""
        self.assertEqual(self.replica.asks("GET", "k"), bulk("v"))
        self.assertEqual(self.replica.asks("SET", "k", "w"), READONLY)
        self.assertEqual(self.looks(self.replica)[0].held, self.held)
        role = [role_of_replica(host, port, it, self.replica.said().offset) for it in (link, "sync")]
        self.assertIn(self.replica.asks("ROLE"), role)

    def does_not_spin(self, seconds=1):
        """It takes little of the processor's time while it waits."""
        before, end = self.replica.used(), time.monotonic() + seconds
        self.comes(lambda: time.monotonic() >= end)
        self.assertLess(self.replica.used() - before, 0.3 * seconds)

    def follows_again(self, master):
        """The peer is a master now."""
        self.writes.play(master, 20)
        self.assertEqual(master.asks("SET", "right", "v"), OK)
        self.assertNotEqual(self.caught_up(master, self.replica).held, self.held)
        self.assertEqual(self.replica.asks("GET", "right"), bulk("v"))

    def test_a_port_where_nobody_listens(self):
        """It dials again by itself, and follows who listens there at last."""
        with socket.socket() as it:
            # nobody else gets it meanwhile, and nobody listens on it
            it.bind((HOST, 0))
            port = it.getsockname()[1]
            self.assertTrue(self.replica.follow(port))
            self.serves_reads(HOST, port)
            self.does_not_spin()
            self.serves_reads(HOST, port)
        self.follows_again(self.node(port=port))

    def test_hosts_that_are_no_address(self):
        """No name is looked up."""
        for host in ("nowhere.invalid", "", "256.1.1.1", "127.0.0.1 ", "::1", "x" * 300):
            self.assertTrue(self.replica.follow(6379, host))
            self.serves_reads(host, 6379)
        self.does_not_spin()
        master = self.node()
        self.assertTrue(self.replica.follow(master.port, "localhost"))
        self.follows_again(master)
        self.follows(self.replica, master.port, host="localhost")

    def test_a_peer_that_closes_at_once(self):
        """It is dialled again and again, but not often."""
        fake = self.fake(closes)
        self.assertTrue(self.replica.follow(fake.port))
        self.comes(lambda: fake.dials > 2)
        before, began = fake.dials, time.monotonic()
        self.does_not_spin()
        dials, took = fake.dials - before, time.monotonic() - began
        self.assertTrue(0 < dials < MOST_DIALS * took, dials)
        self.serves_reads(HOST, fake.port)
        fake.close()
        self.follows_again(self.node(port=fake.port))

    def test_a_peer_that_speaks_nonsense(self):
        """Whatever is wrong in what a master says, what is held stays."""
        for at, said in enumerate(NONSENSE):
            with self.subTest(said=said[:60]):
                fake = self.fake(garbage(said))
                self.assertTrue(self.replica.follow(fake.port))
                self.comes(lambda: fake.dials > 1)
                self.serves_reads(HOST, fake.port)
                self.assertLess(fake.dials, MOST_DIALS)
                fake.close()
        master = self.node()
        self.assertTrue(self.replica.follow(master.port))
        self.follows_again(master)

    def test_a_peer_that_speaks_random_bytes(self):
        chance = random.Random(16)

        def does(link):
            link.sendall(chance.choice((b"", GREETED, GREETED + WHOLE + b"a" * 40 + b" 5\r\n$1000\r\n")) + chance.randbytes(chance.choice((1, 100, 2000))))

        fake = self.fake(does)
        self.assertTrue(self.replica.follow(fake.port))
        self.comes(lambda: fake.dials > 10)
        self.serves_reads(HOST, fake.port)
        fake.close()
        self.follows_again(self.node(port=fake.port))

    def test_nonsense_in_the_stream(self):
        """Behind a whole copy and one effect: what was applied is held, under the id of that stream, and nothing else is."""
        id = "a" * 40
        snapshot, effect = request("SET", "k", "v"), request("SET", "l", "w")
        text = GREETED + WHOLE + id.encode() + b" 100\r\n$27\r\n" + snapshot + effect
        groups = [EXEC, framed(effect), MULTI + PING, MULTI + effect + MULTI, MULTI + request("GET", "k"), framed(request("LPUSH", "k", "x"), effect)]
        for bad in (b"garbage\r\n", request("NOTHING"), request("GET", "k"), request("LPUSH", "k", "x"), b"*0\r\n", *groups):
            with self.subTest(bad=bad):
                fake = self.fake(garbage(text + bad))
                self.assertTrue(self.replica.follow(fake.port))
                self.comes(lambda: fake.dials > 1)
                self.comes(lambda: self.replica.said().shows == (id, 127))
                self.assertEqual(self.replica.asks("MGET", "k", "l"), array("v", "w"))
                self.assertEqual(self.replica.asks("DBSIZE"), number(2))
                fake.close()
        master = self.node()
        self.assertTrue(self.replica.follow(master.port))
        self.follows_again(master)

    def test_a_peer_that_never_answers(self):
        """Reads are served, and another master may be named."""
        fake = self.fake(garbage(b""))
        self.assertTrue(self.replica.follow(fake.port))
        self.comes(lambda: fake.dials > 0)
        self.serves_reads(HOST, fake.port, "sync")
        self.does_not_spin()
        master = self.node()
        self.assertTrue(self.replica.follow(master.port))
        self.follows_again(master)

    def test_itself(self):
        """A node that follows itself is answered that replicas aren't chained: it serves reads, and doesn't spin."""
        self.assertTrue(self.replica.follow(self.replica.port))
        self.does_not_spin()
        self.serves_reads(HOST, self.replica.port)
        self.assertTrue(self.replica.promote())
        self.assertEqual(self.replica.asks("SET", "k", "w"), OK)

    def test_two_that_follow_each_other(self):
        """Neither sends the other anything; once one is promoted the other goes on by a part."""
        master, other = self.followed()
        proxy = self.proxy(master)
        self.assertTrue(other.follow(proxy.port))
        self.caught_up(master, other)
        self.assertTrue(master.follow(other.port))
        self.comes(lambda: len(proxy.links) > 3)
        held = self.looks(master, other)
        self.assertEqual(held[0], held[1])
        self.assertLess(master.used() + other.used(), 1)
        new = self.promoted(master)
        self.assertEqual(master.asks("SET", "k", "v"), OK)
        self.caught_up(master, other)
        self.assertIn(PART + new.id.encode(), proxy.heard()[-1])

    def test_a_replica_as_a_master(self):
        """Replicas aren't chained; who waits at one follows it once it is promoted."""
        master, between = self.followed()
        self.assertTrue(self.replica.follow(between.port))
        self.does_not_spin()
        self.serves_reads(HOST, between.port)
        self.promoted(between)
        self.follows_again(between)


class Told(Replicating):
    """What a server says of a master that it can't follow: once, however often it dials, but for a copy, which it says once a second at most."""

    def tells(self, does, *lines):
        """It follows a peer that does this, dials it again and again, and says these lines."""
        fake, self.began = self.fake(does), time.monotonic()
        node = self.node(follows=fake.port)
        self.comes(lambda: fake.dials > 3)
        self.says(node, fake.port, *lines)

    def says(self, node, port, *lines, host=HOST):
        replica = b"replica of %s:%d, " % (host.encode(), port)
        told, began = [it[len(replica) :] for it in node.told() if it.startswith(replica)], b"whole copy begins"
        if began in told:
            self.assertLessEqual(told.count(began), 1 + time.monotonic() - self.began)
            told = list(dict.fromkeys(told))
        self.assertEqual(told, [*lines[:1], b"not in its stream", *lines[1:]] if lines[0] == UNDIALLED else [b"not in its stream", *lines])

    def test_a_port_where_nobody_listens(self):
        with socket.socket() as it:
            it.bind((HOST, 0))
            port = it.getsockname()[1]
            node, began = self.node(follows=port), time.monotonic()
            self.comes(lambda: time.monotonic() > began + 1.5)
            self.says(node, port, UNREACHED)

    def test_a_host_that_is_no_address(self):
        node, began = self.node(), time.monotonic()
        self.assertTrue(node.follow(6379, "nowhere.invalid"))
        self.comes(lambda: time.monotonic() > began + 1.5)
        self.says(node, 6379, UNDIALLED, host="nowhere.invalid")

    def test_a_peer_that_closes_at_once(self):
        self.tells(closes, UNREACHED)

    def test_an_error(self):
        """In the place of any answer: the error is told."""
        copies = GREETED + WHOLE + b"a" * 40 + b" 27\r\n"
        for before in (b"", GREETED[:7], GREETED):
            self.tells(garbage(before + b"-NOAUTH Authentication required.\r\n+OK\r\n"), b"refused by it: -NOAUTH Authentication required.")
        self.tells(garbage(copies + b"-ERR late\r\n"), b"whole copy begins", b"refused by it: -ERR late")

    def test_a_line_that_may_not_stand_there(self):
        for before, bad, shown in (
            (b"", b"HTTP/1.1 400 Bad Request\r\n\r\n", b"HTTP/1.1 400 Bad Request"),
            (b"", b"\0\xffx", b"??x"),
            (b"", b"$27\r\n" + SET, b"$27"),
            (GREETED, b"+OK\r\n", b"+OK"),
            (GREETED, b"x" * 200, b"x" * 100),
        ):
            self.tells(garbage(before + bad), b"left for a bad line: " + shown)
        self.tells(garbage(GREETED + WHOLE + b"a" * 40 + b" 27\r\n+OK\r\n"), b"whole copy begins", b"left for a bad line: +OK")

    def test_bytes_that_are_no_copy(self):
        for bad in (27 * b"x", SET[:-1] + b"x", request("GET", "kk")):
            self.tells(garbage(GREETED + WHOLE + b"a" * 40 + b" 27\r\n$27\r\n" + bad), b"whole copy begins", b"left for bad bytes in a whole copy")

    def test_a_copy_that_breaks_off(self):
        def does(link):
            link.sendall(GREETED + WHOLE + b"a" * 40 + b" 27\r\n$27\r\n" + SET[:-1])

        self.tells(does, b"whole copy begins", b"link lost within a whole copy")

    def test_bytes_in_the_stream(self):
        """Of no effect, or of one that doesn't apply: the offset is that behind which they stand."""
        for bad in (b"garbage\r\n", request("GET", "k"), request("LPUSH", "k", "x")):
            master = Played()
            fake = self.fake(master)
            node = self.node(follows=fake.port)
            self.comes(lambda: node.said().shows == ("a" * 40, 27))
            master.says(SET_W + bad)
            self.comes(lambda: len(master.links) == 2)
            port, told = fake.port, node.told()
            replica = b"replica of %s:%d, " % (HOST.encode(), port)
            told = [it[len(replica) :] for it in told if it.startswith(replica)]
            # with nothing to continue, a copy comes again
            self.assertEqual(told[4:6], [b"left for bad bytes in its stream behind offset 54", b"not in its stream"])


class Groups(Replicating):
    """A master that the test plays sends several effects as one group: a replica does all of it or nothing, and shows no offset within it."""

    def setUp(self):
        super().setUp()
        self.master = Played()
        self.replica = self.node(follows=self.fake(self.master).port, aof=self.path)
        self.comes(lambda: self.look() == (("a" * 40, 27), array(None, None, "v")))

    def came(self, count, asked):
        """The replica has come so often, and asked this last."""
        self.comes(lambda: len(self.master.links) == count)
        self.assertEqual(self.master.asked[-1], asked)

    def look(self):
        """The id and the offset that are shown, and what three keys hold then."""
        # what the master said before is taken by the time that this is answered
        self.assertEqual(self.replica.asks("PING"), PONG)
        self.replica.asked.send(request("INFO", "replication") + request("MGET", "a", "b", "k"))
        return said_in(self.replica.asked.reply()).shows, self.replica.asked.reply()

    def test_a_group_is_shown_with_its_last_byte(self):
        for at in range(82):
            self.master.says(PAIR[at : at + 1])
            self.assertEqual(self.look(), (("a" * 40, 27), array(None, None, "v")))
        self.assertEqual(self.bytes(), SET)
        self.master.says(PAIR[82:])
        self.comes(lambda: self.look()[0] != ("a" * 40, 27))
        self.assertEqual(self.look(), (("a" * 40, 110), array("1", "2", "v")))
        self.assertEqual(self.bytes(), SET + PAIR)

    def test_many_groups_in_random_pieces(self):
        """At each offset that is shown the keys hold what the groups up to there made of them."""
        chance, sent, held = random.Random(16), b"", {27: array(None, None, "v")}
        for at in range(400):
            word, long = str(at), chance.randbytes(30)
            sent += framed(*(request(*it) for it in (("SET", "a", word), ("DEL", "k"), ("SET", "b", word), ("SET", "k", long), ("SET", "k", word))))
            held[27 + len(sent)] = array(word, word, word)
            if at % 4 == 0:
                sent += PING
                held[27 + len(sent)] = array(word, word, word)
        at, shown = 0, set()
        while at < len(sent):
            size = chance.choice((1, 10, 100, 300, 1000))
            self.master.says(sent[at : at + size])
            at += size
            (_, offset), keys = self.look()
            self.assertEqual(keys, held.get(offset), offset)
            shown.add(offset)
        self.comes(lambda: self.look() == (("a" * 40, 27 + len(sent)), array("399", "399", "399")))
        self.assertGreater(len(shown), 50)
        self.assertEqual(self.bytes(), SET + sent.replace(PING, b""))

    def test_a_link_that_breaks_within_a_group(self):
        """The replica asks for the byte behind the last whole group, and takes all of the next from there."""
        for count, cut in enumerate((1, 14, 15, 42, 69, 82)):
            offset = 27 + 83 * count
            group = framed(request("SET", "a", str(count)), request("SET", "b", str(count)))
            self.assertEqual(len(group), 83)
            before = self.look()
            self.assertEqual(before[0], ("a" * 40, offset))
            self.master.says(group[:cut])
            self.assertEqual(self.look(), before)
            self.master.breaks()
            self.came(count + 2, asks_from("a", offset + 1))
            self.assertEqual(self.look(), before)
            self.master.says(group)
            self.comes(lambda: self.look() != before)
            self.assertEqual(self.look(), (("a" * 40, offset + 83), array(str(count), str(count), "v")))

    def test_a_torn_group_ends_the_program(self):
        """Nothing of it is in the file: whoever starts with that has what was there before it."""
        self.master.says(PAIR)
        self.comes(lambda: self.look()[0] == ("a" * 40, 110))
        self.master.says(framed(request("DEL", "a"), request("SET", "b", "w"), request("LPUSH", "k", "x"), request("SET", "c", "w")))
        ended = self.replica.ended()
        self.assertEqual((ended.returncode, ended.stdout, ended.stderr), (3, b"", b"minired: out of memory, or a group in the master's stream that does not apply as a whole\n"))
        self.assertEqual(self.bytes(), SET + PAIR)
        self.replica = self.node(aof=self.path)
        self.assertEqual((self.look()[1], self.replica.asks("DBSIZE")), (array("1", "2", "v"), number(3)))

    def test_a_large_group(self):
        """Of more than a megabyte, in pieces, as of small effects: it is there at once."""
        group = framed(*(request("RPUSH", "l", "%06d" % at) for at in range(40_000)), request("SET", "a", "1"))
        self.assertGreater(len(group), 1 << 20)
        for at in range(0, len(group) - 1, 100_000):
            self.master.says(group[at : min(at + 100_000, len(group) - 1)])
            self.assertEqual(self.look(), (("a" * 40, 27), array(None, None, "v")))
        self.assertEqual(self.replica.asks("LLEN", "l"), number(0))
        self.master.says(group[-1:])
        self.comes(lambda: self.look()[0] == ("a" * 40, 27 + len(group)))
        self.assertEqual((self.replica.asks("LLEN", "l"), self.replica.asks("GET", "a")), (number(40_000), bulk("1")))
        self.assertTrue(self.bytes() == SET + group)

    def test_what_follows_the_promoted_replica_is_sent_its_groups(self):
        self.master.says(PAIR + SET_A)
        self.comes(lambda: self.look()[0] == ("a" * 40, 137))
        new = self.promoted(self.replica)
        client, wanted = self.client(self.replica), b"%s%s\r\n" % (PART, new.id.encode()) + PAIR + SET_A
        client.send(asks_from("a", 28))
        self.assertEqual(client.receive(len(wanted)), wanted)


# a handshake's answers before that to PSYNC
NONSENSE = [
    b"\0",
    b"HTTP/1.1 400 Bad Request\r\n\r\n",
    b"-ERR no\r\n",
    b"+" + b"x" * 2000,
    b"$5\r\n",
    GREETED + b"-LOADING\r\n",
    GREETED + PART + b"a" * 40 + b" 7\r\n",
    GREETED + WHOLE + b"a" * 39 + b" 0\r\n$0\r\n",
    GREETED + WHOLE + b"a" * 40 + b" -1\r\n$0\r\n",
    GREETED + WHOLE + b"a" * 40 + b" 0\r\n$-1\r\n",
    GREETED + WHOLE + b"a" * 40 + b" 0\r\n$9223372036854775807\r\n",
    GREETED + WHOLE + b"a" * 40 + b" 0\r\n$20\r\nREDIS0009garbagegarb",
    # a command that is cut by the snapshot's end, one that is none, and one that can't be applied
    GREETED + WHOLE + b"a" * 40 + b" 0\r\n$26\r\n" + request("SET", "k", "w"),
    GREETED + WHOLE + b"a" * 40 + b" 0\r\n$23\r\n" + request("FOO", "k"),
    GREETED + WHOLE + b"a" * 40 + b" 0\r\n$54\r\n" + request("SET", "k", "w") + request("INCRBY", "k", "1"),
]


class Acknowledgements(Replicating):
    def test_a_replica_may_leave_as_much_unread_as_comes(self):
        """The limit of 64 MiB is for clients: a replica that takes nothing for a while has its link, and then all of the stream, in order."""
        master = self.node()
        deaf, value = self.client(master, room=1 << 18), bytes(1 << 20)
        self.assertEqual(master.asks("SET", "k", value), OK)
        deaf.send(request("PSYNC", "?", "-1"))
        self.comes(lambda: master.said().followers == 1)
        for at in range(80):
            self.assertEqual(master.asks("SET", "k", b"%02d" % at + value[2:]), OK)
        self.assertEqual(master.said().followers, 1)
        last = request("SET", "k", b"79" + value[2:])
        while deaf.kept.find(last, max(0, len(deaf.kept) - 2 * len(last))) < 0:
            self.assertTrue(deaf.more())
        begun = [deaf.kept.find(b"\r\n%02d" % at + value[2:10]) for at in range(80)]
        self.assertEqual(begun, sorted(begun))
        self.assertGreater(begun[0], 0)

    def test_a_master_knows_how_far_its_replicas_are(self):
        """Two seconds after the writes stop ROLE tells each replica's port with the master's offset, in the order in which they came."""
        master, first, second = self.followed(2)
        for _ in range(2):
            self.writes.play(master, 50)
            self.comes(self.writes.are_calm)
            self.assertEqual(master.asks("SET", "last", "v"), OK)
            self.acknowledged(master, first, second)
        second.kill()
        self.comes(lambda: master.said().followers == 1)
        self.acknowledged(master, first)

    def acknowledged(self, master, *nodes):
        stopped = time.monotonic()

        def are_there():
            offset = master.said().offset
            told = master.asks("ROLE")
            return any(told == leads(offset, *((it, offset) for it in order)) for order in (nodes, nodes[::-1]))

        self.assertTrue(until(are_there, ACKNOWLEDGED), master.asks("ROLE"))
        self.assertLess(time.monotonic() - stopped, ACKNOWLEDGED + 1)


class OfRedisCli(Replicating):
    def setUp(self):
        super().setUp()
        needs(self, shutil.which("redis-cli"), "redis-tools")

    def tells(self, node, *words):
        ran = subprocess.run(["redis-cli", "-p", str(node.port), "--no-raw", *words], capture_output=True, text=True, timeout=LATE)
        self.assertEqual((ran.returncode, ran.stderr), (0, ""))
        return ran.stdout

    def test_redis_cli_changes_roles(self):
        """REPLICAOF and SLAVEOF as redis-cli sends them, and ROLE and INFO as it prints them."""
        master, replica = self.node(), self.node()
        self.assertEqual(self.tells(master, "SET", "k", "v"), "OK\n")
        self.assertEqual(self.tells(replica, "REPLICAOF", HOST, str(master.port)), "OK\n")
        self.caught_up(master, replica)
        role = '1) "slave"\n2) "%s"\n3) (integer) %d\n4) "connected"\n5) (integer) 27\n'
        self.assertEqual(self.tells(replica, "ROLE"), role % (HOST, master.port))
        self.assertEqual(self.tells(replica, "GET", "k"), '"v"\n')
        self.assertEqual(self.tells(replica, "SET", "k", "w"), "(error) " + READONLY[1:-2].decode() + "\n")
        self.assertIn("role:slave", self.tells(replica, "INFO", "replication"))
        self.assertEqual(self.tells(replica, "SLAVEOF", "no", "one"), "OK\n")
        self.assertEqual(self.tells(replica, "SET", "k", "w"), "OK\n")
        self.assertEqual(self.tells(replica, "ROLE"), '1) "master"\n2) (integer) 54\n3) (empty array)\n')
        self.assertEqual(self.tells(master, "REPLICAOF", HOST, str(replica.port)), "OK\n")
        self.caught_up(replica, master)
        self.assertEqual(self.tells(master, "GET", "k"), '"w"\n')


if __name__ == "__main__":
    unittest.main()
