"""For how many clients a server has room, what is left for its own links, and how it learns of peers whose host is gone."""

import resource
import socket
import unittest

from tests.support.replicas import Node
from tests.support.replicating import Replicating
from tests.support.replies import OK, PONG, STARTED, bulk
from tests.support.requests import SET_X

NO_ROOM = b"-ERR max number of clients reached\r\n"
TAKES = b"takes at most %d clients at once"
ALLOWED = TAKES + b": `ulimit -n` allows no more"
# so many descriptors are kept from clients
KEPT = 32
# an option of a socket that is closed without a word to its peer
TCP_REPAIR = 19
# the kernel's number for a link's timer that probes a silent peer, and its units of time in a second
PROBE, UNITS = 2, 100


def few(count):
    """What has a process begin with so many descriptors."""
    return lambda: resource.setrlimit(resource.RLIMIT_NOFILE, (count, count))


def timer(near, far):
    """The timer of the link between two ports, as its near end has it: which, and in how many seconds it is over."""
    with open("/proc/net/tcp", encoding="ascii") as it:
        for line in it.readlines()[1:]:
            words = line.split()
            if [int(end.split(":")[1], 16) for end in words[1:3]] == [near, far]:
                kind, left = (int(part, 16) for part in words[5].split(":"))
                return kind, left / UNITS
    return None


class Given(Node):
    """A server with further words."""

    def __init__(self, *more, **how):
        self.more = [str(it) for it in more]
        super().__init__(**how)

    def words(self, aof, sync, turns):
        return super().words(aof, sync, turns) + self.more


class WithRoom(Replicating):
    def serve(self, *more, **how):
        it = Given(*more, **how)
        self.addCleanup(it.stop)
        return it

    def taken(self, it, count):
        """So many clients that are served."""
        links = [self.client(it) for _ in range(count)]
        for link in links:
            self.assertEqual(link.asks("PING"), PONG)
        return links

    def is_taken(self, it):
        """Whether one more client is served."""
        with it.client() as link:
            try:
                return link.asks("PING") == PONG
            except (ConnectionError, EOFError):
                return False


class Room(WithRoom):
    def test_one_more_than_there_is_room_for(self):
        it = self.serve("--maxclients", 3)
        links = self.taken(it, 3)
        for _ in range(3):
            self.assertEqual(self.client(it).rest(), NO_ROOM)
        self.assertEqual([link.asks("PING") for link in links], 3 * [PONG])
        links[1].close()
        self.comes(lambda: self.is_taken(it))
        self.assertEqual([link.asks("PING") for link in (links[0], links[2])], 2 * [PONG])
        self.assertIn(TAKES % 3, it.kill().room)

    def test_many_more(self):
        it = self.serve("--maxclients", 1)
        link = self.taken(it, 1)[0]
        for more in [self.client(it) for _ in range(300)]:
            self.assertEqual(more.rest(), NO_ROOM)
        self.assertEqual(link.asks("PING"), PONG)

    def test_room_is_told_at_the_start_and_ends_with_the_descriptors(self):
        for descriptors, words, room, told in (
            (60, [], 28, ALLOWED),
            (60, ["--maxclients", "28"], 28, TAKES),
            (60, ["--maxclients", "29"], 28, ALLOWED),
            (KEPT + 1, [], 1, ALLOWED),
            (20, [], 1, ALLOWED),
        ):
            with self.subTest(descriptors=descriptors, words=words):
                it = self.serve(*words, limits=few(descriptors))
                self.taken(it, room)
                self.assertEqual(self.client(it).rest(), NO_ROOM)
                self.assertEqual(it.kill().room, [told % room])

    def test_a_replica_can_dial_and_a_file_be_written_anew_where_all_room_is_taken(self):
        master = self.node()
        self.assertEqual(master.asks("SET", "l", "w"), OK)
        it = self.serve(aof=self.path, limits=few(60))
        links = self.taken(it, 28)
        for _ in range(100):
            self.assertEqual(self.client(it).rest(), NO_ROOM)
        self.assertEqual(links[0].asks("REPLICAOF", "127.0.0.1", str(master.port)), OK)
        self.comes(lambda: b"connected" in links[0].asks("ROLE"))
        self.assertEqual(links[1].asks("GET", "l"), bulk("w"))
        self.assertEqual(links[0].asks("REPLICAOF", "NO", "ONE"), OK)
        self.assertEqual(links[0].asks("FLUSHALL") + links[0].asks("SET", "k", "x"), OK + OK)
        self.assertEqual(links[0].asks("BGREWRITEAOF"), STARTED)
        self.assertEqual(self.bytes(), SET_X)

    def test_a_master_without_room_is_told_of_by_its_replica(self):
        master = self.serve("--maxclients", 1)
        link = self.taken(master, 1)[0]
        replica = self.node(follows=master.port)
        self.comes(lambda: replica.asks("GET", "k") == b"$-1\r\n")
        self.assertEqual(link.asks("SET", "k", "v"), OK)
        link.close()
        self.comes(lambda: replica.asks("GET", "k") == bulk("v"))
        refused = b"replica of 127.0.0.1:%d, refused by it: %s" % (master.port, NO_ROOM[:-2])
        self.assertIn(refused, replica.told())


class Probes(WithRoom):
    def test_the_system_probes_silent_peers(self):
        for words, seconds in (([], 300), (["--tcp-keepalive", 7], 7), (["--tcp-keepalive", 0], None)):
            with self.subTest(words=words):
                it = self.serve(*words)
                link = self.taken(it, 1)[0]
                kind, left = timer(it.port, link.name)
                if seconds is None:
                    self.assertEqual(kind, 0)
                else:
                    self.assertEqual(kind, PROBE)
                    self.assertTrue(seconds - 5 < left <= seconds, left)

    def test_a_client_that_is_gone_without_a_word_is_given_up(self):
        it, others = self.serve("--tcp-keepalive", 1), self.serve("--tcp-keepalive", 0)
        for server in (it, others):
            self.taken(server, 1)
        before = it.descriptors(), others.descriptors()
        for server in (it, others):
            link = self.taken(server, 1)[0]
            try:
                link.socket.setsockopt(socket.IPPROTO_TCP, TCP_REPAIR, 1)
            except PermissionError:
                self.skipTest("only root may close a socket without a word")
            link.close()
        self.assertEqual((it.descriptors(), others.descriptors()), (before[0] + 1, before[1] + 1))
        self.comes(lambda: it.descriptors() == before[0])
        self.assertEqual(others.descriptors(), before[1] + 1)


if __name__ == "__main__":
    unittest.main()
