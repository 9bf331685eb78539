"""Peers that fall silent on a link that stays open: masters that say nothing, replicas that say or take nothing, and clients, which may."""

import os
import re
import signal
import socket
import time
import unittest

from tests.support.handshake import NOTHING_TO_CONTINUE, PART, WHOLE
from tests.support.program import LATE, request
from tests.support.replicas import PIECE
from tests.support.replicating import Replicating, leads
from tests.support.replies import NONE, OK, PONG, bulk
from tests.support.server import HOST, MIB

# for how long a peer may be silent here, in seconds: the least that may be asked for
TIMEOUT = 11
HUNG_UP = b"link hung up: silent for %d s" % TIMEOUT
# for how long a client may be idle here
IDLE = 1
IDLE_TOLD = re.compile(rb"clients hung up that were idle for %d s: (\d+)" % IDLE)
ENDED = re.compile(rb"ended links hung up that read nothing of the rest for %d s: (\d+)" % TIMEOUT)
OF_REPLICAS = re.compile(rb"replicas hung up that were silent or read nothing for %d s: (\d+)" % TIMEOUT)


def says_nothing(link):
    """A peer that takes all that comes, and answers nothing."""
    link.settimeout(LATE)
    while link.recv(PIECE):
        pass


class Silent(Replicating):
    def passes(self, seconds):
        late = time.monotonic() + seconds
        self.comes(lambda: time.monotonic() > late)

    def stopped(self, node):
        """The node makes no turn any more, while the system keeps its links."""
        os.kill(node.pid, signal.SIGSTOP)

    def goes_on_again(self, node):
        os.kill(node.pid, signal.SIGCONT)

    def told(self, node, master):
        """What the node has said of following its master. It ends."""
        replica = b"replica of %s:%d, " % (HOST.encode(), master)
        return [it[len(replica) :] for it in node.told() if it.startswith(replica)]

    def hung_up(self, master):
        """How many replicas the master has said that it hung up on. It ends."""
        found = [OF_REPLICAS.fullmatch(it) for it in master.told()]
        return sum(int(it[1]) for it in found if it)


class Masters(Silent):
    def writes_for(self, master, seconds):
        """The master has something to say again and again."""
        late = time.monotonic() + seconds
        while time.monotonic() < late:
            self.assertEqual(master.asks("SET", "k", str(time.monotonic())), OK)
            time.sleep(0.1)

    def test_a_master_that_is_stopped(self):
        """While it says something the link stays; then it is hung up once, and the stream goes on where it stood once the master does."""
        master = self.node()
        replica = self.node(follows=master.port, timeout=TIMEOUT)
        self.caught_up(master, replica)
        self.writes_for(master, 2 * TIMEOUT)
        self.follows(replica, master.port)
        self.stopped(master)
        began = time.monotonic()
        self.comes(lambda: b"connected" not in replica.asks("ROLE"))
        self.assertGreater(time.monotonic() - began, TIMEOUT - 1)
        self.assertIn(b"$", replica.asks("GET", "k"))
        self.passes(TIMEOUT + 1)
        self.goes_on_again(master)
        self.assertEqual(master.asks("SET", "l", "v"), OK)
        self.caught_up(master, replica)
        self.assertEqual(replica.asks("GET", "l"), bulk("v"))
        told = self.told(replica, master.port)
        self.assertEqual(told.count(HUNG_UP), 1)
        at = told.index(HUNG_UP)
        self.assertEqual(told[at + 1], b"not in its stream")
        self.assertRegex(told[at + 2], rb"\Agoes on from offset \d+\Z")
        self.assertEqual([it for it in told if it.startswith(b"whole copy")][2:], [])

    def test_a_master_that_has_nothing_to_say(self):
        """It says something in time, so that a link on which nobody writes stays."""
        master = self.node(timeout=TIMEOUT)
        proxy = self.proxy(master)
        replica = self.node(follows=proxy.port, timeout=TIMEOUT)
        self.caught_up(master, replica)
        self.passes(3 * TIMEOUT)
        self.follows(replica, proxy.port)
        self.assertEqual(len(proxy.links), 1)
        self.assertNotIn(HUNG_UP, self.told(replica, proxy.port))

    def test_masters_that_never_answer(self):
        """One that takes the link and says nothing, and one whose system doesn't even take it: each is given up and dialled again."""
        fake = self.fake(says_nothing)
        with socket.socket() as full, socket.socket() as one, socket.socket() as other:
            full.bind((HOST, 0))
            full.listen(0)
            port = full.getsockname()[1]
            for it in (one, other):
                it.setblocking(False)
                it.connect_ex((HOST, port))
            nodes = [self.node(follows=it, timeout=TIMEOUT) for it in (fake.port, port)]
            self.comes(lambda: fake.dials > 2)
            for node, of in zip(nodes, (fake.port, port)):
                self.assertEqual(node.asks("PING"), PONG)
                self.assertEqual(self.told(node, of), [b"not in its stream", HUNG_UP])

    def test_a_replica_that_is_stopped_itself(self):
        """A turn that takes long is no silence of the master."""
        master = self.node()
        proxy = self.proxy(master)
        replica = self.node(follows=proxy.port, timeout=TIMEOUT)
        self.writes_for(master, 1)
        for _ in range(3):
            self.stopped(replica)
            self.writes_for(master, TIMEOUT + 1)
            self.goes_on_again(replica)
            self.writes_for(master, 0.5)
        self.caught_up(master, replica)
        self.assertEqual(len(proxy.links), 1)
        self.assertNotIn(HUNG_UP, self.told(replica, proxy.port))


class Replicas(Silent):
    def test_one_that_takes_nothing(self):
        """It is hung up once more waits for it than sockets take, and another goes on."""
        master = self.node(timeout=TIMEOUT)
        follower = self.node(follows=master.port)
        value = bytes(MIB)
        deaf = self.client(master, room=1 << 18)
        self.assertEqual(master.asks("SET", "k", value), OK)
        deaf.send(NOTHING_TO_CONTINUE)
        self.comes(lambda: master.said().followers == 2)
        for at in range(24):
            self.assertEqual(master.asks("SET", "k", b"%02d" % at + value[2:]), OK)
        self.comes(lambda: master.said().followers == 1)
        self.assertTrue(deaf.rest().startswith(WHOLE))
        self.caught_up(master, follower)
        self.assertEqual(master.said().followers, 1)
        self.assertEqual(self.hung_up(master), 1)

    def test_one_that_asked_for_much_before(self):
        """However many replies it was sent before its copy, and of whatever kind: it is hung up once it takes nothing."""
        master = self.node(timeout=TIMEOUT)
        deaf = self.client(master, room=1 << 18)
        for _ in range(20):
            self.assertEqual(deaf.asks("PING"), PONG)
        self.assertEqual(deaf.asks("GET", "k"), b"$-1\r\n")
        self.assertEqual(deaf.asks("COMMAND"), NONE)
        deaf.send(NOTHING_TO_CONTINUE)
        self.comes(lambda: master.said().followers == 1)
        value = bytes(MIB)
        for at in range(24):
            self.assertEqual(master.asks("SET", "k", b"%02d" % at + value[2:]), OK)
        began = time.monotonic()
        self.comes(lambda: master.said().followers == 0)
        self.assertGreater(time.monotonic() - began, TIMEOUT - 2)
        self.assertTrue(deaf.rest().startswith(WHOLE))
        self.assertEqual(self.hung_up(master), 1)

    def test_one_that_takes_slowly(self):
        """It takes bytes all the time, and says how far it has come: so it is heard, and kept for longer than anybody may be silent, while more waits for it than a
        client may let wait. Once it has all of the copy it is where its master is."""
        master = self.node(timeout=TIMEOUT)
        self.assertEqual(master.asks("SET", "large", bytes(64 * MIB)), OK)
        slow = self.client(master, room=1 << 18)
        slow.send(NOTHING_TO_CONTINUE)
        self.comes(lambda: master.said().followers == 1)
        taken, late = 0, time.monotonic() + 3 * TIMEOUT
        while time.monotonic() < late:
            slow.send(request("REPLCONF", "ACK", "1"))
            taken += len(slow.socket.recv(PIECE))
            time.sleep(0.1)
        # the system takes some MiB for it
        self.assertLess(taken, 32 * MIB)
        self.assertEqual(master.said().followers, 1)
        while taken < 64 * MIB:
            taken += len(slow.socket.recv(MIB))
        self.assertEqual(master.said().followers, 1)
        self.assertEqual(self.hung_up(master), 0)

    def test_those_that_say_nothing(self):
        """One that acknowledged and then says nothing is hung up; one that never said anything isn't, nor is any client."""
        master = self.node(timeout=TIMEOUT)
        replica = self.node(follows=master.port)
        self.assertEqual(master.asks("SET", "k", "v"), OK)
        offset = self.caught_up(master, replica).shows[1]
        self.comes(lambda: master.asks("ROLE") == leads(offset, (replica, offset)))
        quiet, said, idle, slow = self.client(master), self.client(master), self.client(master), self.client(master, room=1 << 18)
        large = bytes(8 * MIB)
        self.assertEqual(slow.asks("SET", "large", large), OK)
        slow.send(request("GET", "large"))
        for text in (WHOLE, PART):
            self.assertEqual(idle.asks("SET", "k", text), OK)
            self.assertEqual(idle.asks("GET", "k"), bulk(text.decode()))
        quiet.send(NOTHING_TO_CONTINUE)
        said.send(NOTHING_TO_CONTINUE)
        self.comes(lambda: master.said().followers == 3)
        said.send(request("REPLCONF", "ACK", "1"))
        for it in (quiet, said):
            self.assertEqual(it.receive(len(WHOLE)), WHOLE)
            while len(it.kept) < len(large):
                self.assertTrue(it.more())
        self.assertEqual(master.said().followers, 3)
        self.stopped(replica)
        self.comes(lambda: master.said().followers == 1)
        self.passes(TIMEOUT)
        self.assertEqual(master.said().followers, 1)
        self.assertEqual(idle.asks("PING"), PONG)
        self.assertEqual(slow.reply(), bulk(large.decode()))
        self.goes_on_again(replica)
        self.assertEqual(master.asks("SET", "k", "v"), OK)
        self.caught_up(master, replica)
        self.assertEqual(self.hung_up(master), 2)


class Clients(Silent):
    def test_idle_clients(self):
        """With --timeout a client is closed that neither sends nor takes a byte. One that does is not, nor a replica, nor the link to the master."""
        master = self.node(idle=IDLE)
        replica = self.node(follows=master.port, idle=IDLE)
        self.caught_up(master, replica)
        idle, busy = [self.client(master) for _ in range(5)], self.client(master)
        begun = time.monotonic()
        while time.monotonic() < begun + 4 * IDLE:
            self.assertEqual(busy.asks("PING"), PONG)
            time.sleep(IDLE / 4)
        for link in idle:
            self.assertEqual(link.rest(), b"")
        for node in (master, replica):
            node.link.close()
            node.link = None
        self.assertEqual(master.asks("SET", "k", "v"), OK)
        self.caught_up(master, replica)
        self.assertRegex(self.told(replica, master.port)[-1], rb"\Ain its stream at offset \d+\Z")
        # the five, and the client of the test itself
        self.assertEqual(sum(int(found[1]) for found in map(IDLE_TOLD.fullmatch, master.told()) if found), 6)


class Ended(Silent):
    """Links that the node has closed: what waits there is written as long as some of it is taken."""

    def test_clients_that_end_and_read_nothing(self):
        """One that said QUIT and one that sends no more are hung up; one that reads slowly gets all."""
        it = self.node(timeout=TIMEOUT)
        large = bytes(16 * MIB)
        self.assertEqual(it.asks("SET", "large", large), OK)
        before = it.descriptors()
        quits, sends_no_more, slow = (self.client(it, room=1 << 16) for _ in range(3))
        quits.send(request("GET", "large") + request("QUIT"))
        slow.send(request("GET", "large") + request("QUIT"))
        sends_no_more.send(request("GET", "large"))
        sends_no_more.send_no_more()
        self.comes(lambda: it.descriptors() == before + 3)
        began = time.monotonic()
        while it.descriptors() > before + 1:
            slow.kept += slow.socket.recv(1 << 15)
            time.sleep(0.05)
            self.assertLess(time.monotonic() - began, 3 * TIMEOUT)
        self.assertGreater(time.monotonic() - began, TIMEOUT - 1)
        self.assertEqual(slow.rest(), bulk(large.decode()) + OK)
        self.comes(lambda: it.descriptors() == before)
        self.assertEqual(sum(int(found[1]) for found in map(ENDED.fullmatch, it.told()) if found), 2)


if __name__ == "__main__":
    unittest.main()
