"""Tests of servers that follow one another."""

from tests.support.replicas import Fake, Node, Proxy, Writes
from tests.support.replies import bulk, information, role_of_master, role_of_replica
from tests.support.server import HOST
from tests.support.serving import Serving

NO_ID = "0" * 40


class Replicating(Serving):
    """Tests with nodes, and what was ever seen at an id and offset."""

    def setUp(self):
        super().setUp()
        self.writes, self.seen = Writes(self.id()), {}

    def node(self, **how):
        it = Node(**how)
        self.addCleanup(it.stop)
        return it

    def proxy(self, of):
        it = Proxy(of.port)
        self.addCleanup(it.close)
        return it

    def fake(self, does, port=0):
        it = Fake(does, port)
        self.addCleanup(it.close)
        return it

    def looks(self, *nodes):
        """What each of them holds. At one id and offset nodes hold the same, now and whenever else these were shown."""
        self.comes(self.writes.are_calm)
        looks = [it.look() for it in nodes]
        for it in looks:
            self.assertEqual(self.seen.setdefault(it.shows, it.held), it.held, it.shows)
        return looks

    def caught_up(self, master, *nodes):
        """They come to the id and offset of their master, and hold what it holds, which is answered."""
        self.comes(self.writes.are_calm)

        def are_there():
            shown = master.said().shows
            if any(it.said().shows != shown for it in nodes):
                return False
            looks = self.looks(master, *nodes)
            # a heartbeat may come in between
            return looks[0] if len({it.shows for it in looks}) == 1 else False

        found = []
        self.comes(lambda: found.append(are_there()) or found[-1])
        return found[-1]

    def followed(self, count=1, **how):
        """A master that has done random writes, and replicas that have caught up."""
        master = self.node(**how)
        self.writes.play(master, 30)
        nodes = [self.node(follows=master.port, **how) for _ in range(count)]
        self.caught_up(master, *nodes)
        return (master, *nodes)

    def tells(self, node, **told):
        """INFO, byte for byte."""
        self.assertEqual(node.asks("INFO", "replication"), bulk(information(**told)))

    def follows(self, node, port, link="connected", host=HOST):
        """A replica's ROLE, byte for byte."""
        self.assertEqual(node.asks("ROLE"), role_of_replica(host, port, link, node.said().offset))

    def promoted(self, node):
        """Promotes a node, which goes on under a fresh id from where it stands."""
        # sent together, so that nothing comes in between: of its own it then deletes what has expired
        before, after = node.promotes()
        self.assertEqual((before.role, after.role, after.offset), ("slave", "master", before.offset))
        self.assertEqual((after.second, after.second_offset), (before.id, before.offset + 1))
        self.assertRegex(after.id, r"\A[0-9a-f]{40}\Z")
        self.assertNotIn(after.id, (before.id, before.second, NO_ID))
        return after


def leads(offset, *followers):
    """A master's ROLE: a replica tells its port, and no address."""
    return role_of_master(offset, *(("", str(it.port), str(at)) for it, at in followers))
