"""Scripts of a world in which a replica's link is accepted late, or never, with their answers: for whatever plays scripts, as `world_rows.py` has them."""

from tests.support.replies import CHAINED, OK, array_of, bulk, number
from tests.support.world_rows import HEARD, HEARD_OF_NOTHING, SAID, Script, followed, started

NO_REPLICA = array_of(bulk("master"), number(27), array_of())


def waiting():
    """A master with one key and a replica, whose link, which is 1, waits for a node to accept it."""
    script = started()
    script.line("replica b", "node 1")
    script.connects(1)
    return script


class AcceptRows:
    def test_a_link_is_accepted_late(self):
        """Until then nothing is taken or said there; and the master's other links go on."""
        script = waiting()
        for line in ("deliver 1 b 0", "deliver 1 b 14", "step 1 b 0 0 1", "break 1 b", "got 1", "send 1 PING", "connect 1", "dial 1 0"):
            script.line(line, "refused 2")
        script.deliver(1, "a", 0)
        script.step(1, "a")
        script.line("tick 1 5000")
        script.asks(0, "ROLE", NO_REPLICA)
        script.asks(script.client(0), "SET k w", OK)
        script.line("accept 1 0")
        script.line("accept 1 0", "refused 2")
        script.copies(1)
        script.shows(1, "a", 54)
        script.asks(script.client(1), "GET k", bulk("w"))
        self.plays(script)

    def test_a_link_is_never_accepted(self):
        """The replica leaves it, and connects anew."""
        script = waiting()
        script.line("break 1 a")
        script.shows(1, "b", 0)
        script.connects(1)
        script.line("tick 0 60000")
        script.line("tick 1 60000")
        script.asks(0, "ROLE", NO_REPLICA)
        script.line("break 2 a")
        script.synchronizes(1, 0)
        script.shows(1, "a", 27)
        self.plays(script)

    def test_the_dialler_has_left_before_the_accept(self):
        """The master finds what was said, and its answer reaches nobody."""
        for leaves in ("break 1 a", "restart 1 0 c"):
            script = waiting()
            script.line(leaves)
            script.line("accept 1 0")
            script.deliver(1, "b", SAID[0])
            script.step(1, "b")
            for line in ("deliver 1 a 0", "step 1 a 0 0 1", "break 1 a"):
                script.line(line, "refused 2")
            script.line("break 1 b")
            script.line("accept 1 0", "refused 2")
            script.synchronizes(1, 0)
            script.shows(1, "a", 27)
            self.plays(script)

    def test_the_dialler_leads_before_the_accept(self):
        script = waiting()
        script.asks(script.client(1), "REPLICAOF NO ONE", OK, fresh="c")
        script.line("accept 1 0")
        script.deliver(1, "b", SAID[0])
        script.step(1, "b")
        script.line("deliver 1 a 0", "refused 2")
        script.shows(1, "c", 0)
        self.plays(script)

    def test_the_master_begins_anew_before_the_accept(self):
        """The link waits on."""
        script = waiting()
        script.line("restart 0 27 c")
        script.line("accept 1 0")
        script.copies(1, answer=56 + 5 + 27)
        script.shows(1, "c", 0)
        self.plays(script)

    def test_any_node_accepts(self):
        """Here another one than the first, which leads too; and then one that follows by a link which waited longer."""
        script = Script()
        for node, line in enumerate(("start a", "start b", "replica c", "replica d")):
            script.line(line, "node %d" % node)
        first, second = script.connects(2), script.connects(3)
        script.line("accept %d 0" % second)
        script.line("accept %d 1" % first)
        script.copies(first, answer=HEARD_OF_NOTHING)
        script.copies(second, answer=HEARD_OF_NOTHING)
        script.shows(2, "b", 0)
        script.shows(3, "a", 0)
        self.plays(script)

    def test_a_replica_goes_on_by_a_link_that_is_accepted_late(self):
        script = followed("b")
        script.line("break 1 a")
        link = script.connects(1)
        script.asks(0, "SET k w", OK)
        script.line("accept %d 0" % link)
        script.copies(link, last=70, answer=52 + 27)
        script.shows(1, "a", 54)
        self.plays(script)

    def test_a_node_accepts_its_own_link(self):
        script = Script()
        script.line("replica b", "node 0")
        script.connects(0)
        script.line("accept 0 0")
        script.greets(0, SAID[3])
        script.step(0, "b")
        script.deliver(0, "a", len(CHAINED))
        script.step(0, "a")
        script.line("deliver 0 a 0", "refused 2")
        script.shows(0, "b", 0)
        self.plays(script)

    def test_what_cant_connect_or_be_accepted(self):
        script = followed("b")
        script.lines("""
            connect 2 -> refused 2
            connect 0 -> refused 2
            connect 1 -> refused 2
            accept 0 0 -> refused 2
            accept 1 0 -> refused 2
            accept 2 0 -> refused 2
            break 1 a
            connect 1 -> link 2
            accept 2 2 -> refused 2
            accept 3 0 -> refused 2
            accept 2 1
            accept 2 0 -> refused 2
        """)
        for line in ("connect", "connect 0 0", "connect x", "CONNECT 0", "accept", "accept 0", "accept 0 0 0", "accept x 0", "accept 0 x", "Accept 0 0"):
            script.line(line, "bad line")
        self.plays(script)
