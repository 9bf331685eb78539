"""A pipe's node changes its role, and answers PSYNC: what its one client is told, byte for byte."""

import unittest

from tests.support.handshake import CAPABILITIES, NOTHING_TO_CONTINUE, announces, asks_from, continues
from tests.support.program import request, run
from tests.support.rehearsal import ID
from tests.support.replies import CHAINED, OK, PONG, READONLY, bulk, information, role_of_master, role_of_replica
from tests.support.requests import GET, LEAD, PING, SET, SET_W

FOLLOW = request("REPLICAOF", "localhost", "6380")
INFO = request("INFO")
ROLE = request("ROLE")


def fresh(count):
    """The id that a pipe takes so many promotions in."""
    return "%040x" % count


class Roles(unittest.TestCase):
    def answers(self, asked, told):
        ran = run(b"".join(asked), "pipe")
        self.assertEqual((ran.returncode, ran.stdout, ran.stderr), (0, b"".join(told), b""))

    def test_a_master_that_obeys_takes_no_writes_and_waits_for_its_master(self):
        waits = role_of_replica("localhost", 6380, "connect", 27)
        self.answers([SET, FOLLOW, SET, ROLE, GET], [OK, OK, READONLY, waits, bulk("v")])

    def test_a_promoted_replica_goes_on_under_a_fresh_id(self):
        told = bulk(information(27, name=fresh(1), second=(ID, 28)))
        self.answers([SET, FOLLOW, LEAD, INFO, SET_W, ROLE], [OK, OK, OK, told, OK, role_of_master(54)])

    def test_each_promotion_takes_an_id_of_its_own(self):
        told = bulk(information(0, name=fresh(2), second=(fresh(1), 1)))
        self.answers([FOLLOW, LEAD, LEAD, request("SLAVEOF", "h", "1"), LEAD, INFO], [OK] * 5 + [told])

    def test_whom_it_follows_already_it_goes_on_to_follow(self):
        other = role_of_replica("LOCALHOST", 6380, "connect", 0)
        self.answers([FOLLOW, FOLLOW, request("REPLICAOF", "LOCALHOST", "6380"), ROLE], [OK, OK, OK, other])

    def test_who_has_nothing_gets_the_whole_dataset(self):
        self.answers([SET, NOTHING_TO_CONTINUE], [OK, announces("a", 27, SET)])

    def test_who_has_a_part_of_the_stream_gets_the_rest(self):
        self.answers([SET, SET_W, asks_from("a", 28)], [OK, OK, continues("a") + SET_W])
        self.answers([SET, asks_from("a", 28)], [OK, continues("a")])
        self.answers([SET, asks_from("a", 29)], [OK, announces("a", 27, SET)])

    def test_a_replica_sends_no_stream(self):
        self.answers([FOLLOW, NOTHING_TO_CONTINUE, PING], [OK, CHAINED, PONG])

    def test_a_replicas_link_is_acknowledged_on_and_asks_for_nothing(self):
        answer = announces("a", 0, b"")
        before = [request("REPLCONF", "listening-port", "6380"), CAPABILITIES, NOTHING_TO_CONTINUE]
        self.answers([*before, request("REPLCONF", "ACK", "0"), b"\r\n", PING, SET], [OK, OK, answer])


if __name__ == "__main__":
    unittest.main()
