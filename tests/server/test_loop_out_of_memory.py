"""Turns of the event loop with each allocation refused in turn. Up to the turn in which one is refused all is as where memory is ample. In that turn the file keeps
what it had or gets what it gets there, and what was sent on each link is a beginning of what is sent there. In the end the file is its node's dataset."""

import contextlib
import os
import subprocess
import unittest
from typing import NamedTuple

from tests.support.handshake import GREETED, GREETS, NOTHING_TO_CONTINUE, announces, asks_from, continues
from tests.support.peers import Ended
from tests.support.program import LATE, request
from tests.support.refusing import Refusing
from tests.support.replies import COUNT, OK, PONG, QUEUED, STARTED, array_of
from tests.support.requests import LEAD, PING, SET, SET_W, SET_X, framed
from tests.support.turns import ALL, ENDS, NOT_READY, OBEY, File, Links, Loop, lacked, peer

EXPIRES, EXPIRED, DELETED = request("SET", "e", "v", "PX", "5"), request("SET", "e", "v", "PXAT", "5"), request("DEL", "e")
# the key in a whole copy
COPIED = request("SET", "e", "v") + request("PEXPIREAT", "e", "5")
SET_B, SET_C, SET_D = (request("SET", it, "v") for it in "bcd")
ACK = request("REPLCONF", "ACK", "71")
REWRITES, QUIT, SHUTDOWN = request("BGREWRITEAOF"), request("QUIT"), request("SHUTDOWN")
FAULTS = {"fault: out of memory", "fault: file failed"}
# a transaction of a client, and the group that comes of it
PAIR = framed(SET, SET_X)
# in each turn one thing happens: what comes of the client that writes, from the first turn on
CLIENT = [EXPIRES, SET, None, SET_W, None, None, None, PAIR, None, REWRITES, None, OBEY, None, None, None, LEAD, SET_D, None, QUIT]
# who comes in which turn: the client, a replica that ends, one that goes on from where it was, who is refused, who looks at the end, and who ends all
COMES = {
    1: peer(*CLIENT),
    3: peer(GREETS + NOTHING_TO_CONTINUE, None, None, ACK, ENDS),
    9: peer(asks_from("a", 72)),
    18: peer(b"*-2"),
    20: peer(LEAD + NOTHING_TO_CONTINUE),
    21: peer(SHUTDOWN),
}
MASTER = peer(GREETED + announces("c", 27, SET_B), SET_C)
# a key expires, a heartbeat is due, an acknowledgement is due
MOMENTS = [*[0] * 4, *[5] * 6, *[20_000] * 4, 21_000]
TURNS = max(COMES)
LISTS = {
    "accepts": [it for turn in range(1, TURNS + 1) for it in ([COMES[turn], NOT_READY] if turn in COMES else [NOT_READY])],
    "connects": [MASTER],
    "moments": MOMENTS,
}
# the links by the order in which they come
WRITER, LOOKER = 0, 4


class State(NamedTuple):
    """What a turn told, and what stood behind it."""

    told: str
    links: Links
    file: File
    shows: tuple


def state(loop, told):
    return State(told, loop.links(), loop.file(), loop.shows())


def snapshot(written):
    """The commands of the whole copy at the end of what was written, or nothing."""
    head, _, rest = written.partition(b"+FULLRESYNC ")
    return rest.split(b"\r\n", 2)[2] if rest else None


class Lacking(Refusing):
    def ample(self):
        """What stands before the first turn and behind each, where memory is ample."""
        loop = Loop()
        self.addCleanup(loop.end)
        self.assertEqual(loop.start(**LISTS), "started")
        return [state(loop, ""), *(state(loop, loop.call("turn")) for _ in range(TURNS))]

    def served(self):
        """What stands behind these turns where one call makes them and memory is ample: the clock stands still within it."""
        loop = Loop()
        self.addCleanup(loop.end)
        self.assertEqual(loop.start(**LISTS), "started")
        return state(loop, loop.call("serve %d" % TURNS))

    def test_what_happens_where_memory_is_ample(self):
        states = self.ample()
        last = states[-1]
        self.assertEqual([it.told.split(" ")[0] for it in states], ["", *["turned"] * (TURNS - 1), "halted"])
        writer, first, second, bad, looker, _ = [it.written for it in last.links.accepted]
        self.assertEqual(writer, 3 * OK + OK + 2 * QUEUED + array_of(OK, OK) + STARTED + 4 * OK)
        self.assertEqual(first, GREETED + announces("a", 71, COPIED + SET) + SET_W + DELETED)
        self.assertEqual(second, continues("a") + SET_W + DELETED + PAIR + PING)
        self.assertEqual(bad, COUNT)
        self.assertEqual(last.links.dialled[0].written, GREETS + asks_from("a", 216) + request("REPLCONF", "ACK", "54"))
        self.assertEqual([it.state for it in last.links.accepted], ["closed", "closed", "closed", "closed", "open", "open"])
        held = [EXPIRED, EXPIRED + SET, EXPIRED + SET + SET_W, EXPIRED + SET + SET_W + DELETED, EXPIRED + SET + SET_W + DELETED + PAIR]
        held += [SET_X, SET_B, SET_B + SET_C, SET_B + SET_C + SET_D]
        for turn, wanted in zip([1, 2, 4, 5, 8, 10, 13, 14, 17], held):
            self.assertEqual(states[turn].file.held, wanted, turn)
        self.assertEqual(snapshot(looker), last.file.commands)

    def refusing(self, call, plays):
        """Has the program play, to which this allocation is refused. It answers whether there were so many."""
        heard, teller = os.pipe()
        os.set_blocking(heard, False)
        env = {**os.environ, "LD_PRELOAD": self.shim, "REFUSE_CALL": str(call), "TELL_REFUSAL": str(teller)}
        loop = Loop(env=env, pass_fds=[teller], stderr=subprocess.PIPE)
        os.close(teller)
        try:
            plays(loop, lambda: self.is_refused(heard))
        except Ended:
            # what the program itself keeps had no room
            self.assertEqual((loop.running.wait(LATE), loop.running.stderr.read()), (1, b"rehearse_turns: out of memory\n"))
        finally:
            loop.end()
            loop.running.stderr.close()
            was_refused = self.is_refused(heard)
            os.close(heard)
        return was_refused

    def is_refused(self, heard):
        """Whether the allocation was refused by now."""
        with contextlib.suppress(BlockingIOError):
            self.told = self.told or os.read(heard, 1) == b"r"
        return self.told

    def each(self, plays):
        """Refuses each allocation in turn."""
        for call in range(1, 100_000):
            self.told, was_refused = False, True
            with self.subTest(call=call):
                was_refused = self.refusing(call, plays)
            if not was_refused:
                return call - 1
        self.fail("each of 100,000 runs was refused an allocation")

    def begins(self, links, ample):
        """What was sent on each link is a beginning of what is sent there."""
        for kind in ("accepted", "dialled"):
            wanted = [it.written for it in getattr(ample, kind)]
            for at, link in enumerate(getattr(links, kind)):
                whole = wanted[at] if at < len(wanted) else b""
                self.assertEqual(link.written, whole[: len(link.written)], (kind, at))

    def is_whole(self, loop):
        """The file is read whole, and is the dataset of which a whole copy was sent last."""
        file, looker = loop.file(), loop.links().accepted[LOOKER:]
        self.assertEqual(file.used, len(file.held))
        copy = snapshot(looker[0].written) if looker else None
        if copy is not None:
            self.assertEqual(copy, file.commands)
        return copy is not None

    def test_turns(self):
        states, refused, faults, looked = self.ample(), set(), set(), 0

        def plays(loop, is_refused):
            nonlocal looked
            self.assertEqual(loop.start(**LISTS), "started")
            if is_refused():
                self.assertEqual(state(loop, ""), states[0])
            for turn in range(1, TURNS + 1):
                is_late, told = self.told, loop.call("turn")
                if told in FAULTS:
                    faults.add(told)
                    self.assertTrue(is_refused())
                    self.assertIsNone(loop.shows())
                if is_late:
                    self.assertIn(told.split(" ")[0], ("turned", "halted", "over", "fault:"))
                elif is_refused():
                    refused.add(turn)
                    self.compare(state(loop, told), *states[turn - 1 : turn + 1])
                else:
                    self.assertEqual(told, states[turn].told)
            looked += self.is_whole(loop)
            if not self.told:
                self.assertEqual(state(loop, states[-1].told), states[-1])

        self.assertGreater(self.each(plays), 100)
        self.assertEqual(faults, FAULTS)
        self.assertGreater(looked, 100)
        self.assertLessEqual({1, 2, 3, 4, 5, 8, 9, 10, 11, 12, 13, 14, 15, 16, 17, 18, 20}, refused)

    def compare(self, now, before, ample):
        """A turn in which an allocation was refused, with what stood before it, and behind it where memory is ample."""
        self.begins(now.links, ample.links)
        self.assertIn(now.file.held, (before.file.held, ample.file.held))
        self.assertEqual(now.file.used, len(now.file.held))
        if now.told in FAULTS:
            self.assertIsNone(now.shows)
        else:
            self.assertIn(now.shows, (before.shows, ample.shows))

    def test_turns_one_after_another(self):
        """What the client that writes is answered rests on itself alone."""
        ample, ends = self.served(), set()

        def plays(loop, is_refused):
            self.assertEqual(loop.start(**LISTS), "started")
            told = loop.call("serve %d" % TURNS)
            ends.add(told)
            if told != "served":
                self.assertTrue(is_refused())
                self.assertIsNone(loop.shows())
            writer = loop.links().accepted[WRITER]
            self.assertEqual(writer.written, ample.links.accepted[WRITER].written[: len(writer.written)])
            self.is_whole(loop)
            if not is_refused():
                self.assertEqual(state(loop, ample.told), ample)

        self.assertGreater(self.each(plays), 100)
        self.assertEqual(ends, {"served", *FAULTS})

    def test_what_memory_was_asked_for_is_told(self):
        """In the turn in which a link is closed for want of it, or none comes of one, with the bytes that are unread there; and in no other turn anything."""
        seen = set()

        def plays(loop, is_refused):
            self.assertEqual(loop.start(**LISTS), "started")
            for _ in range(TURNS):
                was_refused, told = is_refused(), loop.call("turn")
                if not told.startswith(("turned", "halted")):
                    return
                times, links, last = lacked(told)
                self.assertLessEqual(times, 0 if was_refused or not is_refused() else 1)
                self.assertEqual((links, last == "-"), (1, False) if last != "-" else (0, True))
                self.assertLessEqual(links, times)
                seen.add(last)

        self.assertGreater(self.each(plays), 100)
        # a step lacks it with its whole request unread
        self.assertLessEqual({"-", "accept", "dial", *("request:%d" % len(it) for it in (EXPIRES, SET, LEAD))}, seen)
        self.assertLessEqual({"bytes", "copy", "stream"}, {it.split(":")[0] for it in seen})

    def test_nothing_more_is_written_where_what_was_read_is_lost(self):
        """A reply waits as a part of the next request comes, for which memory lacks: the link closes, and isn't given the reply, which it would take by now. A step
        that finds no whole request takes no memory."""
        comes, states = peer(PING, b"*1\r\n$60000\r\n" + 60_000 * b"x", takes=[NOT_READY, ALL]), set()

        def plays(loop, is_refused):
            self.assertEqual(loop.start(accepts=[comes]), "started")
            loop.call("turn")
            is_late, told = is_refused(), loop.call("turn").split(" ")[0]
            if is_late or told != "turned":
                return
            link = loop.links().accepted[0]
            self.assertEqual(link.written, b"" if link.state == "closed" else PONG)
            states.add((is_refused(), link.state))

        self.assertGreater(self.each(plays), 10)
        self.assertIn((True, "closed"), states)
        self.assertIn((False, "open"), states)


if __name__ == "__main__":
    unittest.main()
