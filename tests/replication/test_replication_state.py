"""A node's course: its role, its stream, and what becomes of both by what its master sends."""

import unittest

from tests.support.handshake import ANSWERS, CAPABILITIES, GREETED, NOTHING_TO_CONTINUE, PORT
from tests.support.program import built, request
from tests.support.refusing import Refusing as EachRefused
from tests.support.rehearsal import effect
from tests.support.replies import CHAINED
from tests.support.requests import EXEC, MULTI, PAIR, SET_A, SET_B, framed
from tests.support.values import Playing, fed, spelled

A, B, C = (letter * 40 for letter in "abc")
CAPACITY = 1_048_576
FIRST, SECOND, THIRD = (effect("SET k " + word) for word in "vwx")


def heard(what, said=b""):
    return ("listen", what + " " + spelled(said))


def stands(role, has, digits, end, first, before="", reads="", unread=0):
    """What a course shows: role, whether there is something to continue, its stream, the id before, and who is followed."""
    names = [role, has, digits, str(end), str(first), before, reads, str(unread)]
    return ("shows", "shows " + " ".join(name for name in names if name))


def holds(texts):
    return ("commands", "commands " + spelled(texts))


def dialled(link, wanted):
    """The steps of a handshake up to its last line, on the link that was opened as this one."""
    return [
        ("dial 0 %d 0" % link, "dialled"),
        fed(GREETED),
        *[heard("says", line) for line in (PORT, CAPABILITIES, wanted)],
    ]


def asking(digits, end):
    return request("PSYNC", digits, str(end + 1))


def taking(digits, offset, texts):
    """The steps of a whole snapshot."""
    return [
        fed(b"+FULLRESYNC %s %d\r\n$%d\r\n" % (digits.encode(), offset, len(texts)) + texts),
        heard("announced"),
        heard("loads", texts),
    ]


def synchronized(link=0):
    """The steps to a replica at (A, 27), in its stream."""
    return [
        ("replica %s %d 0" % (B, CAPACITY), "begun"),
        *dialled(link, NOTHING_TO_CONTINUE),
        *taking(A, 27, FIRST),
        stands("replica", "offers", A, 27, 28, reads="at 0 %d stream" % link),
        holds(FIRST),
    ]


class Following(Playing):
    def test_a_snapshot_is_shown_with_its_last_byte_alone(self):
        """Before it the replica shows its own id and offset, and has nothing to continue."""
        sent, steps = ANSWERS[4], [("replica %s %d 0" % (B, CAPACITY), "begun"), *dialled(0, NOTHING_TO_CONTINUE), fed(ANSWERS[3]), heard("announced")]
        for at, byte in enumerate(sent):
            steps += [heard("idle"), stands("replica", "bare", B, 0, 1, reads="at 0 0 snapshot", unread=at), holds(b"")]
            steps.append(fed(bytes([byte])))
        self.plays("course", [*steps, heard("loads", FIRST), stands("replica", "offers", A, 27, 28, reads="at 0 0 stream"), holds(FIRST)])

    def test_a_broken_link_leaves_what_was_applied(self):
        """A half effect is asked for again, from the byte behind the last whole one."""
        courses = []
        for cut in range(len(SECOND)):
            broken = [fed(SECOND[:cut]), heard("idle"), stands("replica", "offers", A, 27, 28, reads="at 0 0 stream", unread=cut), ("leave", "left")]
            again = [stands("replica", "offers", A, 27, 28), *dialled(1, asking(A, 27)), fed(b"+CONTINUE %s\r\n" % A.encode() + SECOND)]
            after = [heard("continues"), heard("applies", SECOND), stands("replica", "offers", A, 54, 28, reads="at 0 1 stream"), holds(SECOND)]
            courses.append([*synchronized(), *broken, *again, *after])
        self.plays("course", *courses)

    def test_a_broken_link_leaves_the_groups_that_were_applied(self):
        """A half group is asked for again as a whole: no offset within one is shown."""
        courses = []
        for cut in range(len(PAIR)):
            broken = [fed(PAIR[:cut]), heard("idle"), stands("replica", "offers", A, 27, 28, reads="at 0 0 stream", unread=cut), holds(FIRST), ("leave", "left")]
            again = [stands("replica", "offers", A, 27, 28), *dialled(1, asking(A, 27)), fed(b"+CONTINUE %s\r\n" % A.encode() + PAIR + SECOND)]
            applied = [heard("continues"), heard("applies", PAIR), stands("replica", "offers", A, 110, 28, reads="at 0 1 stream", unread=27)]
            after = [heard("applies", SECOND), stands("replica", "offers", A, 137, 28, reads="at 0 1 stream"), holds(SET_A + SET_B + SECOND)]
            courses.append([*synchronized(), *broken, *again, *applied, holds(SET_A + SET_B + FIRST), *after])
        self.plays("course", *courses)

    def test_a_link_that_breaks_within_a_snapshot_leaves_nothing_of_it(self):
        courses, sent = [], b"".join(ANSWERS[3:])
        begin = [("replica %s %d 0" % (B, CAPACITY), "begun"), *dialled(0, NOTHING_TO_CONTINUE)]
        for cut in range(len(sent)):
            first = [heard("announced")] if cut >= len(ANSWERS[3]) else []
            broken = [fed(sent[:cut]), *first, heard("idle"), ("leave", "left"), stands("replica", "bare", B, 0, 1), holds(b"")]
            courses.append([*begin, *broken, *dialled(1, NOTHING_TO_CONTINUE), *taking(A, 27, FIRST), stands("replica", "offers", A, 27, 28, reads="at 0 1 stream")])
        self.plays("course", *courses)

    def test_what_is_applied_is_counted_and_kept(self):
        """As of a heartbeat too, which changes no key."""
        ping, steps = effect("PING"), []
        steps = [*synchronized(), fed(SECOND + ping), heard("applies", SECOND), heard("applies", ping), heard("idle")]
        self.plays("course", [*steps, stands("replica", "offers", A, 27 + 27 + 14, 28, reads="at 0 0 stream"), holds(SECOND)])


class Refusing(Playing):
    """The master is followed no longer, and what was held stays."""

    def refuses(self, sent, what, wanted, *before):
        left = [fed(sent), *before, heard(what)]
        has = "offers" if what == "left" else "bare"
        self.plays("course", [*synchronized(), *left, stands("replica", has, A, 27, 28), holds(FIRST), *dialled(1, wanted)])

    def test_what_is_no_effect_here_spoils_what_there_is_to_continue(self):
        self.refuses(request("FOO"), "spoiled", NOTHING_TO_CONTINUE)
        self.refuses(effect("LPOP k 1"), "spoiled", NOTHING_TO_CONTINUE)

    def test_what_is_no_group_here_spoils_it_too(self):
        for bad in (EXEC, framed(SECOND), MULTI + effect("PING"), MULTI + MULTI, MULTI + request("FOO"), framed(effect("LPOP k 1"), SECOND)):
            self.refuses(bad, "spoiled", NOTHING_TO_CONTINUE)

    def test_a_torn_group_stops_it(self):
        """The offset is that before it, and the dataset is spent."""
        torn = framed(SET_A, effect("LPOP k 1"), SET_B)
        stops = ("listen", "refuses: the dataset is spent: out of memory, or a group that does not apply as a whole")
        stopped = stands("replica", "offers", A, 27, 28, reads="at 0 0 stream", unread=len(torn))
        self.plays("course", [*synchronized(), fed(torn[:-1]), heard("idle"), holds(FIRST), fed(torn[-1:]), stops, stopped, holds(SET_A + FIRST)])

    def synchronizing(self, answer, what, wanted, *before):
        """The same of what a master sends in place of the stream that was asked for."""
        has = "offers" if what == "left" else "bare"
        steps = [*synchronized(), ("leave", "left"), *dialled(1, asking(A, 27)), fed(answer), *before, heard(what)]
        self.plays("course", [*steps, stands("replica", has, A, 27, 28), holds(FIRST), *dialled(2, wanted)])

    def test_a_bad_line_and_a_refusal_leave_what_there_is_to_continue(self):
        self.synchronizing(b"+CONTINUE %s\r\n" % (b"a" * 39), "left", asking(A, 27))
        self.synchronizing(CHAINED, "left", asking(A, 27))

    def test_a_bad_snapshot_spoils_it(self):
        self.synchronizing(b"+FULLRESYNC %s 5\r\n$3\r\nabc" % B.encode(), "spoiled", NOTHING_TO_CONTINUE, heard("announced"))


class Turning(Playing):
    """A replica is promoted, and masters come back."""

    def promoted(self):
        """The steps to a master at (B, 54) that was a replica at (A, 27)."""
        turned = [("promote " + B, "promoted"), stands("master", "offers", B, 27, 28, A + " 28"), ("grow " + spelled(SECOND), "grown")]
        return [*synchronized(), *turned, stands("master", "offers", B, 54, 28, A + " 28")]

    def test_a_promoted_replica_goes_on_under_a_fresh_id(self):
        self.plays("course", self.promoted())

    def test_another_replica_goes_on_with_the_promoted_one(self):
        goes_on = [fed(b"+CONTINUE %s\r\n" % B.encode() + SECOND), heard("continues"), heard("applies", SECOND)]
        steps = [*synchronized(), ("leave", "left"), *dialled(1, asking(A, 27)), *goes_on]
        self.plays("course", [*steps, stands("replica", "offers", B, 54, 28, A + " 28", "at 0 1 stream"), holds(SECOND)])

    def test_the_old_master_comes_back(self):
        """It wrote what nobody took: it is given all, and knows no id before."""
        old = [("master %s %d 27" % (A, CAPACITY), "begun"), ("grow " + spelled(THIRD), "grown"), ("obey", "obeys"), stands("replica", "offers", A, 54, 28)]
        taken = [*dialled(0, asking(A, 54)), *taking(B, 54, SECOND)]
        self.plays("course", [*old, *taken, stands("replica", "offers", B, 54, 55, reads="at 0 0 stream"), holds(SECOND)])

    def test_the_promoted_one_comes_back_and_is_promoted_again(self):
        """Its second id goes with the snapshot, and the next is the id that it took."""
        back = [("obey", "obeys"), *dialled(1, asking(B, 54)), *taking(A, 54, THIRD), stands("replica", "offers", A, 54, 55, reads="at 0 1 stream")]
        again = [("promote " + C, "promoted"), stands("master", "offers", C, 54, 55, A + " 55"), holds(THIRD)]
        self.plays("course", [*self.promoted(), *back, *again])

    def test_a_copy_that_breaks_off_leaves_both_ids(self):
        """The promoted one obeys another master, whose whole copy breaks off at any byte: it shows both ids with their offsets, and asks for what is behind its own again."""
        line, courses = b"+FULLRESYNC %s 81\r\n" % C.encode(), []
        sent = line + b"$%d\r\n" % len(THIRD) + THIRD
        begin = [*self.promoted(), ("obey", "obeys"), *dialled(1, asking(B, 54))]
        for cut in range(len(sent)):
            taken, phase, unread = ([heard("announced")], "snapshot", cut - len(line)) if cut >= len(line) else ([], "psync", cut)
            broken = [fed(sent[:cut]), *taken, heard("idle"), stands("replica", "offers", B, 54, 28, A + " 28", "at 0 1 " + phase, unread), holds(FIRST)]
            left = [("leave", "left"), stands("replica", "offers", B, 54, 28, A + " 28"), holds(FIRST)]
            whole = [*dialled(2, asking(B, 54)), *taking(C, 81, THIRD), stands("replica", "offers", C, 81, 82, reads="at 0 2 stream"), holds(THIRD)]
            courses.append([*begin, *broken, *left, *whole])
        self.plays("course", *courses)

    def test_who_has_all_goes_on_without_bytes(self):
        old = [("master %s %d 27" % (A, CAPACITY), "begun"), ("grow " + spelled(THIRD), "grown"), ("obey", "obeys"), *dialled(0, asking(A, 54))]
        goes_on = [fed(b"+CONTINUE %s\r\n" % C.encode()), heard("continues"), heard("idle")]
        self.plays("course", [*old, *goes_on, stands("replica", "offers", C, 54, 28, A + " 55", "at 0 0 stream")])

    def test_a_spoiled_course_asks_for_all(self):
        self.plays("course", [*synchronized(), ("spoil", "spoiled"), stands("replica", "bare", A, 27, 28), *dialled(1, NOTHING_TO_CONTINUE)])

    def test_a_replica_that_has_something_offers_it_at_once(self):
        self.plays("course", [("offering %s %d 27" % (A, CAPACITY), "begun"), *dialled(0, asking(A, 27))])


IDLE = heard("idle")
# what a step is answered that lacked memory, and one within which it ran out
LACKS, SPENT = "refuses: out of memory", "refuses: the dataset is spent: out of memory, or a group that does not apply as a whole"
# the commands of a copy, with words that have memory of their own, and places within each of them
LONG = "x" * 40
COPIED = [effect(line % LONG) for line in ("HSET h f %s", "SET k %s", "RPUSH l a %s", "SADD s m %s", "ZADD z 1 %s")]
COPY = b"".join(COPIED)
WITHIN = [sum(map(len, COPIED[:count])) + 30 for count in range(len(COPIED))]


class Lacking(EachRefused):
    """Each allocation refused in turn, as a whole copy takes the place of another, in pieces that end within an effect, with a step behind each."""

    # up to the copy, with a step more than each answer takes, for one that lacked memory
    BEGIN = [
        *[("replica %s %d 0" % (B, CAPACITY), "begun"), *dialled(0, NOTHING_TO_CONTINUE), IDLE, *taking(A, 27, FIRST), IDLE, ("leave", "left")],
        *[*dialled(1, asking(A, 27)), IDLE, fed(b"+FULLRESYNC %s 5\r\n$%d\r\n" % (C.encode(), len(COPY))), heard("announced"), IDLE, IDLE],
    ]

    def courses(self):
        """In each two pieces come of the copy, of which the first goes on to within an effect, and the second to within the next or to the end."""
        for first, second in zip(WITHIN, [*WITHIN[1:], len(COPY)]):
            held = [stands("replica", "offers", A, 27, 28, reads="at 0 1 snapshot", unread=len(b"$%d\r\n" % len(COPY)) + it) for it in (first, second)]
            steps = [*self.BEGIN, fed(COPY[:first]), IDLE, held[0], holds(FIRST), fed(COPY[first:second])]
            if second < len(COPY):
                yield [*steps, IDLE, held[1], holds(FIRST)]
            else:
                yield [*steps, heard("loads", COPY), stands("replica", "offers", C, 5, 6, reads="at 0 1 stream"), holds(COPY)]

    def test_what_was_held_is_shown_until_the_copy_is_whole(self):
        """Also where memory lacks or runs out within it: behind that step dataset, id and offset are the old ones."""
        courses = list(self.courses())
        script = "".join("course " + ";".join(step for step, _ in steps) + "\n" for steps in courses).encode()
        refused = set()

        def check(ran, was_refused):
            if ran.returncode:
                self.assertEqual((was_refused, ran.stdout, ran.stderr), (True, b"", b"rehearse_values: out of memory\n"))
                return
            answers = iter(ran.stdout.decode().splitlines())
            for number, steps in enumerate(courses):
                wanted, got = [it for _, it in steps], [next(answers) for _ in steps]
                at = next((at for at, it in enumerate(got) if it != wanted[at]), None)
                if at is not None:
                    self.assertTrue(was_refused)
                    self.assertIn(got[at], (LACKS, SPENT))
                    if at > len(self.BEGIN):
                        self.look(got, wanted, at)
                        refused.add((number, got[at]))
            self.assertIsNone(next(answers, None))

        self.assertGreater(self.each_refusal(script, check, built("rehearse_values")), 100)
        self.assertEqual(refused, {(number, why) for number in range(len(courses)) for why in (LACKS, SPENT)})

    def look(self, got, wanted, at):
        """Looks behind the step of the copy that was refused."""
        shown, made = got[at + 1 : at + 3]
        # what was taken of a copy that is spent is unread no more
        self.assertRegex(shown, r"\Ashows replica offers %s 27 28 at 0 1 snapshot \d+\Z" % A)
        self.assertEqual(made, holds(FIRST)[1])
        if got[at] == LACKS and wanted[at] == IDLE[1]:
            self.assertEqual(shown, wanted[at + 1])
            # the next step takes what this one left
            self.assertEqual(got[-2:], wanted[-2:])


if __name__ == "__main__":
    unittest.main()
