"""MULTI, EXEC and DISCARD: what is answered at once, what at the end, and the group of effects that comes of it."""

import unittest

from tests.commands.test_collections import HASHES, LISTS, SERVER, SETS
from tests.commands.test_sorted_sets import SORTED_SETS
from tests.commands.test_strings import KEYS, STRINGS
from tests.support.files import InFolder
from tests.support.program import request, run
from tests.support.rehearsal import ID, Rehearsing, done, effect, fed, holding
from tests.support.replies import (
    ABORTED, DISCARD_ALONE, EXEC_ALONE, INTEGER, NESTED, NIL, NONE, NOT_ALLOWED, OK, OVERFLOW, PONG, QUEUED, READONLY, STARTED, SYNTAX, UNKNOWN, WRONG_KIND,
    Answering, arity, array, array_of, bulk, information, number, role_of_master,
)
from tests.support.requests import EXEC, GET, LEAD, MULTI, PAIR, SET, SET_A, SET_B, SET_W, framed

# what isn't allowed in a transaction
NOT_WITHIN = ["REPLICAOF h 1", "REPLICAOF NO ONE", "SLAVEOF h 1", "PSYNC ? -1", "REPLCONF capa eof", "REPLCONF ACK 5", "SHUTDOWN", "SHUTDOWN NOSAVE", "BGREWRITEAOF"]
# requests that aren't commands for their arguments, and their faults
FAULTY = [
    ("SET k v NX XX", SYNTAX),
    ("SET k v EX x", INTEGER),
    ("SET k v EX 0", b"-ERR invalid expire time in 'set' command\r\n"),
    ("SCAN x", b"-ERR invalid cursor\r\n"),
    ("SELECT 1", b"-ERR DB index is out of range\r\n"),
    ("LPOP k -1", b"-ERR value is out of range, must be positive\r\n"),
    ("REPLICAOF h 0", INTEGER),
    ("SLAVEOF h x", INTEGER),
    ("PSYNC ? x", INTEGER),
    ("REPLCONF", SYNTAX),
    ("REPLCONF ACK x", SYNTAX),
    ("SHUTDOWN NOW", SYNTAX),
    ("CLIENT LIST", SYNTAX),
]
# what is answered at once, and marks the transaction
REFUSED = [
    ("NOPE", UNKNOWN),
    ("", UNKNOWN),
    ("WATCH k", UNKNOWN),
    ("UNWATCH", UNKNOWN),
    ("GET", arity("get")),
    ("GET a b", arity("get")),
    ("MSET a 1 b", arity("mset")),
    ("LPOP l 1 2", arity("lpop")),
    ("PING a b", arity("ping")),
    ("REPLICAOF h", arity("replicaof")),
    ("PSYNC ?", arity("psync")),
    ("BGREWRITEAOF now", arity("bgrewriteaof")),
    ("MULTI x", arity("multi")),
    ("EXEC x", arity("exec")),
    ("DISCARD x", arity("discard")),
    ("QUIT x", arity("quit")),
    *((line, NOT_ALLOWED) for line in NOT_WITHIN),
]


def words_of(line):
    """The words of a line; of an empty one the empty word."""
    return line.split(" ")


def texts(*lines):
    return b"".join(request(*words_of(line)) for line in lines)


def within(*rows):
    """The rows of a transaction of these commands with these replies."""
    return [("MULTI", OK), *((line, QUEUED) for line, _ in rows), ("EXEC", array_of(*(reply for _, reply in rows)))]


class Transactions(Answering):
    """Tables of requests and replies, which Redis answers the same."""

    def test_two_keys_are_set(self):
        self.answers([("MULTI", OK), ("SET a 1", QUEUED), ("SET b 2", QUEUED), ("EXEC", array_of(OK, OK)), ("MGET a b", array("1", "2"))])

    def test_each_command_sees_what_those_before_it_left(self):
        self.answers(within(
            ("SET n 5", OK),
            ("INCR n", number(6)),
            ("GET n", bulk("6")),
            ("DBSIZE", number(1)),
            ("DEL n", number(1)),
            ("GET n", NIL),
            ("EXISTS n", number(0)),
            ("RPUSH n a b", number(2)),
            ("RENAME n m", OK),
            ("LRANGE m 0 -1", array("a", "b")),
            ("FLUSHALL", OK),
            ("DBSIZE", number(0)),
        ))

    def test_an_empty_one(self):
        self.answers([*within(), ("EXEC", EXEC_ALONE)])

    def test_none_is_open(self):
        self.answers([("EXEC", EXEC_ALONE), ("DISCARD", DISCARD_ALONE), ("SET k v", OK), ("EXEC", EXEC_ALONE), ("GET k", bulk("v"))])

    def test_what_is_discarded(self):
        rows = [("SET k v", OK), ("MULTI", OK), ("SET k w", QUEUED), ("DEL k", QUEUED), ("DISCARD", OK), ("GET k", bulk("v"))]
        self.answers([*rows, ("EXEC", EXEC_ALONE), ("DISCARD", DISCARD_ALONE)])

    def test_several_one_after_another(self):
        self.answers([*within(("INCR n", number(1))), *within(("INCR n", number(2)), ("INCR n", number(3))), ("GET n", bulk("3"))])

    def test_letters_large_or_small(self):
        self.answers([("multi", OK), ("set k v", QUEUED), ("Exec", array_of(OK)), ("Multi", OK), ("discard", OK), ("eXEC", EXEC_ALONE), ("GET k", bulk("v"))])

    def test_faults_of_the_number_of_words(self):
        """Where none is open they leave nothing behind."""
        self.answers([("MULTI x", arity("multi")), ("EXEC x", arity("exec")), ("DISCARD x y", arity("discard")), ("EXEC", EXEC_ALONE)])

    def test_a_fault_marks_it(self):
        self.answers([("MULTI", OK), ("SET k v", QUEUED), ("GET", arity("get")), ("SET k w", QUEUED), ("EXEC", ABORTED), ("DBSIZE", number(0)), ("EXEC", EXEC_ALONE)])
        self.answers([("MULTI", OK), ("GET", arity("get")), ("DISCARD", OK), *within(("GET k", NIL))])
        self.answers([("MULTI", OK), ("GET", arity("get")), ("EXEC", ABORTED), *within(("GET k", NIL))])

    def test_what_fails_at_the_end_stops_nothing(self):
        rows = [("SET k v", OK), ("LPUSH k x", WRONG_KIND), ("INCR k", INTEGER), ("SET k v NX XX", SYNTAX), ("SET l w", OK), ("GET k", bulk("v"))]
        self.answers(within(*rows, ("DBSIZE", number(2))))
        self.answers(within(("SET i 9223372036854775807", OK), ("INCR i", OVERFLOW), ("DECR i", number(2**63 - 2)), ("INCR i", number(2**63 - 1))))

    def test_a_transaction_within_one_is_refused_and_it_goes_on(self):
        self.answers([("MULTI", OK), ("SET a 1", QUEUED), ("MULTI", NESTED), ("SET b 2", QUEUED), ("EXEC", array_of(OK, OK)), ("DBSIZE", number(2))])

    def test_the_end_of_the_link(self):
        asked = [("MULTI", OK), ("SET k v", QUEUED), ("QUIT", OK)]
        ran = run(texts(*(line for line, _ in asked), "EXEC", "GET k"), "pipe")
        self.assertEqual((ran.returncode, ran.stdout), (0, b"".join(reply for _, reply in asked)))


class Answers(Answering):
    """What is minired's own."""

    def test_what_is_refused_at_once(self):
        for line, told in REFUSED:
            with self.subTest(line=line):
                asked = [(MULTI, OK), (SET, QUEUED), (request(*words_of(line)), told), (GET, QUEUED), (EXEC, ABORTED), (GET, NIL), (EXEC, EXEC_ALONE)]
                self.are_answered(asked)

    def are_answered(self, asked, *words):
        ran = run(b"".join(it for it, _ in asked), "pipe", *words)
        self.assertEqual((ran.returncode, ran.stdout, ran.stderr), (0, b"".join(it for _, it in asked), b""))

    def test_what_is_told_at_the_end(self):
        self.answers([("SET k v", OK), *within(*FAULTY, ("GET k", bulk("v")))])

    def test_what_is_not_allowed_is_done_outside(self):
        """What was refused has left nothing behind: the node is a master, its file as it was."""
        self.answers([("MULTI", OK), ("REPLICAOF h 1", NOT_ALLOWED), ("EXEC", ABORTED), ("SET k v", OK), ("BGREWRITEAOF", STARTED), ("ROLE", role_of_master(27))])

    def test_what_is_asked_of_the_node_is_of_the_moment_before(self):
        """INFO and ROLE tell the offset at which the group begins."""
        self.answers([
            ("SET k v", OK),
            *within(("SET k w", OK), ("INFO", bulk(information(27))), ("SET a 1", OK), ("ROLE", role_of_master(27)), ("PING", PONG), ("ECHO y", bulk("y"))),
            ("INFO", bulk(information(27 + 83))),
        ])

    def test_what_clients_ask_at_their_start(self):
        self.answers(within(("SELECT 0", OK), ("COMMAND", NONE), ("CLIENT SETNAME x", OK), ("CLIENT SETINFO lib-name y", OK), ("INFO keyspace", bulk(""))))

    def test_one_moment_for_all(self):
        """A deadline is the same from the first command on, and its key is there until the end."""
        rows = [("SET k v PX 5", OK), ("PTTL k", number(5)), ("PEXPIRETIME k", number(1005)), ("EXPIRE k 1", number(1)), ("PTTL k", number(1000))]
        self.answers(within(*rows, ("PEXPIRE k 0", number(1)), ("GET k", NIL)), "--now", "1000")

    def test_one_word_for_all(self):
        drawn = within(("SPOP s 2", array("c", "d")), ("SPOP s", bulk("b")), ("SRANDMEMBER s", bulk("e")), ("SMEMBERS s", array("a", "e")))
        self.answers([("SADD s a b c d e", number(5)), *drawn], "--word", "7")

    def test_requests_on_lines(self):
        asked = [(b"multi\r\n", OK), (b"\r\n", b""), (b"SET \"a b\" '1'\n", QUEUED), (b"*0\r\n", b""), (request("GET", "a b"), QUEUED)]
        self.are_answered([*asked, (b" exec \r\n", array_of(OK, bulk("1")))])

    def test_bytes_that_are_no_request(self):
        asked = [(MULTI, OK), (SET, QUEUED), (b"*1\r\n:", b"-ERR Protocol error: expected '$', got ':'\r\n")]
        self.are_answered([*asked, (b"1\r\n" + EXEC, b"")])

    def test_large_words_wait(self):
        value = bytes(1 << 24)
        asked = [(MULTI, OK), (request("SET", "k", value), QUEUED), (request("STRLEN", "k"), QUEUED), (GET, QUEUED)]
        self.are_answered([*asked, (EXEC, array_of(OK, number(1 << 24), bulk(value)))])

    def test_a_text_past_the_limit(self):
        asked = [(MULTI, OK), (request("SETRANGE", "k", "536870911", "x"), QUEUED), (request("APPEND", "k", "x"), QUEUED), (request("STRLEN", "k"), QUEUED)]
        self.are_answered([*asked, (EXEC, array_of(number(1 << 29), b"-ERR string too long\r\n", number(1 << 29)))])

    def test_many_requests_wait(self):
        count = 20_000
        self.are_answered([(MULTI, OK), (count * request("INCR", "n"), count * QUEUED), (EXEC, array(*range(1, count + 1))), (request("GET", "n"), bulk(str(count)))])


class AsWithout(InFolder):
    """Each table of commands within one transaction: the replies are those without, and the file is that without in one frame."""

    TABLES = [HASHES, LISTS, SETS, SORTED_SETS, STRINGS, KEYS, SERVER]

    def asked(self, data):
        self.write(b"")
        ran = run(data, "pipe", "--aof", self.path, "--now", "1000", "--word", "3")
        self.assertEqual((ran.returncode, ran.stderr), (0, b""))
        return ran.stdout, self.bytes()

    def waits(self, line, reply):
        """Whether a command isn't answered at once within a transaction."""
        return not (reply == UNKNOWN or reply.startswith(arity("").partition(b"''")[0]) or line.upper() in NOT_WITHIN)

    def test_each_table(self):
        for rows in self.TABLES:
            lines = [line for line, reply in rows if self.waits(line, reply)]
            self.assertGreater(len(lines), 0.7 * len(rows))
            replies, effects = self.asked(texts(*lines))
            told, group = self.asked(MULTI + texts(*lines) + EXEC)
            self.assertEqual(told, OK + len(lines) * QUEUED + b"*%d\r\n" % len(lines) + replies)
            self.assertEqual(group, framed(effects) if effects else b"")


class Effects(Rehearsing):
    """What goes to the stream and to the file."""

    def ends(self, given, replies, effects, lines):
        """A transaction of these lines, on a node that holds some keys: what EXEC gives out, and how far the offset is then."""
        calls = [*holding("SET k v", "SET p v PXAT 5", "RPUSH l a b"), ("master", "started"), ("given %d 0" % given, "given"), ("open", "opened")]
        for line in ("MULTI", *lines):
            calls += [fed(0, texts(line)), ("step 0", done(OK if line == "MULTI" else QUEUED)), ("shows", "shows %s 0" % ID)]
        self.rehearses([*calls, fed(0, EXEC), ("step 0", done(array_of(*replies), effects)), ("step 0", "idle"), ("shows", "shows %s %d" % (ID, len(effects)))])

    def test_two_effects_stand_in_a_frame(self):
        self.assertEqual(len(PAIR), 83)
        self.ends(0, [OK, OK], PAIR, ["SET a 1", "SET b 2"])

    def test_one_effect_stands_alone(self):
        self.ends(0, [OK, INTEGER], SET_W, ["SET k w", "INCR k"])
        self.ends(0, [bulk("v"), number(0), OK, number(1)], effect("DEL l"), ["GET k", "DEL none", "SET k v", "DEL l"])

    def test_none(self):
        self.ends(0, [], b"", [])
        self.ends(0, [bulk("v"), WRONG_KIND, number(0)], b"", ["GET k", "LPUSH k x", "DEL none"])

    def test_several_effects_of_one_command(self):
        self.ends(0, [number(2)], framed(effect("DEL k"), effect("DEL l")), ["DEL k l none"])

    def test_what_is_done_and_undone(self):
        self.ends(0, [OK, number(1), OK], framed(SET_A, effect("DEL a"), SET_A), ["SET a 1", "DEL a", "SET a 1"])

    def test_a_deadline_that_has_come_is_deleted_once_and_first(self):
        self.ends(4, [bulk("v")], b"", ["GET p"])
        self.ends(5, [NIL, NIL, number(0)], effect("DEL p"), ["GET p", "GET p", "EXISTS p"])
        self.ends(5, [OK, NIL, OK], framed(SET_A, effect("DEL p"), effect("SET p w")), ["SET a 1", "GET p", "SET p w"])

    def test_relative_times_are_put_as_moments(self):
        effects = framed(effect("SET a 1 PXAT 107"), effect("PEXPIREAT a 3007"))
        self.ends(7, [OK, number(1), number(3000)], effects, ["SET a 1 PX 100", "EXPIRE a 3", "PTTL a"])

    def test_a_marked_one_has_none(self):
        calls = [("open", "opened")]
        for line, told in (("MULTI", OK), ("SET a 1", QUEUED), ("GET", arity("get")), ("SET b 2", QUEUED), ("EXEC", ABORTED)):
            calls += [fed(0, texts(line)), ("step 0", done(told)), ("shows", "shows %s 0" % ID)]
        self.rehearses(calls)

    def test_what_waits_is_of_its_link(self):
        """Two transactions side by side: neither sees what waits in the other, and each is done at what the other has left."""
        rows = [
            (0, MULTI, OK, b""),
            (1, MULTI, OK, b""),
            (0, SET_A, QUEUED, b""),
            (1, request("INCR", "a"), QUEUED, b""),
            (2, request("GET", "a"), NIL, b""),
            (0, SET_B, QUEUED, b""),
            (1, request("DBSIZE"), QUEUED, b""),
            (0, EXEC, array_of(OK, OK), PAIR),
            (1, EXEC, array_of(number(2), number(2)), effect("INCRBY a 1")),
        ]
        calls = 3 * [("open", "opened")]
        for link, asked, told, effects in rows:
            calls += [fed(link, asked), ("step %d" % link, done(told, effects))]
        self.rehearses(calls)

    def test_a_link_that_is_closed_takes_what_waits_along(self):
        calls = 2 * [("open", "opened")] + [fed(0, MULTI + SET_A), ("step 0", done(OK)), ("step 0", done(QUEUED)), ("close 0", "closed")]
        self.rehearses([*calls, fed(1, EXEC), ("step 1", done(EXEC_ALONE)), fed(1, request("DBSIZE")), ("step 1", done(number(0))), ("shows", "shows %s 0" % ID)])

    def test_a_link_that_quits(self):
        calls = [("open", "opened"), fed(0, MULTI + SET_A + request("QUIT") + EXEC), ("step 0", done(OK)), ("step 0", done(QUEUED))]
        self.rehearses([*calls, ("step 0", done(OK, closes=True)), ("step 0", "closed"), ("shows", "shows %s 0" % ID)])


# writes, whatever they would do
WRITES = ["SET k w", "DEL none", "EXPIRE k 5", "SPOP s", "LPUSH l a", "HSET h f v", "ZADD z 1 m", "RENAME k l", "GETDEL k", "FLUSHALL"]


class OfReplicas(Rehearsing):
    """A replica."""

    def are_answered(self, *rows):
        """What is asked of a replica that holds one key. It shows what it showed, and nothing is left to be read."""
        calls = [*holding("SET k v"), ("replica", "started"), ("open", "opened")]
        for asked, told in rows:
            calls += [fed(0, asked), ("step 0", done(told))]
        self.rehearses([*calls, ("step 0", "idle"), ("shows", "shows %s 0" % ID)])

    def test_what_is_refused_at_once_marks(self):
        """What is refused on a master, by the same words, and each write."""
        for line, told in [*REFUSED, *((it, READONLY) for it in WRITES)]:
            with self.subTest(line=line):
                refused = [(MULTI, OK), (GET, QUEUED), (texts(line), told), (GET, QUEUED), (EXEC, ABORTED)]
                self.are_answered(*refused, (GET, bulk("v")), (EXEC, EXEC_ALONE))

    def test_what_is_told_at_the_end(self):
        """Faults, also of writes: these are found before it is seen that they are writes."""
        replies = [*(told for _, told in FAULTY), bulk("v"), number(1)]
        self.are_answered((MULTI, OK), *((texts(line), QUEUED) for line, _ in FAULTY), (GET, QUEUED), (texts("DBSIZE"), QUEUED), (EXEC, array_of(*replies)))

    def test_one_within_one_is_refused_and_it_goes_on(self):
        self.are_answered((MULTI, OK), (GET, QUEUED), (MULTI, NESTED), (GET, QUEUED), (EXEC, array_of(bulk("v"), bulk("v"))))

    def test_none_is_open(self):
        alone = [(EXEC, EXEC_ALONE), (texts("DISCARD"), DISCARD_ALONE)]
        self.are_answered(*alone, (MULTI, OK), (EXEC, NONE), *alone, (MULTI, OK), (GET, QUEUED), (texts("DISCARD"), OK), *alone, (GET, bulk("v")))

    def test_a_link_that_quits(self):
        calls = [*holding("SET k v"), ("replica", "started"), ("open", "opened"), fed(0, MULTI + GET + request("QUIT") + EXEC)]
        calls += [("step 0", done(OK)), ("step 0", done(QUEUED)), ("step 0", done(OK, closes=True)), ("step 0", "closed")]
        self.rehearses([*calls, ("shows", "shows %s 0" % ID)])


# as what a node begins, how it is told to be the other, what that gives out, and which id it shows then
OBEYS = "master", texts("REPLICAOF h 1"), "sf", ID
IS_PROMOTED = "replica", LEAD, "su", "%040x" % 1


class OverRoles(Rehearsing):
    """A transaction in which the role of its node changes, by another client's REPLICAOF: a master obeys, or a replica is promoted."""

    def asks(self, rows):
        """The calls that ask these of the first link. A row has the reply, and the effects if there are any."""
        return [call for line, *told in rows for call in (fed(0, line), ("step 0", done(*told)))]

    def are_answered(self, change, before, after):
        """On a node that holds one key a transaction is begun, and these are asked before the change and behind it."""
        start, asked, outs, id = change
        calls = [*holding("SET k v"), (start, "started"), *(2 * [("open", "opened")]), *self.asks([(MULTI, OK), *before])]
        calls += [fed(1, asked), ("step 1", "done %s %s -" % (outs, OK.hex())), *self.asks(after)]
        grown = sum(len(effects) for _, _, *told in after for effects in told)
        self.rehearses([*calls, ("step 0", "idle"), ("shows", "shows %s %d" % (id, grown))])

    def for_both(self, before, after):
        for change in (OBEYS, IS_PROMOTED):
            with self.subTest(begins=change[0]):
                self.are_answered(change, before, after)

    def test_what_is_refused_at_once_marks(self):
        """Also what isn't allowed there, behind the change as before it; and what was marked before stays so."""
        end = [(EXEC, ABORTED), (GET, bulk("v")), (EXEC, EXEC_ALONE)]
        for line, told in REFUSED:
            with self.subTest(line=line):
                self.for_both([(GET, QUEUED), (texts(line), told)], [(GET, QUEUED), *end])
                self.for_both([(GET, QUEUED)], [(texts(line), told), (GET, QUEUED), *end])

    def test_what_is_told_at_the_end(self):
        """Faults that wait, from before the change and from behind it."""
        rows, told = [*((texts(line), QUEUED) for line, _ in FAULTY), (GET, QUEUED)], array_of(*(told for _, told in FAULTY), bulk("v"))
        for cut in (0, 6, len(rows)):
            self.for_both(rows[:cut], [*rows[cut:], (EXEC, told), (EXEC, EXEC_ALONE)])

    def test_one_within_one_is_refused_and_it_goes_on(self):
        rows = [(MULTI, NESTED), (GET, QUEUED)]
        self.for_both(rows, [*rows, (EXEC, array_of(bulk("v"), bulk("v"))), (EXEC, EXEC_ALONE)])

    def test_what_is_discarded(self):
        """What waits is, and so is a mark."""
        discarded, alone = (texts("DISCARD"), OK), [(EXEC, EXEC_ALONE), (texts("DISCARD"), DISCARD_ALONE)]
        self.for_both([(GET, QUEUED)], [discarded, *alone, (GET, bulk("v"))])
        self.for_both([(texts("GET"), arity("get"))], [discarded, *alone, (MULTI, OK), (GET, QUEUED), (EXEC, array_of(bulk("v")))])
        self.are_answered(OBEYS, [(SET_W, QUEUED)], [discarded, *alone, (GET, bulk("v"))])

    def test_writes_of_a_master_that_obeys(self):
        """Those that wait are refused at their places, and do nothing; those that come behind the change are refused at once, and mark."""
        waits = [(GET, QUEUED), *((texts(line), QUEUED) for line in WRITES)]
        told = array_of(bulk("v"), *(len(WRITES) * [READONLY]), bulk("v"))
        self.are_answered(OBEYS, waits, [(GET, QUEUED), (EXEC, told), (GET, bulk("v"))])
        for line in WRITES:
            with self.subTest(line=line):
                self.are_answered(OBEYS, waits, [(texts(line), READONLY), (GET, QUEUED), (EXEC, ABORTED), (GET, bulk("v"))])

    def test_writes_of_a_replica_that_is_promoted(self):
        """Those from before are refused at once, and mark: that stays over the promotion. Those that come behind it wait, and are done."""
        for line in WRITES:
            with self.subTest(line=line):
                self.are_answered(IS_PROMOTED, [(texts(line), READONLY)], [(SET_W, QUEUED), (EXEC, ABORTED), (GET, bulk("v")), (SET_W, OK, SET_W)])
        rows = [(SET_A, QUEUED), (SET_B, QUEUED), (EXEC, array_of(bulk("v"), OK, OK), PAIR), (texts("DBSIZE"), number(3))]
        self.are_answered(IS_PROMOTED, [(GET, QUEUED)], rows)


if __name__ == "__main__":
    unittest.main()
