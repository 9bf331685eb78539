"""Scripts of a world with their answers, as the description tells them: for whatever plays scripts.

A test case that takes `Rows` in defines `answers_to(script, backlog)`, which returns what each line of the script is answered."""

from tests.support.program import USUAL_BACKLOG, request
from tests.support.replies import (
    ABORTED, BULK_LENGTH, CHAINED, COUNT, DISCARD_ALONE, EXEC_ALONE, INTEGER, NESTED, NIL, NOT_ALLOWED, OK, PONG, QUEUED, READONLY, STARTED, SYNTAX, UNKNOWN,
    WRONG_KIND, arity, array, array_of, bulk, information, number,
)
from tests.support.requests import PAIR, SET, SET_B

# what a replica without anything to go on from says, and what it is answered by a master with one key: in bytes
SAID = (14, 46, 59, 30)
HEARD = (7, 5, 5, 57 + 5 + 27)
FULLRESYNC, CONTINUE = 57, 52
# PSYNC with an id, and with an offset of two digits
OFFERED = 70
# of one digit less, and what an empty master answers at offset 0
OFFERED_AT_1, HEARD_OF_NOTHING = 69, 56 + 4


def digits(id):
    return id * 40 if len(id) == 1 else id


def shown(node, id, offset):
    return "%d %s %d" % (node, digits(id), offset)


def printed(data):
    return "".join(chr(byte) if 0x20 <= byte <= 0x7E and byte != 0x5C else "\\x%02x" % byte for byte in data)


def typed(data):
    """Bytes as a quoted word of a line."""
    return '"%s"' % "".join("\\x%02x" % byte for byte in data)


def info(role, id, offset, first, replicas=0, second="0", second_offset=-1, backlog=USUAL_BACKLOG):
    """INFO's reply, with ids that may be letters."""
    return bulk(information(offset, role, first, replicas, digits(id), (digits(second), second_offset), backlog))


class Script:
    """Lines, each with the answer that is wanted."""

    def __init__(self):
        self.rows, self.took, self.links = [], {}, 0

    def line(self, line, answer="ok"):
        self.rows.append((line, answer))

    def lines(self, text):
        """Lines, each with its answer behind an arrow, or with `ok`."""
        for row in filter(None, map(str.strip, text.split("\n"))):
            line, arrow, answer = row.partition(" ->")
            self.line(line, answer.strip() if arrow else "ok")

    def deliver(self, link, side, count, is_all=True):
        """Hands the end at this side that many bytes, after which mostly none is left."""
        self.line("deliver %d %s %d" % (link, side, count))
        if is_all:
            self.line("deliver %d %s 1" % (link, side), "refused 3")

    def step(self, link, side, now=0, word=0, fresh="1"):
        self.line("step %d %s %d %d %s" % (link, side, now, word, fresh))

    def client(self, node):
        self.line("client %d" % node, "link %d" % self.links)
        return self.joined()

    def joined(self):
        self.links += 1
        return self.links - 1

    def asks(self, link, line, reply, now=0, word=0, fresh="1"):
        """A client's request with the words of this line, and its whole reply."""
        words = line.split(" ")
        self.line("send %d %s" % (link, line))
        self.deliver(link, "b", len(request(*words)))
        self.step(link, "b", now, word, fresh)
        self.takes(link, reply)

    def begins(self, link, *lines):
        """A client's transaction, with requests that wait."""
        self.asks(link, "MULTI", OK)
        for line in lines:
            self.asks(link, line, QUEUED)

    def ends(self, link, *replies, **how):
        """EXEC, and the replies to what waited."""
        self.asks(link, "EXEC", array_of(*replies), **how)

    def takes(self, link, reply):
        self.deliver(link, "a", len(reply))
        self.took[link] = self.took.get(link, b"") + reply
        self.line("got %d" % link, printed(self.took[link]))

    def shows(self, node, id, offset):
        self.line("show %d" % node, shown(node, id, offset))

    def dials(self, node, to):
        self.line("dial %d %d" % (node, to), "link %d" % self.links)
        return self.joined()

    def greets(self, link, last):
        """A replica's handshake up to its last line, of that many bytes, which the other node has then taken."""
        for said, heard in zip(SAID[:3], HEARD[:3]):
            self.deliver(link, "b", said)
            self.step(link, "b")
            self.deliver(link, "a", heard)
            self.step(link, "a")
        self.deliver(link, "b", last)

    def connects(self, node):
        """A replica's link, which waits for a node to accept it."""
        self.line("connect %d" % node, "link %d" % self.links)
        return self.joined()

    def synchronizes(self, node, to, last=SAID[3], answer=HEARD[3], steps=2):
        """A replica dials a node, and both go on to the end of the answer of that many bytes."""
        return self.copies(self.dials(node, to), last, answer, steps)

    def copies(self, link, last=SAID[3], answer=HEARD[3], steps=2):
        """The same on a link that a node serves already."""
        self.greets(link, last)
        self.step(link, "b")
        self.deliver(link, "a", answer)
        for _ in range(steps):
            self.step(link, "a")
        return link


def started(id="a"):
    """A master with one key, at offset 27, and its client."""
    script = Script()
    script.line("start %s" % id, "node 0")
    script.client(0)
    script.asks(0, "SET k v", OK)
    return script


def followed(*ids):
    """The same with replicas, each at the master's offset; the first one's link is 1."""
    script = started()
    for number, id in enumerate(ids):
        script.line("replica %s" % id, "node %d" % (number + 1))
    for number, _ in enumerate(ids):
        script.synchronizes(number + 1, 0)
        script.shows(number + 1, "a", 27)
    return script


def empty_replica():
    """A master that holds nothing with a client, and a replica of it at (A, 0). Their link is 1."""
    script = Script()
    script.line("start a", "node 0")
    script.client(0)
    script.line("replica b", "node 1")
    script.synchronizes(1, 0, answer=HEARD_OF_NOTHING)
    script.shows(1, "a", 0)
    return script


def split():
    """A master at (A, 54), a promoted replica at (B, 54) whose second id is A up to 27, and a replica that still is at (A, 27). Links 3 and 4 are clients of the
    second and the third node."""
    script = followed("d", "e")
    script.asks(0, "SET k x", OK)
    script.shows(0, "a", 54)
    p, q = script.client(1), script.client(2)
    script.asks(p, "REPLICAOF NO ONE", OK, fresh="b")
    script.shows(1, "b", 27)
    script.asks(p, "SET k w", OK)
    script.shows(1, "b", 54)
    script.asks(p, "INFO replication", info("master", "b", 54, 28, second="a", second_offset=28))
    return script, p, q


def every_event():
    """A split and a return, heartbeats and acknowledgements, a transaction, a file written anew and a restart: each kind of event, each kind of answer, and each kind
    of out."""
    script, p, _ = split()
    script.line("break 2 a")
    links = [(2, script.synchronizes(2, 1, last=OFFERED, answer=CONTINUE + 27))]
    script.asks(0, "REPLICAOF h 1", OK)
    links.append((0, script.synchronizes(0, 1, last=OFFERED, answer=HEARD[3])))
    for node in (1, 2, 0):
        script.line("tick %d 0" % node)
    script.line("tick 1 10000")
    for node, link in links:
        script.deliver(link, "a", 14)
        script.step(link, "a")
        script.shows(node, "b", 68)
        script.line("tick %d 1000" % node)
        script.deliver(link, "b", 35)
        script.step(link, "b")
    role = array_of(bulk(""), bulk("0"), bulk("68"))
    script.asks(p, "ROLE", array_of(bulk("master"), number(68), array_of(role, role)))
    script.begins(p, "SET a 1", "GET k", "SET b 2")
    script.ends(p, OK, bulk("w"), OK)
    script.shows(1, "b", 68 + 83)
    script.asks(p, "BGREWRITEAOF", STARTED)
    script.asks(p, "SHUTDOWN", b"")
    script.line("raw %d %s" % (p, typed(b"PING\r\n*x")))
    script.deliver(p, "b", 8)
    script.step(p, "b")
    script.takes(p, PONG)
    script.step(p, "b")
    script.takes(p, COUNT)
    script.line("restart 2 1000 c")
    script.shows(2, "c", 0)
    script.asks(script.client(2), "GET k", bulk("w"))
    link = script.connects(2)
    script.line("accept %d 1" % link)
    script.deliver(link, "b", SAID[0])
    script.step(link, "b")
    script.deliver(link, "a", HEARD[0])
    script.step(link, "a")
    script.lines("""
        start b -> refused 1
        client 3 -> refused 2
        what -> bad line
    """)
    return script


class Rows:
    def plays(self, script, backlog=USUAL_BACKLOG):
        """Each line, and its answer."""
        told = self.answers_to("".join(line + "\n" for line, _ in script.rows), backlog)
        for at, ((line, wanted), answer) in enumerate(zip(script.rows, told)):
            self.assertEqual(answer, wanted, "line %d: %s" % (at + 1, line))
        self.assertEqual(len(told), len(script.rows))

    # ---- one node and its client

    def test_a_key_is_set_and_got(self):
        script = Script()
        script.line("start a", "node 0")
        script.client(0)
        script.line("raw 0 %s" % typed(b"*3\r\n$3\r\nSET\r\n$1\r\nk\r\n$1\r\nv\r\nGET k\r\n"))
        script.deliver(0, "b", 27 + 7)
        script.step(0, "b")
        script.takes(0, OK)
        script.step(0, "b")
        script.takes(0, bulk("v"))
        script.shows(0, "a", 27)
        self.plays(script)

    def test_one_byte_at_a_time(self):
        script = Script()
        script.line("start a", "node 0")
        script.client(0)
        script.line("raw 0 %s" % typed(b"*3\r\n$3\r\nSET\r\n$1\r\nk\r\n$1\r\nv\r\nGET k\r\n"))
        for _ in range(27 + 7):
            script.line("deliver 0 b 1")
            script.step(0, "b")
        script.takes(0, OK + bulk("v"))
        script.shows(0, "a", 27)
        self.plays(script)

    def test_a_bulk_length_below_zero_closes_the_link(self):
        script = Script()
        script.line("start a", "node 0")
        script.client(0)
        script.line("raw 0 %s" % typed(b"*1\r\n$-5\r\nPING\r\n"))
        script.deliver(0, "b", 15)
        script.step(0, "b")
        script.takes(0, BULK_LENGTH)
        script.lines("""
            step 0 b 0 0 1 -> refused 2
            send 0 PING
            deliver 0 b 1 -> refused 2
            break 0 b -> refused 2
            break 0 a
            send 0 PING -> refused 2
        """)
        self.plays(script)

    def test_an_increment_that_overflows_has_no_effect(self):
        script = Script()
        script.line("start a", "node 0")
        script.client(0)
        script.asks(0, "SET k 9223372036854775807", OK)
        script.asks(0, "INCR k", b"-ERR increment or decrement would overflow\r\n")
        script.shows(0, "a", 46)
        self.plays(script)

    def test_a_deadline_is_sent_as_a_time_and_its_key_is_deleted(self):
        script = Script()
        script.line("start a", "node 0")
        script.client(0)
        script.asks(0, "SET k v", OK, now=1000)
        script.asks(0, "EXPIRE k 10", number(1), now=1000)
        script.shows(0, "a", 64)
        script.asks(0, "GET k", NIL, now=11000)
        script.shows(0, "a", 84)
        # what the stream was, and what is left
        script.client(0)
        script.asks(1, "PSYNC %s 1" % digits("a"), b"+CONTINUE %s\r\n" % (b"a" * 40) + SET + request("PEXPIREAT", "k", "11000") + request("DEL", "k"))
        script.client(0)
        script.asks(2, "PSYNC ? -1", b"+FULLRESYNC %s 84\r\n$0\r\n" % (b"a" * 40))
        self.plays(script)

    def test_a_member_is_drawn_by_the_word(self):
        script = Script()
        script.line("start a", "node 0")
        script.client(0)
        script.asks(0, "SADD s a b c", number(3))
        script.shows(0, "a", 42)
        script.asks(0, "SPOP s", bulk("b"), word=4)
        script.shows(0, "a", 70)
        script.client(0)
        script.asks(1, "PSYNC %s 43" % digits("a"), b"+CONTINUE %s\r\n" % (b"a" * 40) + request("SREM", "s", "b"))
        self.plays(script)

    def test_what_a_replica_says_of_itself(self):
        script = started()
        link = script.client(0)
        script.asks(link, "REPLCONF listening-port 6379 ip-address ::1", OK)
        script.asks(link, "REPLCONF capa eof capa psync2", OK)
        script.asks(link, "REPLCONF capa", b"-ERR syntax error\r\n")
        script.asks(link, "REPLCONF ACK x", b"-ERR syntax error\r\n")
        script.asks(link, "PSYNC %s x" % digits("a"), b"-ERR value is not an integer or out of range\r\n")
        script.asks(0, "ROLE", array_of(bulk("master"), number(27), array_of()))
        script.asks(link, "PSYNC %s 28" % digits("a"), b"+CONTINUE %s\r\n" % (b"a" * 40))
        script.asks(link, "REPLCONF ACK 20", b"")
        role = array_of(bulk("::1"), bulk("6379"), bulk("20"))
        script.asks(0, "ROLE", array_of(bulk("master"), number(27), array_of(role)))
        # the last one is told, also where it goes back
        script.asks(link, "REPLCONF ACK -5", b"")
        role = array_of(bulk("::1"), bulk("6379"), bulk("-5"))
        script.asks(0, "ROLE", array_of(bulk("master"), number(27), array_of(role)))
        # anything else closes the link
        script.asks(link, "PING", b"")
        script.line("step %d b 0 0 1" % link, "refused 2")
        script.asks(0, "ROLE", array_of(bulk("master"), number(27), array_of()))
        self.plays(script)

    def test_an_acknowledgement_has_no_reply_on_any_link(self):
        script = started()
        script.asks(0, "REPLCONF ACK 5", b"")
        script.asks(0, "PING", PONG)
        self.plays(script)

    def test_the_role_of_a_replica(self):
        script = followed("b")
        link = script.client(1)

        def told(host, port, state):
            return array_of(bulk("slave"), bulk(host), number(port), bulk(state), number(27))

        script.asks(link, "ROLE", told("", 0, "connected"))
        script.asks(link, "REPLICAOF h 65536", b"-ERR value is not an integer or out of range\r\n")
        script.asks(link, "REPLICAOF h 1", OK)
        script.line("step 1 a 0 0 1", "refused 2")
        script.asks(link, "ROLE", told("h", 1, "connect"))
        script.dials(1, 0)
        script.asks(link, "ROLE", told("h", 1, "sync"))
        # the same host and port: nothing changes
        script.asks(link, "replicaof h 1", OK)
        script.asks(link, "ROLE", told("h", 1, "sync"))
        self.plays(script)

    def test_what_is_told_of_replication(self):
        told = info("master", "a", 27, 1)
        self.assertEqual(len(told), len("$316\r\n") + 316 + 2)
        script = started()
        script.asks(0, "INFO replication", told)
        self.plays(script)

    def test_ticks_delete_in_order_of_deadline_and_key(self):
        script = Script()
        script.line("start a", "node 0")
        script.client(0)
        for line in ("SET a 1 PX 5", "SET b 1 PX 5", "SET c 1 PX 4"):
            script.asks(0, line, OK)
        script.shows(0, "a", 3 * 44)
        script.line("tick 0 5")
        script.shows(0, "a", 192)
        script.client(0)
        deleted = b"".join(request("DEL", key) for key in "cab")
        script.asks(1, "PSYNC %s 133" % digits("a"), b"+CONTINUE %s\r\n" % (b"a" * 40) + deleted)
        self.plays(script)

    def test_a_tick_deletes_sixty_four_keys(self):
        script = Script()
        script.line("start a", "node 0")
        script.client(0)
        for place in range(70):
            script.asks(0, "SET %c 1 PX 5" % (0x30 + place if place < 40 else 0x30 + place + 5), OK)
        for offset in (70 * 44, 70 * 44 + 64 * 20, 70 * 44 + 70 * 20, 70 * 44 + 70 * 20):
            script.shows(0, "a", offset)
            script.line("tick 0 5")
        self.plays(script)

    # ---- files

    def test_a_torn_end_of_a_file_is_cut(self):
        script = started()
        script.asks(0, "SET k w", OK)
        # the first text, and `*3\r\n$3\r\nSE`
        script.line("restart 0 37 b")
        script.shows(0, "b", 0)
        script.client(0)
        script.asks(1, "GET k", bulk("v"))
        # the rest is gone
        script.line("restart 0 64 c")
        script.shows(0, "c", 0)
        script.client(0)
        script.asks(2, "GET k", bulk("v"))
        self.plays(script)

    def test_each_beginning_of_a_file(self):
        for kept in range(28):
            script = started()
            script.line("restart 0 %d b" % kept)
            script.shows(0, "b", 0)
            script.client(0)
            script.asks(1, "GET k", bulk("v") if kept == 27 else NIL)
            script.asks(1, "DBSIZE", number(1 if kept == 27 else 0))
            self.plays(script)

    def test_a_file_is_written_anew(self):
        for kept, value in ((27, bulk("w")), (26, NIL)):
            script = started()
            script.asks(0, "SET k w", OK)
            script.asks(0, "BGREWRITEAOF", STARTED)
            script.shows(0, "a", 54)
            script.line("restart 0 %d b" % kept)
            script.client(0)
            script.asks(1, "GET k", value)
            self.plays(script)

    # ---- synchronizing

    def test_an_empty_master_is_synchronized_with(self):
        script = Script()
        script.line("start a", "node 0")
        script.client(0)
        script.asks(0, "PSYNC ? -1", b"+FULLRESYNC %s 0\r\n$0\r\n" % (b"a" * 40))
        self.plays(script)

    def test_a_whole_snapshot(self):
        script = followed("b")
        script.client(0)
        script.asks(2, "PSYNC ? -1", b"+FULLRESYNC %s 27\r\n$27\r\n" % (b"a" * 40) + SET)
        script.client(1)
        script.asks(3, "GET k", bulk("v"))
        self.plays(script)

    def test_a_snapshot_is_nothing_without_its_last_byte(self):
        script = started()
        script.line("replica b", "node 1")
        link = script.dials(1, 0)
        script.greets(link, SAID[3])
        script.step(link, "b")
        script.deliver(link, "a", 88, is_all=False)
        # the answer's line, and nothing whole behind it
        script.step(link, "a")
        script.step(link, "a")
        script.shows(1, "b", 0)
        script.line("break %d a" % link)
        script.shows(1, "b", 0)
        # the next one is whole
        script.synchronizes(1, 0)
        script.shows(1, "a", 27)
        self.plays(script)

    def test_the_last_byte_of_a_snapshot(self):
        script = started()
        script.line("replica b", "node 1")
        link = script.dials(1, 0)
        script.greets(link, SAID[3])
        script.step(link, "b")
        script.deliver(link, "a", 88, is_all=False)
        script.step(link, "a")
        script.step(link, "a")
        script.shows(1, "b", 0)
        script.deliver(link, "a", 1)
        script.step(link, "a")
        script.shows(1, "a", 27)
        self.plays(script)

    def test_a_backlog_of_one_effect(self):
        script = started()
        script.line("replica b", "node 1")
        link = script.synchronizes(1, 0)
        script.line("break %d a" % link)
        script.asks(0, "SET k w", OK)
        script.shows(0, "a", 54)
        asks = script.client(0)
        script.asks(asks, "PSYNC %s 28" % digits("a"), b"+CONTINUE %s\r\n" % (b"a" * 40) + request("SET", "k", "w"))
        script.asks(0, "SET k x", OK)
        script.shows(0, "a", 81)
        # the first one's link is still open at the master's end
        script.asks(0, "INFO", info("master", "a", 81, 55, replicas=2, backlog=27))
        asks = script.client(0)
        script.asks(asks, "PSYNC %s 28" % digits("a"), b"+FULLRESYNC %s 81\r\n$27\r\n" % (b"a" * 40) + request("SET", "k", "x"))
        script.synchronizes(1, 0, last=OFFERED, answer=FULLRESYNC + 5 + 27)
        script.shows(1, "a", 81)
        self.plays(script, backlog=27)

    def test_a_replica_goes_on_where_the_backlog_reaches(self):
        script = started()
        script.line("replica b", "node 1")
        link = script.synchronizes(1, 0)
        script.line("break %d a" % link)
        script.asks(0, "SET k w", OK)
        script.synchronizes(1, 0, last=OFFERED, answer=CONTINUE + 27)
        script.shows(1, "a", 54)
        self.plays(script, backlog=27)

    def test_a_replica_writes_nothing(self):
        script = followed("b")
        script.client(1)
        script.asks(2, "SET k v", READONLY)
        script.shows(1, "a", 27)
        self.plays(script)

    def test_a_replica_keeps_a_key_whose_deadline_has_come(self):
        script = Script()
        script.line("start a", "node 0")
        script.client(0)
        script.asks(0, "SET k v", OK, now=1000)
        script.asks(0, "EXPIRE k 10", number(1), now=1000)
        script.line("replica b", "node 1")
        # the key, and when it ends: 27 and 37 bytes
        link = script.synchronizes(1, 0, answer=FULLRESYNC + 5 + 64)
        script.shows(1, "a", 64)
        script.client(1)
        script.asks(2, "GET k", NIL, now=12000)
        script.asks(2, "PTTL k", number(-2), now=12000)
        script.line("tick 1 12000")
        script.shows(1, "a", 64)
        # it is still there for who reads an earlier time
        script.asks(2, "GET k", bulk("v"), now=10999)
        script.asks(0, "GET k", NIL, now=11000)
        script.deliver(link, "a", 20)
        script.step(link, "a")
        script.shows(1, "a", 84)
        script.asks(2, "DBSIZE", number(0))
        script.asks(2, "GET k", NIL, now=10999)
        self.plays(script)

    def test_a_half_read_effect_is_dropped(self):
        script = followed("b")
        script.asks(0, "SET k w", OK)
        script.deliver(1, "a", 26, is_all=False)
        script.step(1, "a")
        script.shows(1, "a", 27)
        script.line("break 1 a")
        script.synchronizes(1, 0, last=OFFERED, answer=CONTINUE + 27)
        script.shows(1, "a", 54)
        self.plays(script)

    # ---- cut links

    def test_the_replicas_end_breaks_at_each_byte(self):
        for cut in range(106):
            script = started()
            script.line("replica b", "node 1")
            link, left = script.dials(1, 0), cut
            for said, heard in zip(SAID, HEARD):
                script.deliver(link, "b", said)
                script.step(link, "b")
                script.deliver(link, "a", min(left, heard), is_all=left >= heard)
                script.step(link, "a")
                script.step(link, "a")
                if left < heard:
                    break
                left -= heard
            script.line("break %d a" % link)
            script.shows(1, "b", 0)
            script.synchronizes(1, 0)
            script.shows(1, "a", 27)
            self.plays(script)

    def test_the_masters_end_breaks_at_each_byte(self):
        for cut in range(149):
            script = started()
            script.line("replica b", "node 1")
            link, left = script.dials(1, 0), cut
            for said, heard in zip(SAID, HEARD):
                script.deliver(link, "b", min(left, said), is_all=left >= said)
                script.step(link, "b")
                if left < said:
                    break
                script.deliver(link, "a", heard)
                script.step(link, "a")
                left -= said
            script.line("break %d b" % link)
            script.line("dial 1 0", "refused 2")
            script.shows(1, "b", 0)
            script.line("break %d a" % link)
            script.synchronizes(1, 0)
            script.shows(1, "a", 27)
            self.plays(script)

    # ---- promotion and return

    def test_a_split_and_what_follows_it(self):
        script, p, q = split()
        # the third node goes on under the new id
        script.line("break 2 a")
        script.synchronizes(2, 1, last=OFFERED, answer=CONTINUE + 27)
        script.shows(2, "b", 54)
        script.asks(q, "INFO", info("slave", "b", 54, 28, second="a", second_offset=28))
        script.asks(q, "GET k", bulk("w"))
        # the old master comes back
        script.asks(0, "REPLICAOF h 1", OK)
        script.shows(0, "a", 54)
        script.synchronizes(0, 1, last=OFFERED, answer=FULLRESYNC + 5 + 27)
        script.shows(0, "b", 54)
        script.asks(0, "INFO", info("slave", "b", 54, 55))
        script.asks(0, "GET k", bulk("w"))
        self.plays(script)

    def returned(self):
        """The promoted replica has come back to the old master, and has lost what it wrote."""
        script, p, q = split()
        script.asks(p, "REPLICAOF h 1", OK)
        link = script.synchronizes(1, 0, last=OFFERED, answer=FULLRESYNC + 5 + 27)
        script.shows(1, "a", 54)
        script.asks(p, "INFO", info("slave", "a", 54, 55))
        script.asks(p, "GET k", bulk("x"))
        return script, p, link

    def test_a_promoted_replica_returns(self):
        self.plays(self.returned()[0])

    def test_an_id_isnt_drawn_twice(self):
        script, p, _ = self.returned()
        script.line("send %d REPLICAOF NO ONE" % p)
        script.deliver(p, "b", len(request("REPLICAOF", "NO", "ONE")))
        for drawn in ("b", "a", "d", "0"):
            script.line("step %d b 0 0 %s" % (p, drawn), "refused 1")
        script.shows(1, "a", 54)
        script.lines("""
            start b -> refused 1
            replica 0 -> refused 1
            restart 1 0 e -> refused 1
            restart 9 0 e -> refused 1
            step 99 a 0 0 b -> refused 1
        """)
        self.plays(script)

    def promoted_again(self):
        """The same node is a master once more, under another id."""
        script, p, _ = self.returned()
        # nothing was used of this id, so it may be drawn again
        script.asks(p, "GET k", bulk("x"), fresh="c")
        script.asks(p, "REPLICAOF NO ONE", OK, fresh="c")
        script.shows(1, "c", 54)
        script.asks(p, "INFO", info("master", "c", 54, 55, second="a", second_offset=55))
        return script

    def test_a_node_is_promoted_again(self):
        self.plays(self.promoted_again())

    def test_a_master_goes_on_under_another_id(self):
        script = self.promoted_again()
        script.asks(0, "REPLICAOF h 1", OK)
        script.synchronizes(0, 1, last=OFFERED, answer=CONTINUE, steps=1)
        script.shows(0, "c", 54)
        # the ends of its old replicas were closed when it became one
        script.asks(0, "INFO", info("slave", "c", 54, 1, second="a", second_offset=55))
        self.plays(script)

    def test_replicas_are_not_chained(self):
        script = followed("b", "c")
        script.line("break 2 a")
        link = script.dials(2, 1)
        script.greets(link, OFFERED)
        script.step(link, "b")
        script.deliver(link, "a", len(CHAINED))
        script.step(link, "a")
        script.shows(2, "a", 27)
        script.line("step %d a 0 0 1" % link, "refused 2")
        script.line("break %d a" % link, "refused 2")
        # it waits once more, and still has something to go on from
        script.synchronizes(2, 0, last=OFFERED, answer=CONTINUE, steps=1)
        script.shows(2, "a", 27)
        self.plays(script)

    # ---- transactions

    def test_two_effects_are_a_group(self):
        script = Script()
        script.line("start a", "node 0")
        script.client(0)
        script.begins(0, "SET a 1", "SET b 2")
        script.shows(0, "a", 0)
        script.ends(0, OK, OK)
        script.shows(0, "a", 83)
        script.asks(0, "INFO", info("master", "a", 83, 1))
        self.assertEqual(len(PAIR), 83)
        script.asks(0, "PSYNC %s 1" % digits("a"), b"+CONTINUE %s\r\n" % (b"a" * 40) + PAIR)
        self.plays(script)

    def test_one_effect_is_no_larger_group(self):
        script = Script()
        script.line("start a", "node 0")
        script.client(0)
        script.begins(0, "SET k v", "INCR k", "GET k")
        script.ends(0, OK, INTEGER, bulk("v"))
        script.shows(0, "a", 27)
        script.begins(0, "GET k", "SET k v", "DEL none", "LPUSH k x")
        script.ends(0, bulk("v"), OK, number(0), WRONG_KIND)
        script.shows(0, "a", 27)
        script.begins(0)
        script.ends(0)
        script.asks(0, "PSYNC %s 1" % digits("a"), b"+CONTINUE %s\r\n" % (b"a" * 40) + SET)
        self.plays(script)

    def test_a_marked_transaction_does_nothing(self):
        refused = {"GET": arity("get"), "NOPE": UNKNOWN, "EXEC x": arity("exec"), "DISCARD x": arity("discard"), "MULTI x": arity("multi")}
        for line in ("REPLICAOF h 1", "slaveof no one", "PSYNC ? -1", "REPLCONF capa eof", "REPLCONF ACK 1", "SHUTDOWN", "BGREWRITEAOF"):
            refused[line] = NOT_ALLOWED
        for line, told in refused.items():
            script = Script()
            script.line("start a", "node 0")
            script.client(0)
            script.begins(0, "SET a 1")
            script.asks(0, line, told)
            script.asks(0, "SET b 2", QUEUED)
            script.asks(0, "EXEC", ABORTED)
            script.shows(0, "a", 0)
            script.asks(0, "EXEC", EXEC_ALONE)
            script.asks(0, "DBSIZE", number(0))
            self.plays(script)

    def test_other_faults_are_told_at_the_end(self):
        script = started()
        lines = {"SET a 1 NX XX": SYNTAX, "LPOP q x": INTEGER, "LPUSH k x": WRONG_KIND, "REPLICAOF h 0": INTEGER, "PSYNC ? x": INTEGER, "REPLCONF": SYNTAX}
        lines["SHUTDOWN NOW"] = SYNTAX
        script.begins(0, *lines, "SET b 2")
        script.ends(0, *lines.values(), OK)
        script.shows(0, "a", 54)
        self.plays(script)

    def test_a_transaction_within_one_is_refused_and_it_goes_on(self):
        script = Script()
        script.line("start a", "node 0")
        script.client(0)
        script.begins(0, "SET a 1")
        script.asks(0, "MULTI", NESTED)
        script.asks(0, "SET b 2", QUEUED)
        script.ends(0, OK, OK)
        script.shows(0, "a", 83)
        self.plays(script)

    def test_what_is_discarded_is_not_done(self):
        script = started()
        script.asks(0, "DISCARD", DISCARD_ALONE)
        script.begins(0, "SET k w")
        script.asks(0, "DISCARD", OK)
        script.asks(0, "EXEC", EXEC_ALONE)
        script.begins(0)
        script.asks(0, "NOPE", UNKNOWN)
        script.asks(0, "DISCARD", OK)
        script.begins(0, "GET k")
        script.ends(0, bulk("v"))
        script.shows(0, "a", 27)
        self.plays(script)

    def test_a_link_that_ends_takes_what_waits_along(self):
        for last in ("break 0 a", "break 0 b"):
            script = started()
            script.begins(0, "SET k w")
            script.line(last)
            link = script.client(0)
            script.asks(link, "EXEC", EXEC_ALONE)
            script.asks(link, "GET k", bulk("v"))
            script.shows(0, "a", 27)
            self.plays(script)

    def test_the_end_of_a_link_within_a_transaction(self):
        script = started()
        script.begins(0, "SET k w")
        script.line("raw 0 %s" % typed(b"QUIT\r\nEXEC\r\n"))
        script.deliver(0, "b", 12)
        script.step(0, "b")
        script.takes(0, OK)
        script.line("step 0 b 0 0 1", "refused 2")
        script.asks(script.client(0), "GET k", bulk("v"))
        script.shows(0, "a", 27)
        self.plays(script)

    def test_others_see_all_of_it_or_nothing(self):
        script = started()
        other = script.client(0)
        script.begins(0, "SET k w", "SET a 1")
        script.asks(other, "GET k", bulk("v"))
        script.begins(other, "DBSIZE", "GET k")
        script.asks(other, "MULTI", NESTED)
        script.ends(0, OK, OK)
        # what waits here is done at what the other has left
        script.ends(other, number(2), bulk("w"))
        script.shows(0, "a", 27 + 83)
        self.plays(script)

    def test_one_moment_and_one_word(self):
        script = Script()
        script.line("start a", "node 0")
        script.client(0)
        script.asks(0, "SADD s a b c d e", number(5))
        script.begins(0, "SET k v PX 5", "PTTL k", "SPOP s 2", "SPOP s 2", "PTTL k", "GET k")
        # the third of five members and the one behind it, and then the second of three
        script.ends(0, OK, number(5), array("c", "d"), array("b", "e"), number(5), bulk("v"), now=1000, word=7)
        script.asks(script.client(0), "PTTL k", number(4), now=1001)
        self.plays(script)

    def test_a_deadline_that_has_come_is_deleted_once(self):
        script = Script()
        script.line("start a", "node 0")
        script.client(0)
        script.asks(0, "SET k v PX 5", OK)
        script.shows(0, "a", 44)
        script.begins(0, "GET k", "GET k", "DBSIZE")
        script.ends(0, NIL, NIL, number(0), now=5)
        script.shows(0, "a", 64)
        self.plays(script)

    def test_requests_on_lines_and_empty_ones(self):
        script = Script()
        script.line("start a", "node 0")
        script.client(0)
        told = [(b"multi\r\n", OK), (b"*0\r\n", b""), (b"set 'a' \"1\"\n", QUEUED), (b"\r\n", b""), (SET_B, QUEUED), (b"Exec\r\n", array_of(OK, OK))]
        for data, reply in told:
            script.line("raw 0 %s" % typed(data))
            script.deliver(0, "b", len(data))
            script.step(0, "b")
            script.takes(0, reply)
        script.shows(0, "a", 83)
        self.plays(script)

    def test_bytes_that_are_no_request_end_a_transaction_and_its_link(self):
        script = started()
        script.begins(0, "SET k w")
        script.line("raw 0 %s" % typed(b"*x"))
        script.deliver(0, "b", 2)
        script.step(0, "b")
        script.takes(0, COUNT)
        script.line("step 0 b 0 0 1", "refused 2")
        script.asks(script.client(0), "GET k", bulk("v"))
        self.plays(script)

    def test_a_replica_within_a_transaction(self):
        """It refuses writes at once, and answers what is read."""
        script = followed("b")
        link = script.client(1)
        script.begins(link, "GET k", "DBSIZE")
        script.ends(link, bulk("v"), number(1))
        script.begins(link, "GET k")
        script.asks(link, "SET k w", READONLY)
        script.asks(link, "EXEC", ABORTED)
        # one that can't be read for its options is told so at the end
        script.begins(link, "SET k w NO")
        script.ends(link, SYNTAX)
        script.begins(link)
        script.asks(link, "DEL k", READONLY)
        script.asks(link, "DISCARD", OK)
        script.shows(1, "a", 27)
        self.plays(script)

    def test_a_master_that_obeys_before_the_end_writes_nothing(self):
        script = started()
        other = script.client(0)
        script.begins(0, "SET k w", "GET k", "SET a 1")
        script.asks(other, "REPLICAOF h 1", OK)
        script.ends(0, READONLY, bulk("v"), READONLY)
        script.shows(0, "a", 27)
        self.plays(script)

    def test_a_replica_that_leads_before_the_end(self):
        script = followed("b")
        first, second, other = (script.client(1) for _ in range(3))
        script.begins(first, "GET k")
        script.begins(second, "GET k")
        script.asks(second, "SET k w", READONLY)
        script.asks(other, "REPLICAOF NO ONE", OK, fresh="c")
        script.asks(first, "SET k x", QUEUED)
        script.ends(first, bulk("v"), OK)
        script.asks(second, "EXEC", ABORTED)
        script.asks(other, "GET k", bulk("x"))
        script.shows(1, "c", 54)
        self.plays(script)

    def test_a_restart_takes_what_waits_along(self):
        script = started()
        script.begins(0, "SET k w")
        script.line("restart 0 27 b")
        script.line("send 0 EXEC")
        script.line("deliver 0 b 1", "refused 2")
        script.asks(script.client(0), "GET k", bulk("v"))
        self.plays(script)

    def test_no_part_of_a_group_is_in_a_file(self):
        """Each beginning of a file that ends in one."""
        for kept in range(27, 27 + 83 + 1):
            script = started()
            script.begins(0, "SET a 1", "SET b 2")
            script.ends(0, OK, OK)
            script.shows(0, "a", 27 + 83)
            script.line("restart 0 %d b" % kept)
            link = script.client(0)
            script.asks(link, "DBSIZE", number(3 if kept == 110 else 1))
            script.asks(link, "BGREWRITEAOF", STARTED)
            self.plays(script)

    def test_no_part_of_a_group_is_shown_by_a_replica(self):
        """It shows the offset before, however many of its bytes came, and asks for all of them again."""
        for count in range(83):
            script = empty_replica()
            script.begins(0, "SET a 1", "SET b 2")
            script.ends(0, OK, OK)
            script.deliver(1, "a", count, is_all=False)
            script.step(1, "a")
            script.shows(1, "a", 0)
            script.line("break 1 a")
            script.shows(1, "a", 0)
            # the last line asks for what is behind offset 0
            link = script.synchronizes(1, 0, last=OFFERED_AT_1, answer=CONTINUE + 83)
            script.shows(1, "a", 83)
            script.asks(script.client(1), "DBSIZE", number(2))
            self.plays(script)

    def test_a_group_one_byte_at_a_time(self):
        script = empty_replica()
        script.begins(0, "SET a 1", "SET b 2")
        script.ends(0, OK, OK)
        for _ in range(82):
            script.line("deliver 1 a 1")
            script.step(1, "a")
            script.shows(1, "a", 0)
        script.deliver(1, "a", 1)
        script.step(1, "a")
        script.shows(1, "a", 83)
        script.asks(script.client(1), "GET b", bulk("2"))
        self.plays(script)

    def test_a_group_is_cut_out_of_a_backlog_or_not(self):
        """A backlog that reaches back to a group's beginning, and one that has all but its first byte."""
        for backlog, answer in ((83, CONTINUE + 83), (82, FULLRESYNC + 5 + 54)):
            script = empty_replica()
            script.line("break 1 a")
            script.begins(0, "SET a 1", "SET b 2")
            script.ends(0, OK, OK)
            script.synchronizes(1, 0, last=OFFERED_AT_1, answer=answer)
            script.shows(1, "a", 83)
            self.plays(script, backlog=backlog)

    def test_two_replicas_are_cut_at_different_groups(self):
        """The one that is promoted goes on from the end of the group that it has, and the other takes the rest from it."""
        script = followed("d", "e")
        script.begins(0, "SET k w", "SET a 1")
        script.ends(0, OK, OK)
        script.deliver(1, "a", 83)
        script.step(1, "a")
        script.deliver(2, "a", 82, is_all=False)
        script.step(2, "a")
        script.shows(1, "a", 110)
        script.shows(2, "a", 27)
        p, q = script.client(1), script.client(2)
        script.asks(p, "REPLICAOF NO ONE", OK, fresh="b")
        script.shows(1, "b", 110)
        script.line("break 2 a")
        script.synchronizes(2, 1, last=OFFERED, answer=CONTINUE + 83)
        script.shows(2, "b", 110)
        script.asks(q, "GET k", bulk("w"))
        self.plays(script)

    # ---- time

    def test_a_heartbeat_every_ten_seconds(self):
        script = followed("b")
        for now, offset in ((1000, 27), (10999, 27), (11000, 41), (20999, 41)):
            script.line("tick 0 %d" % now)
            script.shows(0, "a", offset)
        script.deliver(1, "a", 14)
        script.step(1, "a")
        script.shows(1, "a", 41)
        self.plays(script)

    def test_an_acknowledgement_every_second(self):
        script = followed("b")
        for now in (1000, 10999, 11000):
            script.line("tick 0 %d" % now)
        script.deliver(1, "a", 14)
        script.step(1, "a")
        for now in (1000, 1999):
            script.line("tick 1 %d" % now)
            script.line("deliver 1 b 1", "refused 3")
        script.line("tick 1 2000")
        script.deliver(1, "b", 35)
        role = array_of(bulk(""), bulk("0"), bulk("0"))
        script.asks(0, "ROLE", array_of(bulk("master"), number(41), array_of(role)))
        script.step(1, "b")
        role = array_of(bulk(""), bulk("0"), bulk("41"))
        script.asks(0, "ROLE", array_of(bulk("master"), number(41), array_of(role)))
        script.line("deliver 1 a 1", "refused 3")
        self.plays(script)

    def test_one_replica_is_caught_up(self):
        script = followed("b", "c")
        script.line("tick 0 0")
        script.line("tick 0 10000")
        script.deliver(1, "a", 14)
        script.step(1, "a")
        script.shows(1, "a", 41)
        script.shows(2, "a", 27)
        script.deliver(2, "a", 14)
        script.step(2, "a")
        script.shows(2, "a", 41)
        self.plays(script)

    # ---- lines and events

    def test_every_event(self):
        self.plays(every_event())

    def test_lines_that_are_no_events(self):
        script = Script()
        script.line("start a", "node 0")
        script.line("client 0", "link 0")
        bad = ["start", "start A", "start aa", "start " + 39 * "a", "start b c", "nothing", "START b", "client", "client -1", "client 00", "client +0", "client 0 0"]
        bad += ["client 18446744073709551616", "send 0", "send x PING", "raw 0", "raw 0 a b", "raw 0 'a", 'raw 0 "a"b', "deliver 0 c 1", "deliver 0 A 1", "deliver 0 a -1"]
        bad += ["step 0 b 0 0", "step 0 b 2305843009213693953 0 1", "step 0 b 0 18446744073709551616 1", "step 0 b -1 0 1", "tick 0", "tick 0 2305843009213693953"]
        bad += ["restart 0 b", "dial 0", "break 0", "break 0 c", "show", "show 0 0", "got", "got a", "*1", "*0", " *3", "x" * 65537]
        for line in bad:
            script.line(line, "bad line")
        script.lines("""
            show 0 -> %s
            "show" '0' -> %s
            got 0 ->
            step 0 b 2305843009213693952 18446744073709551615 1
        """ % (shown(0, "a", 0), shown(0, "a", 0)))
        self.plays(script)

    def test_events_where_nothing_is(self):
        script = Script()
        script.lines("""
            show 0 -> refused 2
            got 0 -> refused 2
            client 0 -> refused 2
            start a -> node 0
            dial 0 0 -> refused 2
            replica b -> node 1
            dial 1 2 -> refused 2
            dial 2 1 -> refused 2
            dial 1 0 -> link 0
            dial 1 0 -> refused 2
            got 0 -> refused 2
            send 0 PING -> refused 2
            raw 0 x -> refused 2
            deliver 0 b 15 -> refused 3
            deliver 0 b 14
            break 0 b
            deliver 0 b 0 -> refused 2
            step 0 b 0 0 1 -> refused 2
            step 0 a 0 0 1
            break 0 a
            dial 1 1 -> link 1
            client 0 -> link 2
            step 2 a 0 0 1 -> refused 2
            deliver 2 a 0
            break 2 a
            deliver 2 a 0 -> refused 2
            send 2 PING -> refused 2
            got 2 ->
            tick 2 0 -> refused 2
            restart 2 0 c -> refused 2
            step 3 a 0 0 1 -> refused 2
        """)
        self.plays(script)
