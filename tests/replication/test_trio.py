"""Three nodes and a client in one process: `minired trio`, which plays a script on standard input."""

import os
import random
import re
import resource
import subprocess
import unittest

from tests.support.program import LATE, LAUNCHER, PROGRAM, run
from tests.support.refusing import Refusing
from tests.support.replies import ABORTED, QUEUED, READONLY, array, number

# what the program says last of a node
ENDING = re.compile(rb"([123]) (master|slave) ([0-9a-f]{40}) (\d+)")


def drawn(number):
    """The id that is drawn at this turn."""
    return b"%040x" % number


def shown(reply):
    """The bytes of a reply as a line of the program."""
    return b"".join(b"%c" % it if 0x20 <= it <= 0x7E and it != 0x5C else b"\\x%02x" % it for it in reply)


class Trio(unittest.TestCase):
    def plays(self, script):
        """The lines of answers to a script, and what the three nodes are at its end."""
        ended = run(script, "trio")
        self.assertEqual((ended.returncode, ended.stderr), (0, b""))
        lines = ended.stdout.split(b"\n")
        self.assertEqual(lines.pop(), b"")
        ends = [ENDING.fullmatch(line) for line in lines[-3:]]
        self.assertEqual([end and end[1] for end in ends], [b"1", b"2", b"3"])
        return lines[:-3], [(end[2], end[3], int(end[4])) for end in ends]

    def is_late(self, script, *before):
        """The script's last line never gets its whole reply: behind the answers before it that is all that is said."""
        ended = run(script, "trio")
        self.assertEqual((ended.returncode, ended.stderr), (2, b""))
        self.assertEqual(ended.stdout.split(b"\n"), [*before, b"late", b""])


OK = b"+OK\\x0d\\x0a"


class Rows(Trio):
    """What a script is answered."""

    def test_a_promotion_and_a_return(self):
        """The old master follows the new one from where it stood, and what was written there comes with it."""
        script = b"1 SET k v\n2 REPLICAOF node 1\n2 GET k\n2 REPLICAOF NO ONE\n2 SET k w\n1 REPLICAOF node 2\n1 GET k\n3 GET k\n"
        answers, ends = self.plays(script)
        self.assertEqual(answers, [OK, OK, b"$1\\x0d\\x0av\\x0d\\x0a", OK, OK, OK, b"$1\\x0d\\x0aw\\x0d\\x0a", b"$-1\\x0d\\x0a"])
        self.assertEqual(ends, [(b"slave", drawn(4), 54), (b"master", drawn(4), 54), (b"master", drawn(3), 0)])

    def test_a_transaction(self):
        """It waits on the node's one link while others are asked, and is done as one; the replica has it then, and refuses what writes at once."""
        script = b"2 REPLICAOF node 1\n1 MULTI\n1 SET a 1\n2 DBSIZE\n1 SET b 2\n1 EXEC\n2 DBSIZE\n2 MULTI\n2 GET b\n2 SET b 3\n2 EXEC\n2 MULTI\n2 GET b\n2 EXEC\n"
        answers, ends = self.plays(script)
        done = shown(b"*2\r\n+OK\r\n+OK\r\n")
        self.assertEqual(answers[:7], [OK, OK, shown(QUEUED), shown(number(0)), shown(QUEUED), done, shown(number(2))])
        self.assertEqual(answers[7:], [OK, *map(shown, (QUEUED, READONLY, ABORTED)), OK, shown(QUEUED), shown(array("2"))])
        self.assertEqual(ends, [(b"master", drawn(1), 83), (b"slave", drawn(1), 83), (b"master", drawn(3), 0)])

    def test_no_lines(self):
        answers, ends = self.plays(b"")
        self.assertEqual(answers, [])
        self.assertEqual(ends, [(b"master", drawn(1), 0), (b"master", drawn(2), 0), (b"master", drawn(3), 0)])

    def test_two_replicas(self):
        """A write is at both before it is answered; a replica refuses one."""
        answers, ends = self.plays(b"2 replicaof node 1\n3 SlaveOf node 1\n1 RPUSH l a b\n2 LRANGE l 0 -1\n3 LRANGE l 0 -1\n3 SET k v\n")
        listed = shown(b"*2\r\n$1\r\na\r\n$1\r\nb\r\n")
        self.assertEqual(answers, [OK, OK, b":2\\x0d\\x0a", listed, listed, shown(READONLY)])
        self.assertEqual(len({end[1:] for end in ends}), 1)
        self.assertEqual([end[0] for end in ends], [b"master", b"slave", b"slave"])

    def test_replies_of_all_forms(self):
        script = rb"""1 PING
1 ECHO "a\x00\\\xff~"
1 NOTHING
1 GET none
1 LPOP none 2
1 SADD s a
1 COMMAND
1 ROLE
"""
        answers, _ = self.plays(script)
        self.assertEqual(answers[:7], [shown(it) for it in (b"+PONG\r\n", b"$5\r\na\0\\\xff~\r\n", b"-ERR unknown command\r\n", b"$-1\r\n", b"*-1\r\n", b":1\r\n", b"*0\r\n")])
        self.assertRegex(answers[7], rb"^\*3\\x0d\\x0a\$6\\x0d\\x0amaster\\x0d\\x0a:\d+\\x0d\\x0a\*0\\x0d\\x0a$")

    def test_lists_in_lists(self):
        """ROLE of a master with a replica is a list in which a list is."""
        answers, _ = self.plays(b"2 REPLICAOF node 1\n1 ROLE\n2 ROLE\n")
        self.assertRegex(answers[1], rb"^\*3\\x0d\\x0a\$6\\x0d\\x0amaster\\x0d\\x0a:0\\x0d\\x0a\*1\\x0d\\x0a\*3\\x0d\\x0a")
        self.assertRegex(answers[2], rb"connected\\x0d\\x0a:0\\x0d\\x0a$")

    def test_a_large_value(self):
        """It takes many turns, and comes to the replica whole."""
        value = b"x" * (8 << 20)
        answers, ends = self.plays(b"1 SETRANGE k %d x\n2 REPLICAOF node 1\n2 STRLEN k\n1 APPEND k y\n2 GETRANGE k -2 -1\n" % (len(value) - 1))
        self.assertEqual(answers, [b":%d\\x0d\\x0a" % len(value), OK, b":%d\\x0d\\x0a" % len(value), b":%d\\x0d\\x0a" % (len(value) + 1), b"$2\\x0d\\x0axy\\x0d\\x0a"])
        self.assertEqual(ends[0][1:], ends[1][1:])

    def test_a_link_that_the_node_closed(self):
        """QUIT is answered, and the next line has a link of its own."""
        answers, _ = self.plays(b"1 SET k v\n1 QUIT\n1 GET k\n")
        self.assertEqual(answers, [OK, OK, b"$1\\x0d\\x0av\\x0d\\x0a"])


class Lines(Trio):
    """Which lines ask something."""

    def test_bad_lines(self):
        """They are told so, and the script goes on."""
        bad = [b"0 PING", b"4 PING", b"1", b"01 PING", b"one PING", b"PING", b"-1 PING", b'1 PING "a', b'1 "a"b', b"*1", b"1 " + b"x" * 65_536, b"12 PING"]
        answers, _ = self.plays(b"".join(line + b"\n1 PING\n" for line in bad))
        self.assertEqual(answers, [b"bad line", b"+PONG\\x0d\\x0a"] * len(bad))

    def test_blank_lines(self):
        """They are answered nothing."""
        self.assertEqual(self.plays(b"\n  \r\n\t\n1 PING\n\n")[0], [b"+PONG\\x0d\\x0a"])

    def test_words_in_quotes(self):
        answers, _ = self.plays(b"1 SET 'a b' \"\\x41\\n\"\r\n  '1'  GET \"a b\"\n")
        self.assertEqual(answers, [OK, b"$2\\x0d\\x0aA\\x0a\\x0d\\x0a"])

    def test_a_rest_without_a_line_feed(self):
        """It is no line."""
        self.assertEqual(self.plays(b"1 PING\n1 SET k v")[0], [b"+PONG\\x0d\\x0a"])

    def test_requests_that_are_refused(self):
        """Such a line is one: its reply is an error."""
        answers, ends = self.plays(b"1 REPLICAOF node\n1 REPLICAOF 127.0.0.1 0\n1 REPLICAOF node 1 x\n1 SHUTDOWN NOW\n")
        self.assertTrue(all(answer.startswith(b"-ERR ") for answer in answers), answers)
        self.assertEqual([end[0] for end in ends], [b"master"] * 3)


class Late(Trio):
    """Lines that never get there."""

    def test_shutdown(self):
        """A node that ends answers nothing any more."""
        self.is_late(b"2 PING\n1 SHUTDOWN\n2 PING\n", b"+PONG\\x0d\\x0a")

    def test_a_request_that_has_no_reply(self):
        self.is_late(b"1 REPLCONF ACK 0\n")

    def test_nodes_that_can_not_be_followed(self):
        """Itself, a replica, one that isn't there, and two that follow each other."""
        self.is_late(b"1 REPLICAOF node 1\n")
        self.is_late(b"2 REPLICAOF node 1\n3 REPLICAOF node 2\n", OK)
        self.is_late(b"1 REPLICAOF nowhere.invalid 1\n")
        self.is_late(b"1 REPLICAOF node 4\n")
        self.is_late(b"2 REPLICAOF node 1\n1 REPLICAOF node 2\n", OK)

    def test_a_master_that_leaves_its_replicas(self):
        """What replicas it had are left without a master."""
        self.is_late(b"2 REPLICAOF node 1\n1 REPLICAOF node 3\n", OK)


class Streams(Trio):
    """Input that can't be read, and output that can't be written."""

    def ends(self, status, said, **how):
        ended = subprocess.run([LAUNCHER, "trio"], capture_output="stdout" not in how, timeout=LATE, **how)
        self.assertEqual((ended.returncode, ended.stderr), (status, said))

    def test_an_output_that_fails(self):
        """At an answer, at the end, and as a line is late."""
        for script in (b"1 PING\n", b"", b"bad\n", b"1 SHUTDOWN\n"):
            with self.subTest(script=script), open("/dev/full", "wb") as full:
                self.ends(3, b"minired: file failed\n", input=script, stdout=full, stderr=subprocess.PIPE)

    def test_an_input_that_fails(self):
        """A folder can be opened, and not be read."""
        folder = os.open("/", os.O_RDONLY)
        try:
            self.ends(3, b"minired: file failed\n", stdin=folder)
        finally:
            os.close(folder)

    def test_words_behind_it(self):
        """It has no options."""
        for words in (("--port", "1"), ("x",)):
            ended = run(b"", "trio", *words)
            self.assertEqual((ended.returncode, ended.stdout), (1, b""))
            self.assertTrue(ended.stderr.startswith(b"minired: "))


class Lacking(Refusing):
    """Runs that lack memory or descriptors: how each of them ends, what it says on standard error, and whether a line was late."""

    SCRIPT = b"1 SET k v\n2 REPLICAOF node 1\n2 GET k\n"
    # a node stopped, or the trio found no memory; a socket's call failed; a node lacked it for a link, so that nobody answers there
    STOPPED, FAILED, UNANSWERED = (3, b"minired: out of memory\n", False), (2, b"minired: socket failed\n", False), (2, b"", True)
    DONE = (0, b"", False)

    def setUp(self):
        super().setUp()
        self.ample = run(self.SCRIPT, "trio").stdout
        self.assertEqual(self.ample.count(b"\n"), 6)

    def ended(self, ran):
        """How it ended. What it has told is a beginning of what it tells where nothing lacks, whole lines."""
        told = ran.stdout.removesuffix(b"late\n")
        self.assertEqual(told, self.ample[: len(told)])
        self.assertEqual(told, self.ample if ran.returncode == 0 else told[: told.rfind(b"\n") + 1])
        return ran.returncode, ran.stderr, told != ran.stdout

    def test_memory(self):
        """Each allocation refused in turn. Where a socket can't be made or opened for it, that is told as of sockets."""
        ends = set()

        def check(ran, was_refused):
            end = self.ended(ran)
            self.assertIn(end, (self.DONE, self.STOPPED, self.FAILED, self.UNANSWERED))
            self.assertTrue(was_refused or end == self.DONE)
            ends.add(end)

        self.assertGreater(self.each_refusal(self.SCRIPT, check, PROGRAM, "trio"), 100)
        self.assertEqual(ends, {self.DONE, self.STOPPED, self.FAILED, self.UNANSWERED})

    def test_descriptors(self):
        """Too few for four listeners and for the client's links; where only the other end of a link lacks one, the line is late."""
        rows = [*[(most, self.FAILED, 0) for most in range(4, 12)], (12, self.UNANSWERED, 0), (13, self.FAILED, 1), (14, self.UNANSWERED, 1), (100, self.DONE, 6)]
        for most, end, lines in rows:
            with self.subTest(most=most):
                few = lambda: resource.setrlimit(resource.RLIMIT_NOFILE, (most, most))
                ran = subprocess.run([PROGRAM, "trio"], input=self.SCRIPT, capture_output=True, timeout=LATE, preexec_fn=few)
                self.assertEqual((self.ended(ran), ran.stdout.removesuffix(b"late\n").count(b"\n")), (end, lines))


class Many(Trio):
    """Long scripts: writes at whoever is master, and promotions after which the others follow."""

    LINES = 400

    def script(self, chance):
        """Its lines, and who is master at its end. Roles change so that each node has a master that is one."""
        lines, master, ids = ["2 REPLICAOF node 1", "3 REPLICAOF node 1"], 1, 3
        while len(lines) < self.LINES:
            if chance.random() < 0.03:
                new = chance.choice([it for it in (1, 2, 3) if it != master])
                other = 6 - master - new
                # whoever is left follows first, so that nobody is without a master
                lines += [f"{other} REPLICAOF NO ONE", f"{new} REPLICAOF NO ONE", f"{other} REPLICAOF node {new}", f"{master} REPLICAOF node {new}"]
                master, ids = new, ids + 2
            elif chance.random() < 0.3:
                lines.append(f"{chance.choice((1, 2, 3))} {chance.choice(('GET k', 'LRANGE l 0 -1', 'SMEMBERS s', 'DBSIZE', 'ZRANGE z 0 -1'))}")
            else:
                write = chance.choice(("SET k {0}", "RPUSH l {0}", "SADD s {0}", "ZADD z {0} m{0}", "DEL k", "INCRBY n {0}", "APPEND a {0}", "LPOP l", "SPOP s"))
                lines.append(f"{master} {write.format(chance.randrange(1000))}")
        return lines, master, ids

    def test_promotions_and_returns(self):
        for seed in (1, 2, 3):
            with self.subTest(seed=seed):
                lines, master, _ = self.script(random.Random(seed))
                looks = [f"{node} {look}" for look in ("GET k", "LRANGE l 0 -1", "SMEMBERS s", "ZRANGE z 0 -1 WITHSCORES", "GET n", "GET a") for node in (1, 2, 3)]
                answers, ends = self.plays("".join(line + "\n" for line in lines + looks).encode())
                self.assertEqual(len(answers), len(lines) + len(looks))
                self.assertEqual(len({end[1:] for end in ends}), 1, ends)
                self.assertEqual([end[0] for end in ends], [b"master" if node == master else b"slave" for node in (1, 2, 3)])
                seen = answers[len(lines):]
                for at in range(0, len(seen), 3):
                    self.assertEqual(len(set(seen[at : at + 3])), 1, looks[at])
                self.assertEqual([line for line, answer in zip(lines, answers) if "REPLICAOF" in line and answer != OK], [])

    def test_the_same_again(self):
        """What it answers hangs on its script alone."""
        lines, _, _ = self.script(random.Random(4))
        script = "".join(line + "\n" for line in lines).encode()
        self.assertEqual(self.plays(script), self.plays(script))


if __name__ == "__main__":
    unittest.main()
