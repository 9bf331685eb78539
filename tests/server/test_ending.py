"""How the program ends: its status, and what it writes on standard error."""

import contextlib
import os
import pty
import re
import resource
import signal
import subprocess
import tempfile
import unittest

from tests.support.program import LATE, LAUNCHER, PROGRAM, run
from tests.support.replies import OK, PONG, bulk
from tests.support.requests import GET, PING, SET

SET_THEN_GET, OK_THEN_VALUE = SET + GET, OK + bulk("v")

# lines that are refused, and what the refusal names
BAD_LINES = [
    (["nothing"], b"nothing"),
    (["Pipe"], b"Pipe"),
    (["help"], b"help"),
    (["--Help"], b"--Help"),
    (["-H"], b"-H"),
    (["-v"], b"-v"),
    (["pipe", "--aof=--help", "--now"], b"--now <now>"),
    (["--now", "1"], b"--now"),
    (["pipe", "more"], b"more"),
    (["pipe", "two\n\nlines"], b"two"),
    (["pipe", "-n", "1"], b"-n"),
    (["pipe", "--", "1"], b"1"),
    (["pipe", "--nothing", "1"], b"--nothing"),
    (["pipe", "--now"], b"--now <now>"),
    (["pipe", "--now", "x"], b"x"),
    (["pipe", "--now", "-1"], b"-1"),
    (["pipe", "--now=-1"], b"-1"),
    (["pipe", "--now", "2305843009213693953"], b"2305843009213693953"),
    (["pipe", "--now", "1", "--now", "2"], b"multiple times"),
    (["pipe", "--word", "18446744073709551616"], b"18446744073709551616"),
    (["pipe", "--word", "0x4"], b"0x4"),
    (["pipe", "--id"], b"--id <id>"),
    ([""], b""),
    (["serve"], b"--port <port>"),
    (["serve", "--turns", "1"], b"--port <port>"),
    (["serve", "--port"], b"--port <port>"),
    (["serve", "--port", "x"], b"x"),
    (["serve", "--port", "-1"], b"-1"),
    (["serve", "--port", "0"], b"0 is not in 1..=65535"),
    (["serve", "--port", "65536"], b"65536 is not in 1..=65535"),
    (["serve", "--port", "1", "--port", "2"], b"multiple times"),
    (["serve", "--port", "1", "--turns", "x"], b"x"),
    (["serve", "--port", "1", "--turns", "18446744073709551616"], b"18446744073709551616"),
    (["serve", "--port", "1", "--sync"], b"--sync <sync>"),
    (["serve", "--port", "1", "--sync", "no", "--sync", "no"], b"multiple times"),
    (["serve", "--port", "1", "--backlog"], b"--backlog <backlog>"),
    (["serve", "--port", "1", "--backlog", "x"], b"x"),
    (["serve", "--port", "1", "--backlog", "0"], b"0 is not in 1..=1073741824"),
    (["serve", "--port", "1", "--backlog", "1073741825"], b"1073741825 is not in 1..=1073741824"),
    (["serve", "--port", "1", "--backlog", "2", "--backlog", "2"], b"multiple times"),
    (["serve", "--port", "1", "--repl-timeout", "x"], b"x"),
    (["serve", "--port", "1", "--repl-timeout", "10"], b"10 is not in 11..=86400"),
    (["serve", "--port", "1", "--repl-timeout", "86401"], b"86401 is not in 11..=86400"),
    (["serve", "--port", "1", "--timeout", "x"], b"x"),
    (["serve", "--port", "1", "--timeout", "2147483648"], b"2147483648 is not in 0..=2147483647"),
    (["serve", "--port", "1", "--timeout", "1", "--timeout", "1"], b"multiple times"),
    (["serve", "--port", "1", "--tcp-keepalive", "-1"], b"-1"),
    (["serve", "--port", "1", "--tcp-keepalive", "32768"], b"32768 is not in 0..=32767"),
    (["serve", "--port", "1", "--maxclients", "0"], b"0 is not in 1..=1000000"),
    (["serve", "--port", "1", "--maxclients", "1000001"], b"1000001 is not in 1..=1000000"),
    (["serve", "--port", "1", "--replicaof"], b"--replicaof <replicaof>"),
    (["serve", "--port", "1", "--replicaof", "h:2", "--replicaof", "h:2"], b"multiple times"),
    (["serve", "--port", "1", "--replicaof", "h", "2"], b"2"),
    (["serve", "--replicaof", "h:2"], b"--port <port>"),
    (["serve", "--port", "1", "--bind"], b"--bind <bind>"),
    (["serve", "--port", "1", "--bind", "127.0.0.1", "--bind", "127.0.0.1"], b"multiple times"),
    (["serve", "--port", "1", "--now", "1"], b"--now"),
    (["serve", "--port", "1", "more"], b"more"),
    (["pipe", "--port", "1"], b"--port"),
    (["pipe", "--backlog", "1"], b"--backlog"),
    (["pipe", "--replicaof", "h:2"], b"--replicaof"),
    (["pipe", "--bind", "127.0.0.1"], b"--bind"),
]

# what names no node, and no address
BAD_MASTERS = ["", "h", "2", ":", "h:", "h:0", "h:65536", "h:18446744073709551617", "h:-1", "h:+2", "h:02", "h:2 ", "h: 2", "h:x", "h:0x2", "h:2:", "[::1]", "h 2"]
BAD_ADDRESSES = ["", "localhost", "*", "127.1", "127.0.0", "127.0.0.1.1", "127.0.0.256", "127.0.0.01", "127.0.0.+1", "127.0.0.1 ", " 127.0.0.1", "127.0.0.1:2", "::1", "0x7f000001", "2130706433"]


class Options(unittest.TestCase):
    def test_values_within_their_range(self):
        for words in (
            ["--now", "0"],
            ["--now", "2305843009213693952"],
            ["--word", "18446744073709551615"],
            ["--id", "0123456789abcdef0123456789abcdef01234567"],
            ["--word=4", "--id=" + 40 * "b", "--now=7"],
        ):
            with self.subTest(words=words):
                ran = run(PING, "pipe", *words)
                self.assertEqual((ran.returncode, ran.stdout, ran.stderr), (0, PONG, b""))

    def test_a_bad_line_is_refused_in_one_line(self):
        for words, said in BAD_LINES:
            with self.subTest(words=words):
                ran = run(PING, *words)
                self.assertEqual((ran.returncode, ran.stdout), (1, b""))
                self.assertRegex(ran.stderr, rb"\Aminired: [^\x00-\x1f]*[^\x00-\x20]\n\Z")
                self.assertIn(said, ran.stderr)

    def test_an_id_that_is_none_is_a_bad_value(self):
        for name in ("", 39 * "a", 41 * "a", 39 * "a" + "A", 39 * "a" + "g"):
            with self.subTest(name=name):
                ran = run(PING, "pipe", "--id=" + name)
                self.assertEqual((ran.returncode, ran.stdout, ran.stderr), (1, b"", b"minired: bad value\n"))

    def test_a_mode_that_is_none_is_told_which_there_are(self):
        for mode in ("", "maybe", "everysec", "Always", "NO", "no ", "always,no"):
            with self.subTest(mode=mode):
                ran = run(PING, "serve", "--port=1", "--sync=" + mode)
                self.assertEqual((ran.returncode, ran.stdout), (1, b""))
                self.assertEqual(ran.stderr, b"minired: bad value: --sync takes always or no\n")


    def test_a_master_that_is_none_is_told_what_is_taken(self):
        for master in BAD_MASTERS:
            with self.subTest(master=master):
                ran = run(PING, "serve", "--port=1", "--replicaof=" + master)
                self.assertEqual((ran.returncode, ran.stdout), (1, b""))
                self.assertEqual(ran.stderr, b"minired: bad value: --replicaof takes HOST:PORT\n")

    def test_an_address_that_is_none_is_told_what_is_taken(self):
        for address in BAD_ADDRESSES:
            with self.subTest(address=address):
                ran = run(PING, "serve", "--port=1", "--bind=" + address)
                self.assertEqual((ran.returncode, ran.stdout), (1, b""))
                self.assertEqual(ran.stderr, b"minired: bad value: --bind takes an IPv4 address\n")


class Questions(unittest.TestCase):
    def test_the_help_names_all_words_and_their_usual_values(self):
        for words in (["--help"], ["-h"], ["serve", "--help"], ["pipe", "-h"], ["trio", "-h"], ["serve", "--port", "1", "--help"], ["--version", "--help"], ["nothing", "-h"]):
            with self.subTest(words=words):
                ran = run(PING, *words)
                self.assertEqual((ran.returncode, ran.stderr), (0, b""))
                words_of_it = ("serve", "pipe", "trio", "--port", "--aof", "--sync", "--turns", "--backlog", "--replicaof", "--bind", "--repl-timeout", "--timeout", "--tcp-keepalive", "--maxclients", "--id", "--now", "--word")
                for word in (*words_of_it, "--help", "--version"):
                    self.assertRegex(ran.stdout, rb"(?m)(^|[\s|\[])" + re.escape(word.encode()) + rb"\b")
                for usual in ("always", "1000000000000", "1048576", "127.0.0.1", "usually 60", "usually 300", "usually 1000000", "40 times a", "usually 0"):
                    self.assertIn(usual.encode(), ran.stdout)
                self.assertTrue(all(len(line) <= 120 for line in ran.stdout.decode().split("\n")))

    def test_each_line_of_the_help_is_taken_by_the_parser(self):
        said = run(b"", "--help").stdout.decode()
        values = {"--port": "6379", "--aof": "", "--sync": "always", "--turns": "0", "--id": 40 * "a", "--now": "0", "--word": "0"}
        values |= {"--backlog": "1048576", "--replicaof": "127.0.0.1:6379", "--bind": "127.0.0.1", "--repl-timeout": "60", "--timeout": "0", "--tcp-keepalive": "300", "--maxclients": "1000000"}
        self.assertEqual(set(re.findall(r"--[\w-]+", said)), {*values, "--help", "--version"})
        with tempfile.TemporaryDirectory() as folder:
            values["--aof"] = os.path.join(folder, "data.aof")
            words = [it for name in ("--aof", "--id", "--now", "--word") for it in (name, values[name])]
            self.assertEqual(run(PING, "pipe", *words).stdout, PONG)

    def test_the_version(self):
        for words in (["--version"], ["serve", "--version"]):
            with self.subTest(words=words):
                ran = run(PING, *words)
                self.assertEqual((ran.returncode, ran.stderr), (0, b""))
                self.assertRegex(ran.stdout, rb"\Aminired \d+\.\d+\.\d+\n\Z")

    def test_an_answer_that_cannot_be_written(self):
        for word in ("--help", "--version"):
            with self.subTest(word=word), open("/dev/full", "wb") as full:
                ran = subprocess.run([LAUNCHER, word], stdout=full, stderr=subprocess.PIPE, timeout=LATE)
                self.assertEqual((ran.returncode, ran.stderr), (3, b"minired: file failed\n"))


class Terminals(unittest.TestCase):
    def test_who_starts_it_on_a_terminal_is_told_that_it_waits(self):
        ours, its = pty.openpty()
        self.addCleanup(os.close, ours)
        started = subprocess.Popen([LAUNCHER, "pipe"], stdin=its, stdout=subprocess.PIPE, stderr=subprocess.PIPE, bufsize=0)
        self.addCleanup(started.communicate)
        os.close(its)
        self.assertRegex(started.stderr.readline(), rb"\Aminired: waits for requests .*--help.*\n\Z")
        os.write(ours, b"PING\n")
        self.assertEqual(started.stdout.read(7), PONG)
        # the end of the input, as a terminal says it
        os.write(ours, b"\x04")
        self.assertEqual(started.wait(timeout=LATE), 0)


class Streams(unittest.TestCase):
    def fails(self, ran):
        self.assertEqual((ran.returncode, ran.stderr), (3, b"minired: file failed\n"))

    def test_an_input_that_cannot_be_read(self):
        with open(os.devnull, "wb") as unreadable:
            self.fails(subprocess.run([LAUNCHER, "pipe"], stdin=unreadable, capture_output=True, timeout=LATE))

    def test_an_output_that_cannot_be_written(self):
        with open("/dev/full", "wb") as full:
            self.fails(subprocess.run([LAUNCHER, "pipe"], input=PING, stdout=full, stderr=subprocess.PIPE, timeout=LATE))

    def test_an_output_that_is_full_has_a_beginning_of_the_replies(self):
        def narrow(room):
            signal.signal(signal.SIGXFSZ, signal.SIG_IGN)
            resource.setrlimit(resource.RLIMIT_FSIZE, (room, room))

        for room in range(len(OK_THEN_VALUE)):
            with self.subTest(room=room), tempfile.TemporaryFile() as out:
                how = {"stdout": out, "stderr": subprocess.PIPE, "preexec_fn": lambda: narrow(room), "timeout": LATE}
                self.fails(subprocess.run([PROGRAM, "pipe"], input=SET_THEN_GET, **how))
                out.seek(0)
                self.assertEqual(out.read(), OK_THEN_VALUE[:room])

    def test_an_output_that_is_closed(self):
        for count in (1, 100_000):
            with self.subTest(count=count):
                reader, writer = os.pipe()
                os.close(reader)
                ran = subprocess.run([LAUNCHER, "pipe"], input=count * PING, stdout=writer, stderr=subprocess.PIPE, timeout=LATE)
                os.close(writer)
                self.fails(ran)

    def test_an_output_whose_reader_goes_away(self):
        pipe = subprocess.PIPE
        started = subprocess.Popen([LAUNCHER, "pipe"], stdin=pipe, stdout=pipe, stderr=pipe, bufsize=0)
        started.stdout.close()
        with started.stdin, contextlib.suppress(BrokenPipeError):
            started.stdin.write(1_000_000 * PING)
        with started.stderr:
            err = started.stderr.read()
        self.fails(subprocess.CompletedProcess([], started.wait(timeout=LATE), None, err))

    def test_without_the_launcher_a_closed_output_ends_the_program(self):
        reader, writer = os.pipe()
        os.close(reader)
        ran = subprocess.run([PROGRAM, "pipe"], input=PING, stdout=writer, stderr=subprocess.PIPE, timeout=LATE)
        os.close(writer)
        self.assertIn(ran.returncode, (3, -signal.SIGPIPE))


if __name__ == "__main__":
    unittest.main()
