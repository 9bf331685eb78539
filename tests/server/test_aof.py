"""The append-only file of `minired pipe --aof PATH`: what was answered is in it, and a start has the longest good beginning of it."""

import os
import random
import resource
import shutil
import socket as connection
import stat
import subprocess
import tempfile
import time
import unittest

from tests.support.files import InFolder
from tests.support.program import LATE, LAUNCHER, PROGRAM, needs, notices, request, run, shim
from tests.support.random_keys import RandomKeys
from tests.support.replies import ABORTED, INTEGER, NIL, OK, PONG, QUEUED, STARTED, arity, array, array_of, bulk, role_of_master
from tests.support.requests import EXEC, FAR, GET, MULTI, PAIR, PING, SET, SET_A, SET_B, SET_W, SET_X, framed

TORN = b"*3\r\n$3\r\nSE"
# behind the name of a file that is written anew, until it has the old one's place
NEW = ".minired-new"
# what is read of a file at once
PIECE = 65_536
# how often the program is killed in the middle of a stream of writes
KILLS = 200
REWRITE, ROLE = request("BGREWRITEAOF"), request("ROLE")
# how often it is killed in the middle of a rewriting, of a file of so many keys
REWRITING_KILLS, REWRITTEN_KEYS = 60, 10_000


def may_grow_to(size):
    """Has a program that is started behind this write no file past so many bytes. The system sends it a signal where it tries."""
    return lambda: resource.setrlimit(resource.RLIMIT_FSIZE, (size, size))


class OfFile(InFolder):
    """Runs of `pipe` over the file."""

    def asked(self, data, *words, **how):
        """The program's run over the file."""
        return run(data, "pipe", "--aof", self.path, *words, **how)

    def answers(self, data, wanted, *words, cut=None):
        """All goes well, and nothing is said, or that these bytes at the file's end were cut off."""
        was = os.path.getsize(self.path) if cut is not None else 0
        ran = self.asked(data, *words)
        said, rest = notices(ran.stderr)
        self.assertEqual((ran.returncode, rest, ran.stdout), (0, b"", wanted))
        if cut is None:
            self.assertEqual(said, [])
        else:
            self.was_cut(said, was, cut)

    def was_cut(self, said, was, cut):
        """These last bytes of so many stand in a copy beside the file, as the one notice says."""
        copy = self.copies()[-1]
        self.assertEqual(said, [b"%s: cut off %d bytes from offset %d on, copied to %s before" % (os.fsencode(self.path), len(cut), was - len(cut), os.fsencode(copy))])
        with open(copy, "rb") as file:
            self.assertTrue(file.read() == cut)

    def copies(self):
        """The copies of what was cut off, the first one first."""
        copies = [it for it in os.listdir(self.folder) if it.startswith("data.aof.cut-")]
        return [os.path.join(os.path.realpath(self.folder), it) for it in sorted(copies, key=lambda it: int(it.rsplit("-")[-1]))]

    def fails(self, ran, wanted):
        """The file failed, as the first line says; the second names the file. This was answered until then."""
        first, second, rest = ran.stderr.split(b"\n")
        self.assertEqual((ran.returncode, ran.stdout, first, rest), (3, wanted, b"minired: file failed", b""))
        self.assertIn(os.fsencode(self.path), second)


class Starting(OfFile):
    def test_what_was_answered_is_there_after_the_next_start(self):
        self.answers(SET + SET_W + request("RPUSH", "l", "a", "b"), OK + OK + b":2\r\n")
        self.answers(GET + request("LRANGE", "l", "0", "-1"), bulk(b"w") + array(b"a", b"b"))

    def test_the_file_is_the_texts_of_the_effects(self):
        self.answers(SET + SET_W, OK + OK)
        self.assertEqual(self.bytes(), SET + SET_W)
        self.assertEqual(len(self.bytes()), 54)

    def test_what_changes_nothing_is_not_in_the_file(self):
        asked = PING + GET + request("SET", "k") + SET + SET + request("LPUSH", "k", "v") + request("DEL", "none")
        ran = self.asked(asked)
        self.assertEqual((ran.returncode, ran.stderr), (0, b""))
        self.assertEqual(self.bytes(), SET)

    def test_a_torn_end_is_cut_off(self):
        self.write(SET + TORN)
        self.answers(GET, bulk(b"v"), cut=TORN)
        self.assertEqual(self.bytes(), SET)
        self.answers(SET_W, OK)
        self.assertEqual(self.bytes(), SET + SET_W)

    def test_a_command_that_cannot_be_applied_ends_what_is_loaded(self):
        for bad in (request("LPOP", "k", "1"), request("FOO"), GET, b"\0", b"SET k w\r\n"):
            with self.subTest(bad=bad):
                self.write(SET + bad + SET_W)
                self.answers(GET, bulk(b"v"), cut=bad + SET_W)
                self.assertEqual(self.bytes(), SET)

    def test_any_beginning_of_a_file_loads_its_whole_texts(self):
        texts = [SET, request("HSET", "h", "f", "v"), request("RPUSH", "l", "a"), request("SADD", "s", "m"), request("ZADD", "z", "1", "m")]
        whole, sizes = b"".join(texts), [sum(map(len, texts[:count])) for count in range(len(texts) + 1)]
        for cut in range(sizes[2], sizes[5] + 1):
            with self.subTest(cut=cut):
                self.write(whole[:cut])
                count = max(count for count, size in enumerate(sizes) if size <= cut)
                self.answers(request("DBSIZE"), b":%d\r\n" % count, cut=whole[sizes[count] : cut] or None)
                self.assertEqual(self.bytes(), whole[: sizes[count]])

    def test_random_bytes_load_nothing(self):
        data = random.Random(16).randbytes(100_000)
        self.write(data)
        self.answers(request("DBSIZE"), b":0\r\n", cut=data)
        self.assertEqual(self.bytes(), b"")

    def test_deadlines_outlive_a_start(self):
        self.answers(request("SET", "k", "v", "PX", "500"), OK, "--now", "1000")
        self.answers(GET, bulk(b"v"), "--now", "1499")
        self.answers(GET, NIL, "--now", "1500")

    def test_a_large_value_outlives_a_start(self):
        value = random.Random(5).randbytes(1 << 24)
        self.answers(request("SET", "k", value), OK)
        self.answers(GET, bulk(value))


class Loading(OfFile):
    """What is loaded of a file, and what is cut off."""

    ASKED = request("MGET", "a", "b", "k")
    NEITHER, BOTH = array(None, None, "v"), array("1", "2", "v")

    def loads(self, good, wanted, asked=ASKED, cut=b""):
        """Of the file that is these bytes and what is cut off the first are loaded, and left; the next start has nothing to say."""
        self.write(good + cut)
        self.answers(asked, wanted, cut=cut or None)
        self.assertTrue(self.bytes() == good)
        self.answers(asked, wanted)
        self.assertTrue(self.bytes() == good)

    def loads_each_beginning(self, texts, counts):
        """Of each beginning of a file that is these texts as many are loaded as are whole; so many keys are there then."""
        whole, sizes = b"".join(texts), [sum(map(len, texts[:count])) for count in range(len(texts) + 1)]
        for cut in range(len(whole) + 1):
            with self.subTest(cut=cut):
                count = max(count for count, size in enumerate(sizes) if size <= cut)
                self.write(whole[:cut])
                self.answers(request("DBSIZE"), b":%d\r\n" % counts[count], cut=whole[sizes[count] : cut] or None)
                self.assertEqual(self.bytes(), whole[: sizes[count]])


class Grouped(Loading):
    """A file has groups: effects, and several between MULTI and EXEC. What is loaded is the longest beginning of groups that can be done as a whole."""

    def test_a_group_is_loaded_with_its_last_byte(self):
        self.assertEqual((len(SET), len(PAIR)), (27, 83))
        for cut in range(1, 83):
            with self.subTest(cut=cut):
                self.loads(SET, self.NEITHER, cut=PAIR[:cut])
        self.loads(SET + PAIR, self.BOTH)

    def test_a_file_of_groups_is_appended_to(self):
        self.loads(PAIR + SET + PAIR, self.BOTH)
        self.answers(SET_W + self.ASKED, OK + array("1", "2", "w"))
        self.assertEqual(self.bytes(), PAIR + SET + PAIR + SET_W)
        self.answers(REWRITE + self.ASKED, STARTED + array("1", "2", "w"))
        self.assertEqual(self.bytes(), SET_A + SET_B + SET_W)

    def test_nothing_is_loaded_of_a_group_that_can_be_done_in_part(self):
        """Nor of what is behind it."""
        for bad in (["SET a 1", "INCRBY k 1"], ["SET a 1", "LPUSH k x", "SET b 2"], ["DEL k", "SET k w", "LPOP l 1"], ["FLUSHALL", "RENAME k l"]):
            with self.subTest(bad=bad):
                torn = framed(*(request(*it.split(" ")) for it in bad))
                self.loads(SET, self.NEITHER, cut=torn)
                self.loads(SET + PAIR, self.BOTH, cut=torn + SET_W + PAIR)

    def test_what_is_no_group_ends_what_is_loaded(self):
        bads = [EXEC, framed(), framed(SET_W), MULTI + SET_W + PING + EXEC, MULTI + MULTI + SET_A + SET_B + EXEC, MULTI + SET_A + SET_B + GET + EXEC]
        bads += [request("multi") + SET_A + SET_B + EXEC, MULTI + b"SET a 1\r\n", framed(request("INCRBY", "k", "1"), SET_A), request("DISCARD")]
        for bad in bads:
            with self.subTest(bad=bad):
                self.loads(SET, self.NEITHER, cut=bad + PAIR)
                self.loads(SET + PAIR, self.BOTH, cut=bad)

    def test_any_beginning_of_a_file_loads_its_whole_groups(self):
        texts = [SET, PAIR, request("HSET", "h", "f", "v"), framed(request("RPUSH", "l", "a"), request("SADD", "s", "m"), request("ZADD", "z", "1", "m")), PAIR, SET_W]
        self.loads_each_beginning(texts, [0, 1, 3, 4, 7, 7, 7])

    def test_a_group_of_several_pieces_of_the_file(self):
        """Of small effects and of large ones; and what is missing at its end is its last byte, or most of it."""
        small = framed(*(request("RPUSH", "l", "%05d" % at) for at in range(10_000)))
        large = framed(request("SET", "a", bytes(200_000)), request("APPEND", "a", 100_000 * b"x"), SET_B)
        for group, asked, wanted in ((small, "LLEN l", b":10000\r\n"), (large, "STRLEN a", b":300000\r\n")):
            self.assertGreater(len(group), 4 * PIECE)
            asked = request(*asked.split(" "))
            self.loads(group, wanted, asked)
            self.loads(SET + group + SET_W, wanted, asked)
            for missing in (1, 14, 15, PIECE, len(group) - 15, len(group) - 1):
                self.loads(SET, b":0\r\n", asked, cut=group[:-missing])
                self.loads(group + SET, wanted, asked, cut=group[:-missing])

    def test_groups_that_end_about_where_a_piece_does(self):
        """So that each part of one stands across the end of a piece."""
        for past in range(len(PAIR) + 1):
            with self.subTest(past=past):
                filling = request("SET", "k", (PIECE - past - 30) * b"v")
                self.assertEqual(len(filling), PIECE - past)
                self.loads(filling + PAIR + SET, self.BOTH)
                self.loads(filling + SET, self.NEITHER, cut=PAIR[:-1])

    def test_many_groups(self):
        groups = [framed(*(request("INCRBY", "n%d" % key, "1") for key in range(at % 3 + 2))) for at in range(30_000)]
        whole, asked = b"".join(groups), request("MGET", "n0", "n1", "n2", "n3")
        self.loads(whole, array("30000", "30000", "20000", "10000"), asked)
        self.loads(whole[: -len(groups[-1])], array("29999", "29999", "19999", "9999"), asked, cut=groups[-1][:-1])

    def test_a_kill_leaves_a_file_of_groups_as_it_was(self):
        whole = b"".join(framed(request("SET", "a", str(at)), request("SET", "b", str(at))) for at in range(20_000)) + PAIR + SET
        self.write(whole)
        chance, words = random.Random(9), [PROGRAM, "pipe", "--aof", self.path]
        for _ in range(20):
            started = subprocess.Popen(words, stdin=subprocess.PIPE, stdout=subprocess.PIPE, stderr=subprocess.PIPE)
            time.sleep(chance.uniform(0, 0.1))
            started.kill()
            self.assertEqual(started.communicate(timeout=LATE)[1], b"")
            self.assertTrue(self.bytes() == whole)
        self.answers(self.ASKED, self.BOTH)
        self.assertTrue(self.bytes() == whole)


class Noted(Loading):
    """Between the groups of a file notes may stand, as those of the time that a tool has put there. They are kept and do nothing."""

    NOTE = b"#TS:1700000000\r\n"

    def test_a_note_without_its_line_feed_is_cut_off(self):
        good = b"#TS:5\r\n" + SET
        self.assertEqual(len(good), 34)
        self.loads(good, bulk("v"), GET, cut=b"#TS:6")

    def test_one_that_is_too_long_ends_what_is_loaded(self):
        for good in (b"", SET, SET + self.NOTE):
            self.loads(good, bulk("v") if good else NIL, GET, cut=b"#" + 65_537 * b"x" + b"\n")
        self.loads(b"#" + 65_536 * b"x" + b"\n" + SET, bulk("v"), GET, cut=b"#" + 65_538 * b"x")

    def test_notes_of_the_time_between_groups(self):
        """As Redis puts them in front of what was done in one second."""
        good = b"".join(b"#TS:%d\r\n" % (1_700_000_000 + at) + text for at, text in enumerate((SET, PAIR, SET_W)))
        self.loads(good, array("1", "2", "w"), self.ASKED)
        self.loads(good + self.NOTE + self.NOTE, array("1", "2", "w"), self.ASKED)

    def test_within_a_group_there_is_none(self):
        for at in (15, 42, 69):
            self.loads(SET, self.NEITHER, cut=PAIR[:at] + self.NOTE + PAIR[at:] + PAIR)

    def test_a_file_with_notes_is_appended_to(self):
        good = self.NOTE + SET + self.NOTE
        self.loads(good, self.NEITHER)
        self.answers(MULTI + SET_A + SET_B + EXEC + SET_W, OK + 2 * QUEUED + array_of(OK, OK) + OK)
        self.assertEqual(self.bytes(), good + PAIR + SET_W)
        self.loads(good + PAIR + SET_W, array("1", "2", "w"))
        self.answers(REWRITE + self.ASKED, STARTED + array("1", "2", "w"))
        self.assertEqual(self.bytes(), SET_A + SET_B + SET_W)

    def test_any_beginning_of_a_file_with_notes(self):
        texts = [b"#\n", SET, self.NOTE, b"##\r\n", PAIR, b"#TS:5\n"]
        self.loads_each_beginning(texts, [0, 0, 1, 1, 1, 3, 3])

    def test_notes_about_where_a_piece_of_the_file_ends(self):
        long = b"#" + 65_536 * b"x" + b"\n"
        for past in (0, 1, 2, 15, 16, 17):
            filling = request("SET", "k", (PIECE - past - 30) * b"v")
            self.assertEqual(len(filling), PIECE - past)
            for note in (self.NOTE, long):
                with self.subTest(past=past, note=len(note)):
                    self.loads(filling + note + PAIR + note + SET, self.BOTH)
                    self.loads(filling + PAIR + note + SET, self.BOTH, cut=note[:-1])

    def test_a_torn_group_behind_notes(self):
        torn = framed(SET_A, request("INCRBY", "k", "1"))
        self.loads(self.NOTE + SET + self.NOTE, self.NEITHER, cut=torn + self.NOTE + SET_W)

    def test_no_offset_counts_them(self):
        """Behind a start the offset is 0, whatever was loaded, and behind the first effect as great as that is long."""
        for good in (self.NOTE, self.NOTE + SET + self.NOTE, 1000 * self.NOTE + PAIR):
            self.write(good)
            self.answers(ROLE + SET_X + ROLE, role_of_master(0) + OK + role_of_master(27))
            self.assertEqual(self.bytes(), good + SET_X)

    def test_a_request_does_not_begin_with_one(self):
        """What a client sends is no file."""
        ran = self.asked(self.NOTE + SET)
        self.assertTrue(ran.stdout.startswith(b"-ERR unknown command"))
        self.assertEqual(self.bytes(), SET)


class Transacting(OfFile):
    """What a transaction does stands in the file as one group, and is loaded whole or not at all."""

    def transacted(self, *texts):
        """The requests of a transaction with these."""
        return MULTI + b"".join(texts) + EXEC

    def told(self, *replies):
        return OK + len(replies) * QUEUED + array_of(*replies)

    def test_two_effects_are_a_group_of_the_file(self):
        self.answers(SET + self.transacted(SET_A, SET_B), OK + self.told(OK, OK))
        self.assertEqual(self.bytes(), SET + PAIR)
        self.answers(request("MGET", "a", "b", "k"), array("1", "2", "v"))
        self.assertEqual(self.bytes(), SET + PAIR)

    def test_one_effect_stands_alone_and_none_isnt_there(self):
        self.answers(self.transacted(SET, request("INCR", "k"), GET), self.told(OK, INTEGER, bulk("v")))
        self.assertEqual(self.bytes(), SET)
        self.answers(self.transacted(SET, GET) + self.transacted(), self.told(OK, bulk("v")) + self.told())
        self.assertEqual(self.bytes(), SET)

    def test_what_is_not_done_is_not_in_it(self):
        for asked, told in ((request("DISCARD"), OK), (request("GET") + EXEC, arity("get") + ABORTED), (request("QUIT"), OK), (b"", b"")):
            self.answers(MULTI + SET_A + asked, OK + QUEUED + told)
            self.assertEqual(self.bytes(), b"")

    def test_a_group_without_its_last_byte(self):
        """The file of a SET and a transaction of two, which is cut off by a byte, has the SET alone."""
        self.asked(SET + self.transacted(SET_A, SET_B))
        self.assertEqual(len(self.bytes()), 27 + 83)
        self.write(self.bytes()[:-1])
        self.answers(request("MGET", "a", "b", "k"), array(None, None, "v"), cut=PAIR[:-1])
        self.assertEqual(self.bytes(), SET)
        self.answers(self.transacted(SET_B, SET_W), self.told(OK, OK))
        self.assertEqual(self.bytes(), SET + framed(SET_B, SET_W))

    def test_deletions_of_expired_keys_are_in_the_group(self):
        expired = request("SET", "k", "v", "PX", "5")
        self.answers(expired, OK, "--now", "1000")
        was = self.bytes()
        self.answers(self.transacted(SET_A, GET, request("SET", "k", "w", "PX", "7")), self.told(OK, NIL, OK), "--now", "1005")
        self.assertEqual(self.bytes(), was + framed(SET_A, request("DEL", "k"), request("SET", "k", "w", "PXAT", "1012")))

    def test_a_file_is_written_anew_behind_one(self):
        self.answers(self.transacted(SET, SET_A, SET_B, SET_W) + REWRITE, self.told(OK, OK, OK, OK) + STARTED)
        self.assertEqual(self.bytes(), SET_A + SET_B + SET_W)

    def test_a_large_one(self):
        count = 10_000
        effects = [request("RPUSH", "l", "%d" % at) for at in range(count)]
        self.answers(self.transacted(*effects), OK + count * QUEUED + array(*range(1, count + 1)))
        self.assertTrue(self.bytes() == framed(*effects))
        self.answers(request("LLEN", "l"), b":%d\r\n" % count)

    def test_a_file_that_cannot_take_all_of_it(self):
        """The client isn't told that it was done, and the next start has nothing of it."""
        for room in (27, 28, 27 + 15, 27 + 42, 27 + 82):
            with self.subTest(room=room):
                self.write(b"")
                ran = self.asked(SET + self.transacted(SET_A, SET_B) + GET, preexec_fn=may_grow_to(room))
                self.fails(ran, OK + OK + QUEUED + QUEUED)
                self.answers(request("MGET", "a", "b", "k"), array(None, None, "v"), cut=PAIR[: room - 27] or None)
                self.assertEqual(self.bytes(), SET)


class Rewriting(OfFile):
    """BGREWRITEAOF: the file is then the commands that make the dataset again, and as short as it."""

    def rewrites(self, asked, wanted, *words):
        """What is asked leaves this file, once it is written anew. A start has the same dataset, so it is written anew as the same."""
        for data in (b"".join(request(*it.split(" ")) for it in asked), b""):
            ran = self.asked(data + REWRITE, *words)
            self.assertEqual((ran.returncode, ran.stderr, ran.stdout[-len(STARTED) :]), (0, b"", STARTED))
            self.assertEqual(self.bytes(), b"".join(request(*it.split(" ")) for it in wanted))

    def test_the_file_is_as_short_as_the_dataset_before_the_reply(self):
        program = subprocess.Popen([LAUNCHER, "pipe", "--aof", self.path], stdin=subprocess.PIPE, stdout=subprocess.PIPE, bufsize=0)
        self.addCleanup(program.communicate)
        for data, wanted, size in ((SET, OK, 27), (SET_W, OK, 54), (REWRITE, STARTED, 27)):
            program.stdin.write(data)
            self.assertEqual(program.stdout.read(len(wanted)), wanted)
            self.assertEqual(len(self.bytes()), size)
        self.assertEqual(self.bytes(), SET_W)

    def test_the_next_start_has_the_same_dataset(self):
        made = RandomKeys(random.Random(16))
        self.asked(made.commands() + request("DEL", "none"))
        before = self.asked(made.questions())
        self.assertEqual((before.returncode, before.stdout.count(NIL)), (0, 0))
        long = os.path.getsize(self.path)
        self.answers(REWRITE, STARTED)
        self.assertLess(os.path.getsize(self.path), long)
        self.answers(made.questions(), before.stdout)

    def test_keys_in_byte_order_by_one_command_each(self):
        self.rewrites(
            ["SET b x", "SET b y", "RPUSH a 2 1 0", "LPOP a", "SADD c y x z", "SREM c z", "ZADD d 2 m 1 n", "ZINCRBY d 5 n", "HSET e g 2 f 1", "HDEL e g", "INCR f", "INCR f", "SET B z"],
            ["SET B z", "RPUSH a 1 0", "SET b y", "SADD c x y", "ZADD d 2 m 6 n", "HSET e f 1", "SET f 2"],
        )

    def test_deadlines_stand_behind_their_keys(self):
        self.rewrites(
            ["SET b x PX 500", "RPUSH a 1", "PEXPIRE a 7", "HSET c f 1", "EXPIRE c 2", "PERSIST c", "SETEX d 3 w", "SET d v KEEPTTL"],
            ["RPUSH a 1", "PEXPIREAT a 1007", "SET b x", "PEXPIREAT b 1500", "HSET c f 1", "SET d v", "PEXPIREAT d 4000"],
            "--now", "1000",
        )
        self.answers(request("PEXPIRETIME", "a") + request("PTTL", "b") + request("TTL", "c"), b":1007\r\n:494\r\n:-1\r\n", "--now", "1006")

    def test_expired_keys_stay_until_they_are_named(self):
        self.answers(request("SET", "k", "v", "PX", "500") + request("SET", "l", "v"), OK + OK, "--now", "1000")
        self.answers(REWRITE + GET, STARTED + NIL, "--now", "2000")
        self.assertEqual(self.bytes(), SET + request("PEXPIREAT", "k", "1500") + request("SET", "l", "v") + request("DEL", "k"))
        self.answers(REWRITE, STARTED)
        self.assertEqual(self.bytes(), request("SET", "l", "v"))

    def test_large_collections_are_cut_into_64(self):
        words = ["%03d" % number for number in range(130)]
        groups = [words[at : at + 64] for at in range(0, 130, 64)]

        def paired(group):
            return " ".join(it + " " + it for it in group)

        def each_by(name):
            return [name + " " + " ".join(group) for group in groups]

        def each_paired(name):
            return [name + " " + paired(group) for group in groups]

        def scored(group):
            return " ".join("%d %s" % (int(it), it) for it in group)

        backwards = words[::-1]
        self.rewrites(
            ["HSET h " + paired(backwards), "RPUSH l " + " ".join(words), "SADD s " + " ".join(backwards), "ZADD z " + scored(backwards)],
            each_paired("HSET h") + each_by("RPUSH l") + each_by("SADD s") + ["ZADD z " + scored(group) for group in groups],
        )

    def test_an_empty_dataset_leaves_an_empty_file(self):
        self.answers(SET + request("DEL", "k") + REWRITE, OK + b":1\r\n" + STARTED)
        self.assertEqual(self.bytes(), b"")
        self.answers(request("DBSIZE") + SET_W, b":0\r\n" + OK)
        self.assertEqual(self.bytes(), SET_W)

    def test_what_follows_is_appended_behind_it(self):
        self.answers(SET + SET_W + REWRITE + SET_X + GET, OK + OK + STARTED + OK + bulk(b"x"))
        self.assertEqual(self.bytes(), SET_W + SET_X)
        self.answers(GET + REWRITE + REWRITE + SET + REWRITE + SET_W, bulk(b"x") + STARTED + STARTED + OK + STARTED + OK)
        self.assertEqual(self.bytes(), SET + SET_W)

    def test_in_any_case_and_without_more_words(self):
        refused = b"-ERR wrong number of arguments for 'bgrewriteaof' command\r\n"
        self.answers(SET + SET_W + request("BGREWRITEAOF", "now"), OK + OK + refused)
        self.assertEqual(self.bytes(), SET + SET_W)
        self.answers(b"bgRewriteAof\r\n", STARTED)
        self.assertEqual(self.bytes(), SET_W)

    def test_without_a_file_it_is_answered_alike(self):
        ran = run(SET + REWRITE + GET, "pipe")
        self.assertEqual((ran.returncode, ran.stderr, ran.stdout), (0, b"", OK + STARTED + bulk(b"v")))

    def test_a_path_without_a_folder(self):
        ran = run(SET + SET_W + REWRITE + SET_X, "pipe", "--aof", "data.aof", cwd=self.folder)
        self.assertEqual((ran.returncode, ran.stderr, ran.stdout), (0, b"", OK + OK + STARTED + OK))
        self.assertEqual(self.bytes(), SET_W + SET_X)

    def test_what_an_earlier_rewriting_left_does_not_matter(self):
        with open(self.path + NEW, "wb") as file:
            file.write(1000 * TORN)
        self.answers(SET + SET_W, OK + OK)
        self.assertEqual(sorted(os.listdir(self.folder)), ["data.aof", "data.aof.lock"])
        self.answers(REWRITE, STARTED)
        self.assertEqual(self.bytes(), SET_W)
        self.assertEqual(sorted(os.listdir(self.folder)), ["data.aof", "data.aof.lock"])

    def test_a_second_program_is_kept_away_still(self):
        first = subprocess.Popen([LAUNCHER, "pipe", "--aof", self.path], stdin=subprocess.PIPE, stdout=subprocess.PIPE, bufsize=0)
        first.stdin.write(SET + REWRITE)
        self.assertEqual(first.stdout.read(len(OK)) + first.stdout.read(len(STARTED)), OK + STARTED)
        self.fails(self.asked(SET_W), b"")
        rest, _ = first.communicate(SET_X, timeout=LATE)
        self.assertEqual((first.returncode, rest, self.bytes()), (0, OK, SET + SET_X))

    def test_no_place_beside_the_file(self):
        for made in (os.mkdir, lambda name: os.symlink("other", name), os.mkfifo):
            made(self.path + NEW)
            self.fails(self.asked(SET + SET_W + REWRITE + SET_X), OK + OK)
            self.assertEqual(self.bytes(), SET + SET_W)
            self.assertEqual(sorted(os.listdir(self.folder)), ["data.aof", "data.aof.lock", "data.aof" + NEW])
            (os.rmdir if made is os.mkdir else os.remove)(self.path + NEW)
            self.write(b"")

    def test_a_file_of_somebody_else_beside_it_stays(self):
        names = [self.path + it for it in (".new", ".old", ".minired", "-new")]
        for name in names:
            with open(name, "wb") as file:
                file.write(TORN)
        self.answers(SET + SET_W + REWRITE + SET_X, OK + OK + STARTED + OK)
        for name in names:
            with open(name, "rb") as file:
                self.assertEqual(file.read(), TORN)

    def test_a_full_disk(self):
        texts = b"".join(request("SET", "key%02d" % number, "v") for number in range(100))
        self.write(texts)

        self.fails(self.asked(REWRITE, preexec_fn=may_grow_to(1000)), b"")
        self.assertEqual(self.bytes(), texts)
        self.assertEqual(sorted(os.listdir(self.folder)), ["data.aof", "data.aof.lock"])
        self.answers(request("DBSIZE") + REWRITE, b":100\r\n" + STARTED)
        self.assertEqual(self.bytes(), texts)


class OfFailing(OfFile):
    """Calls on the file fail, one at a time."""

    @classmethod
    def setUpClass(cls):
        cls.room = tempfile.TemporaryDirectory()
        cls.addClassCleanup(cls.room.cleanup)
        cls.shim = shim("failing_file", cls.room.name)

    def run_with(self, data=SET + SET_W + SET_X, **variables):
        env = {**os.environ, "LD_PRELOAD": self.shim, **variables}
        words = [PROGRAM, "pipe", "--aof", self.path]
        return subprocess.run(words, input=data, capture_output=True, timeout=LATE, env=env)


class Failing(OfFailing):
    def setUp(self):
        super().setUp()
        self.write(b"")

    def test_the_second_write_fails(self):
        self.fails(self.run_with(FAIL_WRITE="2"), OK)
        self.assertEqual(self.bytes(), SET)

    def test_the_sync_of_the_folder_of_a_file_that_was_made_fails(self):
        os.remove(self.path)
        self.fails(self.run_with(FAIL_SYNC="1"), b"")
        self.assertEqual(self.bytes(), b"")

    def test_the_second_sync_fails(self):
        self.fails(self.run_with(FAIL_SYNC="2"), OK)
        self.assertEqual(self.bytes(), SET + SET_W)

    def test_short_writes_are_gone_on_with(self):
        ran = self.run_with(SHORT_WRITE="1")
        self.assertEqual((ran.returncode, ran.stdout, ran.stderr), (0, 3 * OK, b""))
        self.assertEqual(self.bytes(), SET + SET_W + SET_X)

    def test_what_a_signal_cuts_short_is_tried_again(self):
        # twice the file is read, and then written three times
        for call in range(1, 6):
            with self.subTest(call=call):
                self.write(SET_X)
                ran = self.run_with(INTERRUPT_CALL=str(call))
                self.assertEqual((ran.returncode, ran.stdout, ran.stderr), (0, 3 * OK, b""))
                self.assertEqual(self.bytes(), SET_X + SET + SET_W + SET_X)

    def test_each_call_fails_in_turn(self):
        texts = [SET, SET_W, SET_X]
        for call in range(1, 100):
            self.write(b"")
            ran = self.run_with(FAIL_CALL=str(call))
            if ran.returncode == 0:
                break
            with self.subTest(call=call):
                count = len(ran.stdout) // len(OK)
                self.fails(ran, count * OK)
                # all that was answered is there, and of what wasn't at most the next text
                self.assertIn(self.bytes(), [b"".join(texts[:count]), b"".join(texts[: count + 1])])
        # a read at the start, and a write and a sync for each request
        self.assertGreater(call, 6)
        self.assertEqual((ran.stdout, self.bytes()), (3 * OK, b"".join(texts)))

    def test_a_full_disk(self):
        ran = self.asked(SET + SET_W + SET_X, preexec_fn=may_grow_to(40))
        self.fails(ran, OK)
        self.assertIn(b"could not be written: ", ran.stderr)
        torn = (SET + SET_W)[:40]
        self.assertEqual(self.bytes(), torn)
        self.answers(GET, bulk(b"v"), cut=torn[len(SET) :])


class FailingRewriting(OfFailing):
    ASKED = SET + SET_W + REWRITE + SET_X
    REPLIES = [OK, OK, STARTED, OK]
    # the file before each request, and behind the last
    FILES = [b"", SET, SET + SET_W, SET_W, SET_W + SET_X]

    def fails_somewhere(self, ran):
        """The file failed: it is what it was before the request or behind it, and nothing that isn't there was answered."""
        answered = next(count for count in range(5) if len(ran.stdout) <= len(b"".join(self.REPLIES[:count])))
        self.fails(ran, b"".join(self.REPLIES[:answered]))
        self.assertIn(self.bytes(), self.FILES[answered : answered + 2])
        self.assertIn(sorted(os.listdir(self.folder)), [["data.aof"], ["data.aof", "data.aof.lock"]])
        # who comes next goes on from there
        held = {b"": NIL, SET: bulk(b"v")}.get(self.bytes(), bulk(b"x" if self.bytes().endswith(SET_X) else b"w"))
        self.answers(GET + SET_W + SET_X + REWRITE, held + OK + OK + STARTED)
        self.assertEqual(self.bytes(), SET_X)
        return answered

    def test_each_call_fails_in_turn(self):
        places = []
        for call in range(1, 100):
            self.write(b"")
            ran = self.run_with(self.ASKED, FAIL_CALL=str(call), FAIL_NAMES="1")
            if ran.returncode == 0:
                break
            with self.subTest(call=call):
                places.append(self.fails_somewhere(ran))
        self.assertEqual((ran.stdout, self.bytes()), (b"".join(self.REPLIES), self.FILES[4]))
        # the new file is made, given its mode, locked, written, synced and renamed, and its folder opened and synced
        self.assertGreaterEqual(places.count(2), 8)
        self.assertEqual(places, sorted(places))

    def test_the_old_file_stands_until_the_new_one_is_synced(self):
        # the third sync is that of the new file, the fourth that of its folder
        for sync, wanted in (("3", SET + SET_W), ("4", SET_W)):
            with self.subTest(sync=sync):
                self.write(b"")
                self.fails(self.run_with(self.ASKED, FAIL_SYNC=sync), OK + OK)
                self.assertEqual(self.bytes(), wanted)

    def test_short_writes_are_gone_on_with(self):
        ran = self.run_with(self.ASKED, SHORT_WRITE="1")
        self.assertEqual((ran.returncode, ran.stdout, ran.stderr), (0, b"".join(self.REPLIES), b""))
        self.assertEqual(self.bytes(), SET_W + SET_X)


class Opening(OfFile):
    def test_two_programs_never_write_one_file(self):
        first = subprocess.Popen([LAUNCHER, "pipe", "--aof", self.path], stdin=subprocess.PIPE, stdout=subprocess.PIPE)
        first.stdin.write(SET)
        first.stdin.flush()
        self.assertEqual(first.stdout.read(len(OK)), OK)
        self.fails(self.asked(SET_W), b"")
        self.assertEqual(self.bytes(), SET)
        rest, _ = first.communicate(SET_X, timeout=LATE)
        self.assertEqual((first.returncode, rest, self.bytes()), (0, OK, SET + SET_X))

    def test_a_folder(self):
        os.mkdir(self.path)
        self.fails(self.asked(SET), b"")

    def test_a_folder_that_is_not_there(self):
        self.path = os.path.join(self.folder, "none", "data.aof")
        self.fails(self.asked(SET), b"")

    def test_the_empty_path(self):
        ran = run(SET, "pipe", "--aof", "")
        self.assertEqual((ran.returncode, ran.stdout), (3, b""))

    def test_a_lock_that_cannot_be_made_is_named(self):
        lock = self.path + ".lock"
        for made, kind in ((os.mkdir, b"a folder"), (os.mkfifo, b"a named pipe"), (lambda name: os.symlink("other", name), b"a symbolic link")):
            with self.subTest(kind=kind):
                made(lock)
                ran = self.asked(SET)
                self.fails(ran, b"")
                self.assertIn(b": its lock %s is %s, and no regular file\n" % (os.fsencode(os.path.realpath(self.folder) + "/data.aof.lock"), kind), ran.stderr)
                self.assertEqual((self.bytes(), sorted(os.listdir(self.folder))), (b"", ["data.aof", "data.aof.lock"]))
                (os.rmdir if made is os.mkdir else os.remove)(lock)

    def writing(self):
        """A program that writes the file."""
        first = subprocess.Popen([LAUNCHER, "pipe", "--aof", self.path], stdin=subprocess.PIPE, stdout=subprocess.PIPE, bufsize=0)
        self.addCleanup(first.communicate)
        first.stdin.write(SET)
        self.assertEqual(first.stdout.read(len(OK)), OK)
        return first

    def test_a_second_program_is_kept_away_under_another_name(self):
        others = tempfile.TemporaryDirectory()
        self.addCleanup(others.cleanup)
        first = self.writing()
        names = [os.path.join(others.name, it) for it in ("hard", "symbolic", "folder")]
        os.link(self.path, names[0])
        os.symlink(self.path, names[1])
        os.symlink(self.folder, names[2])
        for name in (names[0], names[1], os.path.join(names[2], "data.aof")):
            for asked in (None, REWRITE + SET_X):
                with self.subTest(name=name, asked=asked):
                    if asked:
                        first.stdin.write(asked)
                        self.assertEqual(first.stdout.read(len(STARTED + OK)), STARTED + OK)
                    if asked and name == names[0]:
                        # a replaced file has this name no more
                        continue
                    held = self.bytes()
                    ran = run(SET_W, "pipe", "--aof", name)
                    self.assertEqual((ran.returncode, ran.stdout), (3, b""))
                    self.assertEqual(ran.stderr, b"minired: file failed\n%s: in use\n" % os.fsencode(name))
                    self.assertEqual(self.bytes(), held)

    def test_a_rewriting_keeps_links_and_the_mode(self):
        link = os.path.join(self.folder, "link")
        os.symlink("data.aof", link)
        for mode in (0o600, 0o640, 0o666):
            with self.subTest(mode=mode):
                self.write(SET + SET_W)
                os.chmod(self.path, mode)
                if os.geteuid() == 0:
                    os.chown(self.path, 4321, 4322)
                ran = run(REWRITE + SET_X, "pipe", "--aof", link)
                self.assertEqual((ran.returncode, ran.stderr, ran.stdout), (0, b"", STARTED + OK))
                self.assertEqual((os.readlink(link), self.bytes()), ("data.aof", SET_W + SET_X))
                now = os.stat(self.path)
                self.assertEqual(stat.S_IMODE(now.st_mode), mode)
                if os.geteuid() == 0:
                    self.assertEqual((now.st_uid, now.st_gid), (4321, 4322))
                self.assertEqual(sorted(os.listdir(self.folder)), ["data.aof", "data.aof.lock", "link"])

    def test_a_link_to_a_file_that_is_not_there_has_it_made(self):
        link = os.path.join(self.folder, "link")
        os.symlink("data.aof", link)
        ran = run(SET, "pipe", "--aof", link)
        self.assertEqual((ran.returncode, ran.stderr, ran.stdout), (0, b"", OK))
        self.assertEqual(self.bytes(), SET)


# files that aren't lists of commands: what they begin with is loaded, and the rest stands beside them
WRONG_FILES = {
    "a text": (b"", b"Dear reader,\n\nthis is no file of commands.\n"),
    "an RDB file": (b"", b"REDIS0010\xfa\tredis-ver\x067.0.15\xfa\nredis-bits\xc0@\xfe\0\xfb\1\0\0\1k\1v\xff" + bytes(range(8))),
    "another server's file": (b"", request("SELECT", "0") + SET + request("SET", "l", "w")),
    "another server's file, in part": (SET, request("INCRBYFLOAT", "f", "1.5") + SET_W),
    "zeros": (SET + SET_W, bytes(5000)),
}


class Setting(OfFile):
    """What can't be loaded is set aside before it is cut off."""

    def test_each_kind_of_wrong_file_is_kept_beside_it(self):
        for at, (name, (good, rest)) in enumerate(WRONG_FILES.items()):
            with self.subTest(name=name):
                self.write(good + rest)
                self.answers(request("DBSIZE"), b":%d\r\n" % (1 if good else 0), cut=rest)
                self.assertEqual((self.bytes(), len(self.copies())), (good, at + 1))
                # the next start has nothing to say
                self.answers(request("DBSIZE"), b":%d\r\n" % (1 if good else 0))

    def test_one_flipped_bit_in_the_middle(self):
        texts = [request("SET", "key%05d" % it, "value%d" % it) for it in range(10_000)]
        for at in (100, 5000, 9999):
            with self.subTest(at=at):
                good, rest = b"".join(texts[:at]), bytearray(b"".join(texts[at:]))
                # the first byte of the second word's head
                rest[13] ^= 1
                self.write(good + rest)
                self.answers(request("DBSIZE"), b":%d\r\n" % at, cut=bytes(rest))
                self.assertEqual(self.bytes(), good)

    def test_a_copy_is_for_those_that_the_file_is_for(self):
        self.write(SET + TORN)
        os.chmod(self.path, 0o640)
        self.answers(b"", b"", cut=TORN)
        self.assertEqual(stat.S_IMODE(os.stat(self.copies()[0]).st_mode), 0o640)

    def test_a_name_that_is_taken_is_left_alone(self):
        for taken in ("data.aof.cut-1", "data.aof.cut-2"):
            with open(os.path.join(self.folder, taken), "wb") as file:
                file.write(b"old")
        self.write(SET + TORN)
        self.answers(GET, bulk(b"v"), cut=TORN)
        self.assertEqual([os.path.basename(it) for it in self.copies()], ["data.aof.cut-%d" % it for it in (1, 2, 3)])
        self.assertEqual([os.path.getsize(it) for it in self.copies()], [3, 3, len(TORN)])

    def test_a_large_rest_is_copied_whole(self):
        rest = random.Random(7).randbytes(20_000_000)
        self.write(SET + rest)
        self.answers(GET, bulk(b"v"), cut=rest)

    def test_without_room_for_the_copy_the_file_stays_as_it_is(self):
        data = SET + bytes(5000)
        self.write(data)
        for room in (0, 1000, 4999):
            with self.subTest(room=room):
                ran = self.asked(GET, preexec_fn=may_grow_to(room))
                self.fails(ran, b"")
                self.assertEqual(self.bytes(), data)
                self.assertEqual(sorted(os.listdir(self.folder)), ["data.aof", "data.aof.lock"])
        self.answers(GET, bulk(b"v"), cut=bytes(5000))


class FailingSetting(OfFailing):
    def test_each_call_fails_in_turn(self):
        data, before = SET + bytes(70_000), 0
        for call in range(1, 100):
            self.write(data)
            ran = self.run_with(GET, FAIL_CALL=str(call), FAIL_NAMES="1")
            if ran.returncode == 0:
                break
            with self.subTest(call=call):
                self.fails(ran, b"")
                # nothing of it is lost, and a copy is there whole or not at all
                self.assertEqual(self.bytes(), data)
                for copy in self.copies():
                    self.assertEqual(os.path.getsize(copy), 70_000)
                    os.remove(copy)
                before += 1
        # the copy is made, given its mode, read, written, synced, and its folder opened and synced
        self.assertGreater(before, 10)
        self.assertEqual((ran.stdout, self.bytes()), (bulk(b"v"), SET))


class Killing(OfFile):
    def stream(self, sent, seconds):
        """Pushes numbers from `sent` on until so many seconds are over and the program is killed: how many were sent and answered."""
        words = [PROGRAM, "pipe", "--aof", self.path]
        started = subprocess.Popen(words, stdin=subprocess.PIPE, stdout=subprocess.PIPE)
        end, count = time.monotonic() + seconds, 0
        while time.monotonic() < end:
            os.write(started.stdin.fileno(), request("RPUSH", "l", str(sent + count)))
            count += 1
        started.kill()
        out, _ = started.communicate(timeout=LATE)
        return count, out.count(b"\n")

    def test_what_was_answered_is_there_after_a_kill(self):
        chance, kept = random.Random(9), 0
        for _ in range(KILLS):
            sent, answered = self.stream(kept, chance.uniform(0, 0.03))
            ran = self.asked(request("LLEN", "l") + request("LRANGE", "l", "-3", "-1"))
            count = int(ran.stdout.split(b"\r\n")[0][1:])
            self.assertTrue(kept + answered <= count <= kept + sent, (kept, answered, count, sent))
            last = [b"%d" % number for number in range(max(0, count - 3), count)]
            self.assertEqual(ran.stdout, b":%d\r\n" % count + array(*last))
            kept = count
        self.answers(request("LRANGE", "l", "0", "-1"), array(*(b"%d" % number for number in range(kept))))
        self.assertGreater(kept, 0)


class KillingRewriting(OfFile):
    def rewriting(self, seconds):
        """A program that is asked to write its file anew, and is killed so many seconds later; how long it took where it isn't."""
        words = [PROGRAM, "pipe", "--aof", self.path]
        program = subprocess.Popen(words, stdin=subprocess.PIPE, stdout=subprocess.PIPE, bufsize=0)
        program.stdin.write(PING)
        self.assertEqual(program.stdout.read(7), PONG)
        began = time.monotonic()
        program.stdin.write(REWRITE)
        if seconds is None:
            self.assertEqual(program.stdout.read(len(STARTED)), STARTED)
        else:
            time.sleep(seconds)
            program.kill()
        took = time.monotonic() - began
        out, _ = program.communicate(timeout=LATE)
        return took, out

    def test_a_kill_leaves_the_old_file_or_the_new_one(self):
        sets = [b"".join(request("SET", "key%06d" % key, value) for key in range(REWRITTEN_KEYS)) for value in "vw"]
        old, new = b"".join(sets), sets[1]
        self.write(old)
        took, _ = self.rewriting(None)
        self.assertEqual(self.bytes(), new)
        chance, found = random.Random(16), []
        for _ in range(REWRITING_KILLS):
            self.write(old)
            _, out = self.rewriting(chance.uniform(0, 1.2 * took))
            found.append(self.bytes())
            self.assertIn(found[-1], (old, new))
            if out:
                self.assertEqual((out, found[-1]), (STARTED, new))
        # the last of them is gone on from
        self.answers(request("DBSIZE") + request("GET", "key000000") + REWRITE, b":%d\r\n" % REWRITTEN_KEYS + bulk(b"w") + STARTED)
        self.assertEqual(self.bytes(), new)


class BesideRedis(Loading):
    """A redis-server over the file, where it is installed."""

    def setUp(self):
        needs(self, shutil.which("redis-server"), "redis-server")
        super().setUp()

    def served(self, *more):
        """The socket of a redis-server that has loaded the file, and moved it into a folder of its own."""
        socket = os.path.join(self.folder, "redis")
        words = ["--port", "0", "--unixsocket", socket, "--dir", self.folder, "--appendonly", "yes", "--appendfilename", "data.aof", "--save", "", *more]
        server = subprocess.Popen(["redis-server", *words], stdout=subprocess.DEVNULL)
        self.addCleanup(server.wait)
        self.addCleanup(server.kill)
        late = time.monotonic() + LATE
        while self.told(socket, "PING") != "PONG\n" and time.monotonic() < late:
            time.sleep(0.01)
        return socket

    def told(self, socket, *words):
        return subprocess.run(["redis-cli", "-s", socket, "--no-raw", *words], capture_output=True, text=True, timeout=LATE).stdout

    def replies(self, socket, data, wanted):
        """It is sent these bytes, and replies so."""
        with connection.socket(connection.AF_UNIX) as client:
            client.settimeout(LATE)
            client.connect(socket)
            client.sendall(data)
            self.assertEqual(client.makefile("rb").read(len(wanted)), wanted)


class Leaving(BesideRedis):
    """redis-server loads the file: a user can always leave."""

    def test_redis_server_loads_the_file(self):
        asked = [
            ("SET", "text", "a value\r\n"), ("HSET", "hash", "f", "1", "g", "2"), ("RPUSH", "list", "a", "b", "c"), ("LPOP", "list"),
            ("SADD", "set", "m", "n"), ("SREM", "set", "m"), ("ZADD", "zset", "3", "x", "-1", "y"), ("ZINCRBY", "zset", "5", "y"),
            ("SET", "late", "v", "PX", str(FAR)), ("INCR", "count"), ("APPEND", "text", "more"), ("RENAME", "count", "number"),
        ]
        self.asked(b"".join(request(*words) for words in asked), "--now", "0")
        socket = self.served()
        for words, wanted in WANTED.items():
            with self.subTest(words=words):
                self.assertEqual(self.told(socket, *words), wanted)

    def test_redis_server_loads_a_file_of_groups(self):
        self.write(SET + PAIR + framed(request("DEL", "k"), request("RPUSH", "l", "x", "y"), request("LPOP", "l", "1")) + SET_W)
        asked = {("MGET", "a", "b", "k"): '1) "1"\n2) "2"\n3) "w"\n', ("LRANGE", "l", "0", "-1"): '1) "y"\n', ("DBSIZE",): "(integer) 4\n"}
        self.answers(request("MGET", "a", "b", "k") + request("LRANGE", "l", "0", "-1") + request("DBSIZE"), array("1", "2", "w") + array("y") + b":4\r\n")
        socket = self.served()
        for words, wanted in asked.items():
            with self.subTest(words=words):
                self.assertEqual(self.told(socket, *words), wanted)

    def test_redis_server_loads_a_file_written_anew(self):
        made = RandomKeys(random.Random(17))
        self.asked(made.commands() + REWRITE + request("SET", "last", "v"))
        questions = made.questions() + request("GET", "last") + request("DBSIZE")
        ran = self.asked(questions)
        self.assertEqual((ran.returncode, ran.stderr, ran.stdout.count(NIL)), (0, b"", 0))
        self.replies(self.served(), questions, ran.stdout)


class Annotated(BesideRedis):
    """Files in which the time of what was done stands as `#TS:` and a number, as redis-server puts it there where it is asked to."""

    QUESTIONS = request("MGET", "a", "b", "k", "late") + request("PEXPIRETIME", "late") + request("LRANGE", "l", "0", "-1") + request("HGETALL", "h") + request("DBSIZE")
    HELD = array("1", "2", "w", "v") + b":%d\r\n" % FAR + array("x", "y") + array("f", "v") + b":6\r\n"
    # in seconds of their own, with the replies
    WRITES = [
        (SET + request("RPUSH", "l", "x", "y") + request("HSET", "h", "f", "v"), OK + b":2\r\n:1\r\n"),
        (MULTI + SET_A + SET_B + EXEC, OK + 2 * QUEUED + array_of(OK, OK)),
        (SET_W + request("SET", "late", "v", "PXAT", str(FAR)), OK + OK),
    ]

    def test_a_file_that_redis_server_annotated(self):
        """But for the one SELECT, which is no effect, it is loaded whole."""
        socket = self.served("--aof-timestamp-enabled", "yes", "--aof-use-rdb-preamble", "no")
        for asked, told in self.WRITES:
            time.sleep(1.1)
            self.replies(socket, asked, told)
        self.replies(socket, self.QUESTIONS, self.HELD)
        with open(os.path.join(self.folder, "appendonlydir", "data.aof.1.incr.aof"), "rb") as file:
            written = file.read()
        self.assertEqual((written.count(request("SELECT", "0")), written.count(b"#TS:")), (1, len(self.WRITES)))
        self.loads(written.replace(request("SELECT", "0"), b""), self.HELD, self.QUESTIONS)

    def test_redis_server_loads_an_annotated_file(self):
        """Of minired's, with a time in front of what was done in each second, and one behind all."""
        written = b""
        for at, (asked, told) in enumerate(self.WRITES):
            self.write(b"")
            self.answers(asked, told)
            written += b"#TS:%d\r\n" % (1_700_000_000 + at) + self.bytes()
        self.loads(written + b"#TS:1700000009\r\n", self.HELD, self.QUESTIONS)
        self.replies(self.served(), self.QUESTIONS, self.HELD)


# as redis-cli prints them
WANTED = {
    ("GET", "text"): '"a value\\r\\nmore"\n',
    ("HGET", "hash", "f"): '"1"\n',
    ("HGET", "hash", "g"): '"2"\n',
    ("LRANGE", "list", "0", "-1"): '1) "b"\n2) "c"\n',
    ("SMEMBERS", "set"): '1) "n"\n',
    ("ZRANGE", "zset", "0", "-1", "WITHSCORES"): '1) "x"\n2) "3"\n3) "y"\n4) "4"\n',
    ("PEXPIRETIME", "late"): "(integer) 4102444800000\n",
    ("GET", "number"): '"1"\n',
    ("DBSIZE",): "(integer) 7\n",
}


if __name__ == "__main__":
    unittest.main()
