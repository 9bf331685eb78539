"""`minired serve`: a server on a port, its links, how it ends, and its file."""

import datetime
import os
import random
import resource
import shutil
import signal
import socket
import subprocess
import tempfile
import time
import unittest
import zlib

from tests.support import server
from tests.support.program import LATE, LAUNCHER, NOTICE, needs, request, run, shim
from tests.support.random_keys import RandomKeys
from tests.support.replies import BULK_LENGTH, COUNT, NIL, OK, PONG, QUOTES, STARTED, TOO_LONG, UNKNOWN, array, bulk, no_dollar, number
from tests.support.requests import FAR, GET, PING, SET, SET_W, SET_X
from tests.support.server import HOST, MIB, READY, free_port, has_redis
from tests.support.serving import Serving

TORN = b"*3\r\n$3\r\nSE"
# how often the server is killed in the middle of its links' writes
KILLS = 50
# links at once, links that are closed in the middle of a request, and links on which nothing ever comes
MANY, CLOSED, IDLE = 1000, 10_000, 10_000
# requests whose processor time is told
SOME = 2000
# keys that are counted, and how often
COUNTED, COUNTS = 200_000, 200
# how much memory a server may have taken more behind so many closed links or for so many idle ones
LEAK = 16 * MIB

# requests that are none, and what is answered before the link is closed
BAD_REQUESTS = [
    (b"*1\r\n$-5\r\n", BULK_LENGTH),
    (b"*1\r\n$x\r\n", BULK_LENGTH),
    (b"*2\r\n$3\r\nGET\r\n$536870913\r\n", BULK_LENGTH),
    (b"*x\r\n", COUNT),
    (b"*9223372036854775808\r\n", COUNT),
    (b"*1\r\n:3\r\n", no_dollar(":")),
    (b'"a"b\n', QUOTES),
    (b"GET 'a\n", QUOTES),
    (70_000 * b"x", TOO_LONG),
]

# words behind `serve` that are refused
BAD_LINES = [
    [],
    ["--port"],
    ["--port", "x"],
    ["--port", "-1"],
    ["--port", "65536"],
    ["--port", "6379", "--port", "6379"],
    ["--port", "6379", "more"],
    ["--port", "6379", "--sync", "maybe"],
    ["--port", "6379", "--sync"],
    ["--port", "6379", "--turns", "-1"],
    ["--port", "6379", "--turns", "x"],
    ["--port", "6379", "--backlog", "0"],
    ["--port", "6379", "--replicaof", "127.0.0.1"],
    ["--port", "6379", "--bind", "localhost"],
    ["--port", "6379", "--aof"],
    ["--port", "6379", "--now", "1"],
    ["--nothing", "1"],
]


# an address behind `--bind`, those of this machine at which the server is then reached and at which it isn't, and whether it warns of that
OPEN = b"whoever reaches it is asked for no password"
BOUND = [
    ("0.0.0.0", ["127.0.0.1", "127.0.0.2"], [], [OPEN]),
    ("127.0.0.2", ["127.0.0.2"], ["127.0.0.1", "127.0.0.3"], []),
    ("127.0.0.1", ["127.0.0.1"], ["127.0.0.2"], []),
]


class Bound(server.Server):
    """A server that listens at an address."""

    def __init__(self, address, **how):
        self.address = address
        super().__init__(**how)

    def words(self, *given):
        return [*super().words(*given), "--bind", self.address]


class Starting(Serving):
    def test_without_a_file_there_are_no_keys(self):
        it = self.serve()
        self.assertEqual(it.ready, b"minired: ready on 127.0.0.1:%d, 0 keys\n" % it.port)
        self.assertEqual(self.client(it).asks("DBSIZE"), number(0))

    def test_the_keys_of_a_file_are_counted(self):
        texts = b"".join(request(*it.split(" ")) for it in ("SET a v", "RPUSH b x y", "SADD c x", "SET d w", "DEL d"))
        self.write(texts + TORN)
        it = self.serve(aof="data.aof", cwd=self.folder)
        self.assertEqual(it.ready, b"minired: ready on 127.0.0.1:%d, 3 keys from data.aof\n" % it.port)
        self.assertEqual(self.client(it).asks("KEYS", "*"), array("a", "b", "c"))
        self.assertEqual(self.bytes(), texts)

    def test_a_file_that_is_not_there_is_made(self):
        it = self.serve(aof="data.aof", cwd=self.folder)
        self.assertEqual(it.ready, b"minired: ready on 127.0.0.1:%d, 0 keys from data.aof\n" % it.port)
        self.assertEqual(self.bytes(), b"")

    def test_many_keys_are_ready_when_the_line_is(self):
        self.write(b"".join(request("SET", "key%06d" % it, "v") for it in range(100_000)))
        it = self.serve(aof=self.path)
        self.assertEqual(READY.fullmatch(it.ready)[2], b"100000")
        self.assertEqual(self.client(it).asks("GET", "key099999"), bulk("v"))

    def test_no_other_address_is_listened_on(self):
        it = self.serve()
        with socket.socket() as client, self.assertRaises(ConnectionRefusedError):
            client.connect(("127.0.0.2", it.port))

    def test_where_it_listens(self):
        for address, open_at, closed_at, warned in BOUND:
            with self.subTest(address=address):
                it = Bound(address)
                self.addCleanup(it.stop)
                self.assertEqual(it.ready, b"minired: ready on %s:%d, 0 keys\n" % (address.encode(), it.port))
                for host in open_at:
                    with it.client(host=host) as client:
                        self.assertEqual(client.asks("PING"), PONG)
                for host in closed_at:
                    with socket.socket() as client, self.assertRaises(ConnectionRefusedError):
                        client.connect((host, it.port))
                self.assertEqual(it.kill().notices, [*warned, it.ready[len("minired: ") : -1]])

    def test_a_port_is_free_again_as_soon_as_its_server_has_ended(self):
        first = self.serve()
        for client in [self.client(first) for _ in range(10)]:
            self.assertEqual(client.asks("PING"), PONG)
        first.kill()
        self.goes_on(self.serve(port=first.port))


class Ending(Serving):
    def asked(self, port=None, **how):
        """A run that ends by itself."""
        return run(b"", "serve", "--port", str(port or free_port()), "--aof", self.path, **how)

    def test_a_line_that_is_none(self):
        for words in BAD_LINES:
            with self.subTest(words=words):
                ran = run(b"", "serve", *words)
                self.assertEqual((ran.returncode, ran.stdout), (1, b""))
                self.assertRegex(ran.stderr, rb"\Aminired: [^\x00-\x1f]*[^\x00-\x20]\n\Z")

    def test_after_so_many_turns(self):
        for turns in (0, 1, 3):
            with self.subTest(turns=turns):
                it = self.serve(turns=turns, aof=self.path)
                self.assertRegex(it.ready, READY)
                ended = it.ended()
                self.assertEqual((ended.returncode, ended.stdout, ended.stderr), (0, b"", b""))
                self.assertEqual(ended.notices, [it.ready[len("minired: ") : -1], b"ends: it made all its turns"])

    def test_by_a_signal_and_in_silence(self):
        for sent in (signal.SIGTERM, signal.SIGINT):
            with self.subTest(sent=sent):
                it = self.serve(aof=self.path)
                client, bad = self.client(it), self.client(it)
                self.assertEqual(client.asks("SET", "k", sent.name), OK)
                bad.send(b"*x\r\n")
                self.assertEqual(bad.rest(), COUNT)
                ended = it.signalled(sent)
                self.assertEqual((ended.returncode, ended.stdout, ended.stderr), (-sent, b"", b""))
                self.assertEqual(ended.notices, [it.ready[len("minired: ") : -1]])
                self.assertEqual(client.rest(), b"")
                again = self.serve(aof=self.path)
                self.assertEqual(self.client(again).asks("GET", "k"), bulk(sent.name))
                again.kill()

    def test_a_port_in_use(self):
        self.write(SET)
        first = self.serve()
        client = self.client(first)
        client.asks("SET", "k", "of the first")
        second = rb"\b%d\b.*in use" % first.port
        self.failed(run(b"", "serve", "--port", str(first.port)), 2, b"minired: socket failed", second)
        self.failed(self.asked(first.port), 2, b"minired: socket failed", second)
        self.assertEqual(client.asks("GET", "k"), bulk("of the first"))
        self.goes_on(first)
        self.assertEqual(self.bytes(), SET)

    def test_a_file_that_another_program_has(self):
        self.write(SET)
        first = self.serve(aof=self.path)
        client, port = self.client(first), free_port()
        self.file_failed(self.asked(port))
        with socket.socket() as it, self.assertRaises(ConnectionRefusedError):
            it.connect((HOST, port))
        self.file_failed(run(SET_W, "pipe", "--aof", self.path))
        self.assertEqual(self.bytes(), SET)
        self.assertEqual(client.asks("SET", "k", "x"), OK)
        self.assertEqual(self.bytes(), SET + SET_X)
        # an ended program holds nothing, however it ended
        first.kill()
        self.assertEqual(self.client(self.serve(aof=self.path)).asks("GET", "k"), bulk("x"))

    def test_a_file_that_pipe_has(self):
        pipe = subprocess.Popen([LAUNCHER, "pipe", "--aof", self.path], stdin=subprocess.PIPE, stdout=subprocess.PIPE, bufsize=0)
        pipe.stdin.write(SET)
        self.assertEqual(pipe.stdout.read(len(OK)), OK)
        self.file_failed(self.asked())
        pipe.communicate(timeout=LATE)
        self.assertEqual(self.client(self.serve(aof=self.path)).asks("GET", "k"), bulk("v"))

    def test_a_file_that_cannot_be_opened(self):
        os.mkdir(self.path)
        self.file_failed(self.asked())
        self.path = os.path.join(self.folder, "none", "data.aof")
        self.file_failed(self.asked())

    def test_the_file_failed_before_the_port_was_looked_at(self):
        os.mkdir(self.path)
        self.file_failed(self.asked(self.serve().port))


class Notices(Serving):
    """Lines on standard error that say what the server does."""

    def test_a_whole_life(self):
        self.write(SET + SET_W + TORN)
        before = time.time()
        it = self.serve(aof=self.path)
        client = self.client(it)
        self.assertEqual(client.asks("BGREWRITEAOF"), STARTED)
        client.send(request("SHUTDOWN"))
        self.assertEqual(it.process.wait(timeout=LATE), 0)
        said = it.process.stderr.read()
        times, texts = zip(*NOTICE.findall(said))
        self.assertEqual(b"".join(b"%s minired: %s\n" % pair for pair in zip(times, texts)), said)
        cut, takes, ready, anew, ends = texts
        copy = os.path.realpath(self.path) + ".cut-1"
        self.assertEqual(cut, b"%s: cut off %d bytes from offset 54 on, copied to %s before" % (os.fsencode(self.path), len(TORN), os.fsencode(copy)))
        self.assertTrue(takes.startswith(server.TAKES), takes)
        self.assertEqual(b"minired: %s\n" % ready, it.ready)
        self.assertRegex(anew, rb"\Afile written anew: 27 bytes in \d+ ms\Z")
        self.assertEqual(ends, b"ends: a client said SHUTDOWN")
        with open(copy, "rb") as file:
            self.assertEqual(file.read(), TORN)
        moments = [datetime.datetime.strptime(it.decode(), "%Y-%m-%dT%H:%M:%S.%f%z").timestamp() for it in times]
        self.assertEqual(moments, sorted(moments))
        self.assertTrue(before - 1 < moments[0] <= moments[-1] < time.time() + 1, (before, moments))

    def test_a_failed_file_is_told_with_the_time_too(self):
        it = self.serve(aof=self.path, limits=lambda: resource.setrlimit(resource.RLIMIT_FSIZE, (10, 10)))
        self.client(it).send(SET)
        ended = it.ended()
        self.file_failed(ended)
        self.assertEqual(ended.notices[1:], [b"ends: file failed"])

    def test_that_no_descriptor_is_left_is_told_once_a_second_at_most(self):
        it = self.serve()
        first, began = self.left(it, 40), time.monotonic()
        more = [self.client(it) for _ in range(100)]
        while time.monotonic() < began + 2.5:
            self.assertEqual(first.asks("PING"), PONG)
        for link in more:
            link.close()
        told = it.told()[1:]
        self.assertEqual(set(told), {b"no more descriptors: links wait to be accepted"})
        self.assertTrue(2 <= len(told) <= 2 + (time.monotonic() - began))


class Requests(Serving):
    def test_keys_are_counted_at_the_same_cost_however_many_there_are(self):
        it = self.serve()
        client = self.client(it)

        def used():
            before = it.used()
            for _ in range(COUNTS):
                client.asks("DBSIZE")
            return it.used() - before

        client.asks("SET", "k", "v")
        few = used()
        for first in range(0, COUNTED, 2000):
            client.asks("MSET", *(word for key in range(first, first + 2000) for word in (str(key), "v")))
        client.asks("PEXPIREAT", "0", str(FAR))
        many = used()
        self.assertEqual(client.asks("DBSIZE"), number(COUNTED + 1))
        # going over all keys took a hundred times as long
        self.assertLess(many, 8 * few)

    def test_a_byte_at_a_time(self):
        client = self.client(self.serve())
        for byte in SET + GET + b"GET 'k'\r\n":
            client.send_and_wait(bytes([byte]))
        self.assertEqual(client.receive(19), OK + bulk("v") + bulk("v"))

    def test_each_cut_in_two_pieces(self):
        it, asked = self.serve(), SET + GET
        for cut in range(1, len(asked)):
            with self.subTest(cut=cut), it.client() as client:
                client.send_and_wait(asked[:cut])
                client.send(asked[cut:])
                self.assertEqual(client.receive(12), OK + bulk("v"))

    def test_ten_thousand_requests_in_one_write_are_answered_in_order(self):
        client, asked, wanted = self.client(self.serve()), [], []
        for it in range(2500):
            asked += [request("INCR", "n"), request("ECHO", "%d" % it), request("LPUSH", "l", "%d" % it), b"LINDEX l -1\r\n"]
            wanted += [number(it + 1), bulk("%d" % it), number(it + 1), bulk("0")]
        client.send(b"".join(asked))
        wanted = b"".join(wanted)
        self.assertEqual(client.receive(len(wanted)), wanted)
        self.assertEqual(client.asks("LLEN", "l"), number(2500))

    def test_links_share_one_dataset(self):
        it = self.serve()
        first, second = self.client(it), self.client(it)
        for count in range(1, 500, 2):
            self.assertEqual(first.asks("INCR", "n"), number(count))
            self.assertEqual(second.asks("INCR", "n"), number(count + 1))

    def test_a_command_that_is_none_leaves_the_link(self):
        client = self.client(self.serve())
        for name in ("NOTHING", "G", "GETT", ""):
            self.assertEqual(client.asks(name)[: len(UNKNOWN) - 2], UNKNOWN[:-2], name)
        self.assertEqual(client.asks("PING"), PONG)

    def test_sixteen_mib_both_ways(self):
        it, chance = self.serve(), random.Random(5)
        clients, values = [self.client(it) for _ in range(3)], [chance.randbytes(16 * MIB) for _ in range(3)]
        for at, (client, value) in enumerate(zip(clients, values)):
            client.send(request("SET", "k%d" % at, value))
        self.assertEqual([client.receive(5) for client in clients], 3 * [OK])
        for at, client in enumerate(clients):
            client.send(request("GET", "k%d" % ((at + 1) % 3)))
        for at, client in enumerate(clients):
            wanted = bulk(values[(at + 1) % 3])
            self.assertTrue(client.receive(len(wanted)) == wanted)
        clients[0].send(b"*3\r\n$3\r\nSET\r\n$1\r\nk\r\n$536870913\r\n")
        self.assertEqual(clients[0].rest(), BULK_LENGTH)
        self.goes_on(it)


class Links(Serving):
    """How links end, and that each ends for itself."""

    def test_a_half_closed_link_still_gets_its_replies(self):
        client = self.client(self.serve())
        client.send(SET + 1000 * GET + TORN)
        client.send_no_more()
        self.assertEqual(client.rest(), OK + 1000 * bulk("v"))

    def test_a_half_closed_link_still_gets_replies_that_wait(self):
        client, value = self.client(self.serve(), room=4096), random.Random(1).randbytes(MIB)
        self.assertEqual(client.asks("SET", "k", value), OK)
        client.send_and_wait(40 * GET)
        # little of what the server answers was taken by then
        client.send_no_more()
        self.assertTrue(client.rest() == 40 * bulk(value))

    def test_quit_is_answered_and_closes(self):
        it = self.serve()
        quitting, other = self.client(it), self.client(it)
        quitting.send(SET + request("QUIT") + SET_W + PING)
        self.assertEqual(quitting.rest(), OK + OK)
        self.assertEqual(other.asks("GET", "k"), bulk("v"))

    def test_a_bad_request_is_told_and_closes_its_link_alone(self):
        it = self.serve()
        other = self.client(it)
        for at, (bad, wanted) in enumerate(BAD_REQUESTS):
            with self.subTest(bad=bad[:20]), it.client() as client:
                client.send_what_goes(request("INCR", "n") + bad)
                self.assertEqual(client.receive(4) + client.rest(), number(at + 1) + wanted)
                self.assertEqual(other.asks("GET", "n"), bulk("%d" % (at + 1)))

    def test_what_follows_a_bad_request_is_not_read(self):
        it = self.serve()
        with it.client() as client:
            client.send(b"*x\r\n" + SET)
            self.assertEqual(client.rest(), COUNT)
        self.assertEqual(self.client(it).asks("EXISTS", "k"), number(0))

    def test_random_bytes_on_a_hundred_links_touch_no_other(self):
        it, chance = self.serve(), random.Random(16)
        other = self.client(it)
        for at in range(100):
            noisy = it.client()
            # some of them begin as a request does
            noise = chance.choice((b"", b"*", b"*3\r\n$3\r\nSET\r\n", b"*2\r\n$3\r\nGET\r\n$")) + chance.randbytes(chance.choice((1, 50, 5000)))
            noisy.send_what_goes(noise)
            self.assertEqual(other.asks("SET", "key%d" % at, noise), OK)
            noisy.send_what_goes(noise)
            self.assertTrue(other.asks("GET", "key%d" % at) == bulk(noise))
            self.assertEqual(other.asks("INCR", "n"), number(at + 1))
            chance.choice((noisy.close, noisy.reset))()
        self.assertEqual(other.asks("DBSIZE"), number(101))
        self.goes_on(it)

    def test_a_client_that_goes_away_before_its_replies_ends_no_other(self):
        it = self.serve()
        other = self.client(it)
        self.assertEqual(other.asks("SET", "k", 4 * MIB * b"x"), OK)
        for at in range(20):
            gone = it.client(room=4096)
            gone.send(3 * GET)
            (gone.reset if at % 2 else gone.close)()
            self.assertEqual(other.asks("PING"), PONG)
        self.goes_on(it)

    def test_a_client_that_reads_late_gets_all(self):
        it, value = self.serve(), random.Random(3).randbytes(MIB)
        late, other = self.client(it, room=4096), self.client(it)
        self.assertEqual(late.asks("SET", "k", value), OK)
        late.send(55 * GET + request("INCR", "n"))
        # the last of these isn't read while so much waits
        for at in range(100):
            self.assertEqual(other.asks("GET", "n"), NIL)
        self.assertTrue(late.receive(55 * len(bulk(value))) == 55 * bulk(value))
        self.assertEqual(late.reply(), number(1))

    def test_a_slow_client_holds_up_no_other(self):
        it = self.serve()
        slow, quick = self.client(it), self.client(it)
        for at, byte in enumerate(request("SET", "k", 40 * "v")):
            time.sleep(0.01)
            slow.send(bytes([byte]))
            for step in range(5):
                self.assertEqual(quick.asks("INCR", "n"), number(5 * at + step + 1))
        self.assertEqual(slow.reply(), OK)
        self.assertEqual(quick.asks("GET", "k"), bulk(40 * "v"))

    def test_a_thousand_links_at_once_each_with_a_session(self):
        it = self.serve()
        other = self.client(it)
        self.assertEqual(other.asks("PING"), PONG)
        before = it.descriptors()
        links = [self.client(it) for _ in range(MANY)]
        for at, link in enumerate(links):
            link.send(request("SET", "key%d" % at, "v%d" % at) + request("INCR", "n"))
        counts = set()
        for link in links:
            self.assertEqual(link.receive(5), OK)
            counts.add(link.reply())
        self.assertEqual(counts, {number(it + 1) for it in range(MANY)})
        self.assertEqual(it.descriptors(), before + MANY)
        for at, link in enumerate(links):
            link.send(request("GET", "key%d" % at)[:9])
        for at, link in reversed(list(enumerate(links))):
            link.send(request("GET", "key%d" % at)[9:] + request("EXISTS", "key%d" % (MANY - 1 - at)))
        for at, link in enumerate(links):
            self.assertEqual(link.reply() + link.reply(), bulk("v%d" % at) + number(1))
        for link in links:
            link.close()
        self.comes(lambda: it.descriptors() == before)
        self.goes_on(it)

    def test_thousands_of_idle_links_leave_the_others_their_replies(self):
        it = self.serve()
        other = self.client(it)
        self.assertEqual(other.asks("PING"), PONG)
        before, memory = it.descriptors(), it.memory()
        # as many as the system lets a process have
        links = [self.client(it) for _ in range(min(IDLE, resource.getrlimit(resource.RLIMIT_NOFILE)[0] - 100))]
        self.comes(lambda: it.descriptors() == before + len(links))
        for at in range(100):
            self.assertEqual(other.asks("INCR", "n"), number(at + 1))
        self.assertLess(it.memory(), memory + LEAK)
        # none of them was forgotten
        for link in links[::100]:
            self.assertEqual(link.asks("GET", "n"), bulk("100"))
        for link in links:
            link.close()
        self.comes(lambda: it.descriptors() == before)
        self.goes_on(it)

    def test_a_request_costs_the_same_beside_thousands_of_idle_links(self):
        it = self.serve()
        other = self.client(it)

        def used():
            before = it.used()
            for _ in range(SOME):
                other.asks("INCR", "n")
            return it.used() - before

        alone = used()
        links = [self.client(it) for _ in range(min(IDLE, resource.getrlimit(resource.RLIMIT_NOFILE)[0] - 100))]
        self.assertEqual(links[-1].asks("GET", "n"), bulk("%d" % SOME))
        beside = used()
        # so that their ports are free again at once
        for link in links:
            link.reset()
        # a turn that went over all links took thirty times as long
        self.assertLess(beside, 4 * alone)

    def test_each_of_a_thousand_idle_links_is_served_once_it_sends(self):
        it = self.serve()
        idle, other = [self.client(it) for _ in range(MANY)], self.client(it)
        for at in range(100):
            self.assertEqual(other.asks("INCR", "n"), number(at + 1))
        for at, link in enumerate(reversed(idle)):
            self.assertEqual(link.asks("INCR", "n"), number(at + 101))

    def test_half_a_request_waits_for_its_rest(self):
        it, asked = self.serve(), SET + GET
        halves, other = [(self.client(it), cut) for cut in (1, 9, 20, len(SET), len(asked) - 1)], self.client(it)
        for link, cut in halves:
            link.send(asked[:cut])
        for at in range(50):
            self.assertEqual(other.asks("INCR", "n"), number(at + 1))
        # some turns in which nothing comes
        time.sleep(0.3)
        for link, cut in halves:
            link.send(asked[cut:])
            self.assertEqual(link.receive(12), OK + bulk("v"))

    def test_a_reply_that_does_not_fit_goes_on_once_its_client_reads(self):
        it, value = self.serve(), random.Random(4).randbytes(MIB)
        late, other = self.client(it, room=4096), self.client(it)
        self.assertEqual(late.asks("SET", "k", value), OK)
        for sent in (10, 20):
            late.send(sent * GET)
            for at in range(50):
                self.assertEqual(other.asks("PING"), PONG)
            # nothing comes on any other link from here on
            time.sleep(0.3)
            self.assertTrue(late.receive(sent * len(bulk(value))) == sent * bulk(value))
        self.assertEqual(late.asks("INCR", "n"), number(1))

    def test_idle_links_that_their_peers_end_are_closed(self):
        it = self.serve()
        before = it.descriptors()
        for ends in ("close", "reset", "send_no_more"):
            with self.subTest(ends=ends):
                links = [self.client(it) for _ in range(MANY)]
                self.assertEqual(links[-1].asks("PING"), PONG)
                self.assertEqual(it.descriptors(), before + MANY)
                for link in links:
                    getattr(link, ends)()
                self.comes(lambda: it.descriptors() == before)
        self.goes_on(it)

    def test_links_closed_in_the_middle_of_a_request_leave_nothing(self):
        it = self.serve()
        other, memory = self.client(it), 0
        self.assertEqual(other.asks("PING"), PONG)
        before = it.descriptors()
        for at in range(CLOSED):
            link = it.client()
            # a reply shows that the link was accepted
            link.send(PING + b"*3\r\n$3\r\nSET\r\n$1\r\nk\r\n$5000\r\n" + at % 5000 * b"x")
            self.assertEqual(link.receive(7), PONG)
            (link.reset if at % 2 else link.close)()
            if at == CLOSED // 10:
                memory = it.memory()
        self.assertEqual(other.asks("EXISTS", "k"), number(0))
        self.comes(lambda: it.descriptors() == before)
        self.assertLess(it.memory(), memory + LEAK)

    def test_a_file_is_written_anew_where_clients_took_all_descriptors(self):
        it = self.serve(aof=self.path)
        first = self.left(it, 60)
        for value in "vwx":
            self.assertEqual(first.asks("SET", "k", value), OK)
        more = [self.client(it) for _ in range(100)]
        self.comes(lambda: it.descriptors() == 60)
        for turn in range(3):
            self.assertEqual(first.asks("BGREWRITEAOF"), STARTED)
            self.assertEqual(self.bytes(), SET_X)
            self.assertEqual(first.asks("PING"), PONG)
            self.comes(lambda: it.descriptors() == 60)
        # a client that waits may go away in between
        for link in more:
            link.close()
        self.assertEqual(first.asks("BGREWRITEAOF"), STARTED)
        self.assertEqual(sorted(os.listdir(self.folder)), ["data.aof", "data.aof.lock"])
        self.assertIn(b"no more descriptors: links wait to be accepted", it.told())

    def test_without_descriptors_the_links_that_are_there_go_on(self):
        it = self.serve()
        links = [self.left(it, 60), *(self.client(it) for _ in range(9))]
        for link in links:
            self.assertEqual(link.asks("PING"), PONG)
        more = [it.client() for _ in range(100)]
        for at, link in enumerate(links):
            self.assertEqual(link.asks("INCR", "n"), number(at + 1))
        for link in more:
            link.close()

        def serves():
            try:
                with it.client() as client:
                    return client.asks("PING") == PONG
            except (EOFError, ConnectionError):
                return False

        self.comes(serves)
        self.assertEqual(links[0].asks("GET", "n"), bulk("10"))


class Deadlines(Serving):
    """Deadlines by the system's clock."""

    def test_a_key_is_gone_behind_its_deadline_and_not_before(self):
        client = self.client(self.serve())
        client.asks("SET", "k", "v")
        began = time.monotonic()
        self.assertEqual(client.asks("PEXPIRE", "k", "200"), number(1))
        self.comes(lambda: client.asks("GET", "k") == NIL)
        self.assertGreater(time.monotonic() - began, 0.19)
        self.assertEqual(client.asks("PTTL", "k"), number(-2))

    def test_moments_are_those_of_the_system(self):
        client = self.client(self.serve())
        before = time.time()
        client.asks("SET", "k", "v", "PX", "3600000")
        moment, after = int(client.asks("PEXPIRETIME", "k")[1:]) / 1000, time.time()
        # the system's clock may be set in between by a little
        self.assertTrue(before - 2 <= moment - 3600 <= after + 2, (before, moment, after))
        self.assertTrue(0 < int(client.asks("PTTL", "k")[1:]) <= 3_600_000)
        client.asks("SET", "k", "v", "EXAT", "%d" % (before - 10))
        self.assertEqual(client.asks("GET", "k"), NIL)

    def test_an_expired_key_goes_without_being_named_and_its_del_is_in_the_file(self):
        it = self.serve(aof=self.path)
        client = self.client(it)
        client.asks("SET", "l", "v")
        self.assertEqual(client.asks("SET", "k", "v", "PX", "100"), OK)
        self.comes(lambda: self.bytes().endswith(request("DEL", "k")))
        self.assertEqual(client.asks("DBSIZE") + client.asks("GET", "k"), number(1) + NIL)
        it.kill()
        self.assertEqual(READY.fullmatch(self.serve(aof=self.path).ready)[2], b"1")

    def test_many_expired_keys_go(self):
        it = self.serve(aof=self.path)
        client = self.client(it)
        client.send(b"".join(request("SET", "key%d" % at, "v", "PX", "%d" % (1 + at % 200)) for at in range(1000)))
        self.assertEqual(client.receive(5000), 1000 * OK)
        self.comes(lambda: self.bytes().count(b"\r\nDEL\r\n") == 1000)
        self.assertEqual(client.asks("DBSIZE"), number(0))

    def test_deadlines_outlive_a_start(self):
        it = self.serve(aof=self.path)
        client = self.client(it)
        for words in (("SET", "k", "v", "PXAT", str(FAR)), ("RPUSH", "l", "a"), ("PEXPIREAT", "l", str(FAR + 1)), ("SET", "m", "v", "PX", "50")):
            client.asks(*words)
        it.kill()
        # the last is expired by then
        time.sleep(0.06)
        client = self.client(self.serve(aof=self.path))
        self.assertEqual([client.asks("PEXPIRETIME", key) for key in "klm"], [number(FAR), number(FAR + 1), number(-2)])


class Files(Serving):
    def test_a_write_is_in_the_file_before_its_reply(self):
        it, texts = self.serve(aof=self.path), b""
        clients = [self.client(it) for _ in range(3)]
        for at in range(150):
            words = ("SET", "key%d" % at, "v")
            self.assertEqual(clients[at % 3].asks(*words), OK)
            texts += request(*words)
            self.assertEqual(self.bytes(), texts)
        for words in (("GET", "key1"), ("SET", "key1", "v"), ("PING",), ("DEL", "none"), ("LPUSH", "key1", "x"), ("NOTHING",)):
            clients[0].asks(*words)
        self.assertEqual(self.bytes(), texts)

    def test_pipe_and_serve_keep_one_file(self):
        run(SET, "pipe", "--aof", self.path)
        it = self.serve(aof=self.path)
        client = self.client(it)
        self.assertEqual(client.asks("GET", "k") + client.asks("SET", "k", "w"), bulk("v") + OK)
        it.signalled(signal.SIGTERM)
        self.assertEqual(run(GET, "pipe", "--aof", self.path).stdout, bulk("w"))
        self.assertEqual(self.bytes(), SET + SET_W)

    def write_all(self, it, made):
        """Writes what is made over several links, each key's commands over one."""
        links = [self.client(it) for _ in range(4)]
        sent = [[], [], [], []]
        for words in made.written:
            sent[zlib.crc32(words[1]) % 4].append(request(*words))
        for link, requests in zip(links, sent):
            link.send(b"".join(requests))
        for link, requests in zip(links, sent):
            for _ in requests:
                self.assertNotEqual(link.reply()[:1], b"-")

    def answers_of(self, it, made):
        """The answers to what is asked of all that was made, none of which is absent."""
        client = self.client(it)
        client.send(made.questions())
        answers = [client.reply() for _ in made.read]
        self.assertNotIn(NIL, answers)
        return answers

    def test_a_start_has_the_same_dataset(self):
        made, it = RandomKeys(random.Random(21)), self.serve(aof=self.path)
        self.write_all(it, made)
        wanted = self.answers_of(it, made)
        it.kill()
        it = self.serve(aof=self.path)
        self.assertTrue(self.answers_of(it, made) == wanted)
        client, long = self.client(it), os.path.getsize(self.path)
        self.assertEqual(client.asks("BGREWRITEAOF"), STARTED)
        self.assertLess(os.path.getsize(self.path), long)
        self.assertEqual(client.asks("SET", "last", "v"), OK)
        it.kill()
        it = self.serve(aof=self.path)
        self.assertTrue(self.answers_of(it, made) == wanted)
        self.assertEqual(self.client(it).asks("GET", "last"), bulk("v"))

    def test_redis_server_loads_the_file(self):
        needs(self, has_redis(), "redis-server")
        made, it = RandomKeys(random.Random(22)), self.serve(aof=self.path)
        self.write_all(it, made)
        wanted = self.answers_of(it, made)
        it.signalled(signal.SIGTERM)
        # redis-server moves the file into a folder of its own
        copy = os.path.join(self.folder, "copy")
        os.mkdir(copy)
        shutil.copy(self.path, copy)
        redis = server.RedisServer(aof=os.path.join(copy, "data.aof"))
        self.addCleanup(redis.stop)
        self.assertTrue(self.answers_of(redis, made) == wanted)

    def test_a_file_is_written_anew_between_the_requests_of_others(self):
        it = self.serve(aof=self.path)
        first, second = self.client(it), self.client(it)
        for value in "vwx":
            first.asks("SET", "k", value)
        self.assertEqual(second.asks("BGREWRITEAOF"), STARTED)
        self.assertEqual(self.bytes(), SET_X)
        self.assertEqual(first.asks("SET", "k", "v"), OK)
        self.assertEqual(self.bytes(), SET_X + SET)

    def test_without_syncing_a_write_is_still_in_the_file_before_its_reply(self):
        it = self.serve(aof=self.path, sync="no")
        client, texts = self.client(it), b""
        for at in range(200):
            self.assertEqual(client.asks("RPUSH", "l", "%d" % at), number(at + 1))
            texts += request("RPUSH", "l", "%d" % at)
            self.assertEqual(self.bytes(), texts)
        it.kill()
        client = self.client(self.serve(aof=self.path, sync="no"))
        self.assertEqual(client.asks("LRANGE", "l", "0", "-1"), array(*("%d" % at for at in range(200))))

    def test_a_full_disk_ends_the_program(self):
        self.ends_within_writes(self.serve(aof=self.path, limits=lambda: resource.setrlimit(resource.RLIMIT_FSIZE, (1000, 1000))))

    def ends_within_writes(self, it):
        """The file fails within a hundred writes. What was answered until then is there at the next start, in their order."""
        client = self.client(it)
        client.send(b"".join(request("RPUSH", "l", "%d" % at) for at in range(100)))
        answered = client.rest().count(b"\n")
        self.file_failed(it.ended())
        client = self.client(self.serve(aof=self.path))
        kept = int(client.asks("LLEN", "l")[1:])
        self.assertTrue(answered <= kept < 100, (answered, kept))
        self.assertEqual(client.asks("LRANGE", "l", "0", "-1"), array(*("%d" % at for at in range(kept))))


class Syncing(Serving):
    """The system's sync of the file fails once."""

    @classmethod
    def setUpClass(cls):
        cls.room = tempfile.TemporaryDirectory()
        cls.addClassCleanup(cls.room.cleanup)
        cls.shim = shim("failing_file", cls.room.name)

    def serve_with(self, sync, fails):
        it = server.BareServer(aof=self.path, sync=sync, env={**os.environ, "LD_PRELOAD": self.shim, "FAIL_SYNC": str(fails)})
        self.addCleanup(it.stop)
        return it

    def test_a_write_is_synced_before_its_reply(self):
        for sync in (None, "always"):
            with self.subTest(sync=sync):
                self.write(b"")
                it = self.serve_with(sync, 3)
                client = self.client(it)
                self.assertEqual([client.asks(*words) for words in (("SET", "k", "v"), ("SET", "k", "w"))], [OK, OK])
                client.send(SET_X)
                self.assertEqual(client.rest(), b"")
                self.file_failed(it.ended())
                self.assertEqual(self.bytes(), SET + SET_W + SET_X)

    def test_without_syncing_no_sync_is_called(self):
        # a file that is made has its folder synced
        self.write(b"")
        client = self.client(self.serve_with("no", 1))
        for at in range(100):
            self.assertEqual(client.asks("INCR", "n"), number(at + 1))


class Killing(Serving):
    def stream(self, it, kept, seconds):
        """Two links push numbers until so many seconds are over and the server is killed: how many were answered on each, and how many sent."""
        links, sent, chance = [self.client(it) for _ in kept], list(kept), random.Random(sum(kept))
        end = time.monotonic() + seconds
        while time.monotonic() < end:
            for at, link in enumerate(links):
                some = range(sent[at], sent[at] + chance.randrange(1, 20))
                link.send(b"".join(request("RPUSH", "l%d" % at, "%d" % value) for value in some))
                sent[at] = some.stop
        it.process.kill()
        return [before + link.rest().count(b"\n") for before, link in zip(kept, links)], sent

    def test_what_was_answered_is_there_after_a_kill(self):
        chance, kept, most = random.Random(9), [0, 0], 0
        for _ in range(KILLS):
            it = self.serve(aof=self.path)
            answered, sent = self.stream(it, kept, chance.uniform(0, 0.05))
            it.ended()
            most += sum(answered) - sum(kept)
            it = self.serve(aof=self.path)
            client = self.client(it)
            for at in range(2):
                kept[at] = int(client.asks("LLEN", "l%d" % at)[1:])
                self.assertTrue(answered[at] <= kept[at] <= sent[at], (answered, kept, sent))
                last = ["%d" % value for value in range(max(0, kept[at] - 3), kept[at])]
                self.assertEqual(client.asks("LRANGE", "l%d" % at, "-3", "-1"), array(*last))
            it.kill()
        client = self.client(self.serve(aof=self.path))
        for at in range(2):
            self.assertEqual(client.asks("LRANGE", "l%d" % at, "0", "-1"), array(*("%d" % value for value in range(kept[at]))))
        self.assertGreater(most, KILLS)


if __name__ == "__main__":
    unittest.main()
