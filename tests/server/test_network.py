"""Wires in memory and over sockets, what waits to be sent on a link, and what the system gives, as the built `rehearse_values` plays them.

What is expected of a socket is what its other end sent and received."""

import contextlib
import socket
import struct
import subprocess
import time
import unittest

from tests.support.program import LATE, built
from tests.support.values import Playing, spelled

# a client may leave so many bytes unread
MOST_UNSENT = 64 << 20
# more than the system keeps of a link whose peer doesn't read
LONG = 12 << 20


def listed(*lines):
    return [(line, "listed") for line in lines]


# hosts that are neither an IPv4 address as text nor the one name
NO_HOSTS = ["", "example.com", "Localhost", "localhost.", "localhos", "127.1", "2130706433", "256.0.0.1", "127.0.0.01", "1.2.3.4.5", " 127.0.0.1",
            "127.0.0.1 ", "127.0.0.1:6379", "0x7f.0.0.1", "::1", b"127.0.0.1\0"]


def connect(host, port):
    return "connect %s %d" % (spelled(host), port)


class Unsents(Playing):
    def test_bytes_wait_in_order(self):
        self.plays("unsent", [
            ("shows", "shows 0 empty"),
            ("front", "front -"),
            ("push " + spelled("abc"), "pushed"),
            ("push " + spelled("defgh"), "pushed"),
            ("front", "front " + spelled("abcdefgh")),
            ("advance 2", "advanced"),
            ("front", "front " + spelled("cdefgh")),
            ("advance 4", "advanced"),
            # what was moved is more than what waits, and makes room
            ("push " + spelled("ij"), "pushed"),
            ("front", "front " + spelled("ghij")),
            ("shows", "shows 4"),
            ("advance 4", "advanced"),
            ("shows", "shows 0 empty"),
            ("push " + spelled("k"), "pushed"),
            ("clear", "cleared"),
            ("shows", "shows 0 empty"),
            ("push " + spelled("l"), "pushed"),
            ("front", "front " + spelled("l")),
        ])

    def test_a_shared_text_stands_among_them(self):
        """Before it and behind it bytes of the link's own wait, each part in front once all before it was moved, by whatever counts."""
        self.plays("unsent", [
            ("push " + spelled("ab"), "pushed"),
            ("share " + spelled("TEXT"), "shared"),
            ("push " + spelled("cd"), "pushed"),
            # a second one is copied behind all
            ("share " + spelled("more"), "shared"),
            ("front", "front " + spelled("ab")),
            ("advance 1", "advanced"),
            ("front", "front " + spelled("b")),
            ("advance 3", "advanced"),
            ("front", "front " + spelled("XT")),
            ("advance 3", "advanced"),
            ("front", "front " + spelled("dmore")),
            ("share " + spelled("LAST"), "shared"),
            ("advance 5", "advanced"),
            ("front", "front " + spelled("LAST")),
            ("advance 4", "advanced"),
            ("shows", "shows 0 empty"),
            ("share " + spelled("ALONE"), "shared"),
            ("clear", "cleared"),
            ("shows", "shows 0 empty"),
            ("push " + spelled("e"), "pushed"),
            ("front", "front " + spelled("e")),
        ])

    def test_a_client_may_leave_64_mib_unread(self):
        self.plays("unsent", [
            ("fill %d" % MOST_UNSENT, "pushed"),
            ("shows", "shows %d" % MOST_UNSENT),
            ("push " + spelled("a"), "pushed"),
            ("shows", "shows %d too much" % (MOST_UNSENT + 1)),
            ("advance 1", "advanced"),
            ("shows", "shows %d" % MOST_UNSENT),
            ("push " + spelled("bc"), "pushed"),
            ("shows", "shows %d too much" % (MOST_UNSENT + 2)),
            ("advance %d" % MOST_UNSENT, "advanced"),
            ("shows", "shows 2"),
            ("front", "front " + spelled("bc")),
        ])


class Sources(Playing):
    def test_the_system_gives_time_chance_and_ids(self):
        before = int(time.time() * 1000)
        answers = [it.split(" ") for it in self.answers_to("source now;word;word;id;id;now")]
        after = int(time.time() * 1000)
        self.assertEqual([it[0] for it in answers], ["now", "word", "word", "id", "id", "now"])
        first, last = int(answers[0][1]), int(answers[5][1])
        self.assertLessEqual(before, first)
        self.assertLessEqual(first, last)
        self.assertLessEqual(last, after)
        self.assertNotEqual(answers[1], answers[2])
        ids = [it[1] for it in answers[3:5]]
        self.assertNotEqual(*ids)
        for shown in ids:
            self.assertRegex(shown, "^[0-9a-f]{40}$")
            self.assertNotEqual(shown, "0" * 40)

    def test_another_run_draws_others(self):
        one, other = (self.answers_to("source word;id") for _ in range(2))
        self.assertNotEqual(one[0], other[0])
        self.assertNotEqual(one[1], other[1])


class MemoryWires(Playing):
    def test_each_call_takes_the_next_of_its_list(self):
        self.plays("memory", [
            *listed("waits done", "waits failed"),
            *listed("reads " + spelled("abcdef"), "reads not-ready", "reads " + spelled("g"), "reads end"),
            *listed("writes 3", "writes not-ready", "writes 10", "writes failed"),
            *listed("accepts link", "accepts not-ready", "accepts failed"),
            ("begin", "begun"),
            ("wait 100", "waited"),
            ("wait 100", "failed"),
            ("wait 100", "waited"),
            ("accept", "id 0 0"),
            ("accept", "none"),
            ("accept", "failed"),
            ("accept", "none"),
            ("read 0 0 4", "bytes " + spelled("abcd")),
            ("read 0 0 4", "bytes " + spelled("ef")),
            ("read 0 0 4", "not ready"),
            ("read 0 0 4", "bytes " + spelled("g")),
            ("read 0 0 4", "end"),
            ("read 0 0 4", "not ready"),
            ("write 0 0 " + spelled("hello"), "moved 3"),
            ("write 0 0 " + spelled("lo"), "not ready"),
            ("write 0 0 " + spelled("lo"), "moved 2"),
            ("write 0 0 " + spelled("x"), "failed"),
            ("write 0 0 " + spelled("x"), "not ready"),
            ("written 0 0", "written " + spelled("hello")),
        ])

    def test_a_connect_takes_the_next_of_its_list(self):
        self.plays("memory", [
            *listed("reads not-ready", "reads " + spelled("hi"), "writes not-ready", "writes 9", "connects link"),
            *listed("connects failed", "connects link", "connects link", "accepts link"),
            ("begin", "begun"),
            (connect("10.0.0.5", 6379), "id 0 0"),
            ("asked 0 0", "asked 10.0.0.5 6379"),
            # the peer hasn't answered
            ("read 0 0 9", "not ready"),
            ("write 0 0 " + spelled("hello"), "not ready"),
            ("read 0 0 9", "bytes " + spelled("hi")),
            ("write 0 0 " + spelled("hello"), "moved 5"),
            ("written 0 0", "written " + spelled("hello")),
            (connect("10.0.0.5", 6379), "failed"),
            # a peer that opened a link wasn't asked for it
            ("accept", "id 1 1"),
            ("asked 1 1", "none"),
            (connect("localhost", 1), "id 2 2"),
            ("asked 2 2", "asked 127.0.0.1 1"),
            ("close 2 2", "closed"),
            ("asked 2 2", "none"),
            # a host that is none takes the next all the same
            (connect("example.com", 6379), "failed"),
            (connect("127.0.0.1", 6379), "failed"),
            ("asked 0 0", "asked 10.0.0.5 6379"),
            ("accept", "none"),
        ])

    def test_a_host_is_an_address_as_text_or_localhost(self):
        hosts = ["0.0.0.0", "255.255.255.255", "127.0.0.1", "1.20.255.9"]
        self.plays("memory", [
            *listed(*["connects link"] * (len(NO_HOSTS) + len(hosts))),
            ("begin", "begun"),
            *[(connect(host, 6379), "failed") for host in NO_HOSTS],
            *[step for k, host in enumerate(hosts) for step in [
                (connect(host, 65_535), "id %d %d" % (k, k)),
                ("asked %d %d" % (k, k), "asked %s 65535" % host),
            ]],
        ])

    def test_a_call_moves_bytes_of_its_link_alone(self):
        self.plays("memory", [
            *listed("reads " + spelled("one"), "writes 9", "accepts link"),
            *listed("reads " + spelled("two"), "reads failed", "writes 9", "accepts link"),
            *listed("accepts link"),
            ("begin", "begun"),
            ("accept", "id 0 0"),
            ("accept", "id 1 1"),
            ("read 1 1 9", "bytes " + spelled("two")),
            ("read 0 0 9", "bytes " + spelled("one")),
            ("read 1 1 9", "failed"),
            ("write 1 1 " + spelled("2"), "moved 1"),
            ("write 0 0 " + spelled("11"), "moved 2"),
            ("written 0 0", "written " + spelled("11")),
            ("written 1 1", "written " + spelled("2")),
            ("close 0 0", "closed"),
            ("read 0 0 9", "failed"),
            ("write 0 0 " + spelled("1"), "failed"),
            ("written 0 0", "none"),
            # the place is used again, the name isn't
            ("accept", "id 0 2"),
            ("close 0 0", "closed"),
            ("written 0 2", "written -"),
            ("written 1 1", "written " + spelled("2")),
        ])

    def test_behind_each_wait_all_open_links_are_named_in_order(self):
        self.plays("memory", [
            *listed("accepts link", "accepts link", "accepts link", "accepts link"),
            ("begin", "begun"),
            ("ready", "none"),
            ("accept", "id 0 0"),
            ("accept", "id 1 1"),
            ("ready", "id 0 0"),
            ("ready", "id 1 1"),
            ("ready", "none"),
            ("accept", "id 2 2"),
            ("ready", "id 2 2"),
            ("ready", "none"),
            ("wait 0", "waited"),
            ("ready", "id 0 0"),
            ("close 1 1", "closed"),
            ("ready", "id 2 2"),
            ("ready", "none"),
            ("accept", "id 1 3"),
            ("ready", "none"),
            ("wait 0", "waited"),
            ("ready", "id 0 0"),
            ("ready", "id 1 3"),
            ("ready", "id 2 2"),
            ("ready", "none"),
        ])

    def test_calls_are_made_until_they_are_answered(self):
        self.plays("memory", [
            *listed("reads not-ready", "reads " + spelled("ab"), "writes not-ready", "writes 1", "writes 9", "writes 9"),
            *listed("accepts not-ready", "accepts link"),
            ("begin", "begun"),
            ("accept-ready", "id 0 0"),
            ("read-ready 0 0 9", "bytes " + spelled("ab")),
            ("write-all 0 0 " + spelled("abc"), "moved all in parts"),
            ("write-all 0 0 " + spelled("def"), "moved all"),
            ("written 0 0", "written " + spelled("abcdef")),
        ])


def free_port():
    """A port on which nobody listens."""
    with socket.socket() as found:
        found.bind(("127.0.0.1", 0))
        return found.getsockname()[1]


def held(listens=None):
    """A socket on a port of its own, on which it listens, with so many that wait, or refuses."""
    it = socket.socket()
    it.settimeout(LATE)
    it.bind(("127.0.0.1", 0))
    if listens is not None:
        it.listen(listens)
    return it


def port_of(it):
    return it.getsockname()[1]


def connected(port, **options):
    """A client of that port, once somebody listens there."""
    late = time.monotonic() + LATE
    while True:
        client = socket.socket()
        client.settimeout(LATE)
        for option, value in options.items():
            client.setsockopt(socket.SOL_SOCKET, getattr(socket, option), value)
        try:
            client.connect(("127.0.0.1", port))
            return client
        except ConnectionRefusedError:
            client.close()
            if time.monotonic() > late:
                raise
            time.sleep(0.01)


def received(client, count):
    """The next so many bytes, or all up to the end."""
    data = b""
    while len(data) < count:
        piece = client.recv(count - len(data))
        if not piece:
            break
        data += piece
    return data


class SocketWires(unittest.TestCase):
    def plays_beside(self, steps, talk):
        """Steps on a wire that listens, each with its answer, while this talks to its port."""
        port = free_port()
        steps = [("listen %d" % port, "listens %d" % port), *steps]
        script = "sockets " + ";".join(step for step, _ in steps) + "\n"
        program = subprocess.Popen([built("rehearse_values")], stdin=subprocess.PIPE, stdout=subprocess.PIPE, stderr=subprocess.PIPE, text=True)
        try:
            program.stdin.write(script)
            program.stdin.close()
            talk(port)
            out, err = program.stdout.read(), program.stderr.read()
            self.assertEqual((program.wait(LATE), err), (0, ""))
        finally:
            program.kill()
            program.wait()
            program.stdout.close()
            program.stderr.close()
        for (step, wanted), answer in zip(steps, out.splitlines(), strict=True):
            self.assertEqual(answer, wanted, step)

    def plays_at_last(self, steps, talk):
        """The same, in one of three runs: on a busy machine the system may tell of one thing twice."""
        for _ in range(2):
            with contextlib.suppress(self.failureException):
                return self.plays_beside(steps, talk)
        return self.plays_beside(steps, talk)

    def test_a_client_sends_in_pieces_and_closes_by_halves(self):
        def talk(port):
            with connected(port) as client:
                client.sendall(b"abcdefghij")
                self.assertEqual(received(client, 3), b"one")
                client.sendall(b"klm")
                client.shutdown(socket.SHUT_WR)
                self.assertEqual(received(client, 9), b"two")

        self.plays_beside([
            ("accept", "none"),
            ("accept-ready", "id 0 0"),
            ("read 0 0 4", "not ready"),
            ("read-ready 0 0 4", "bytes " + spelled("abcd")),
            ("read-ready 0 0 4", "bytes " + spelled("efgh")),
            # a read that finds less than it asked for has found all that came
            ("read-ready 0 0 4", "bytes " + spelled("ij")),
            ("read 0 0 4", "not ready"),
            ("write-all 0 0 " + spelled("one"), "moved all"),
            ("read-ready 0 0 64", "bytes " + spelled("klm")),
            ("read-ready 0 0 64", "end"),
            ("write 0 0 " + spelled("two"), "moved 3"),
            ("close 0 0", "closed"),
            ("read 0 0 4", "failed"),
            ("write 0 0 " + spelled("x"), "failed"),
        ], talk)

    def test_a_name_is_not_used_again(self):
        def talk(port):
            with connected(port) as one:
                self.assertEqual(received(one, 9), b"1")
            with connected(port) as other:
                self.assertEqual(received(other, 1), b"2")
                # the peer is told that the link is gone, and not that it ended
                other.setsockopt(socket.SOL_SOCKET, socket.SO_LINGER, struct.pack("ii", 1, 0))

        self.plays_beside([
            ("accept-ready", "id 0 0"),
            ("write-all 0 0 " + spelled("1"), "moved all"),
            ("close 0 0", "closed"),
            ("accept-ready", "id 0 1"),
            ("write-all 0 0 " + spelled("x"), "failed"),
            ("write-all 0 1 " + spelled("2"), "moved all"),
            ("read-ready 0 1 8", "failed"),
            ("wait 0", "waited"),
        ], talk)

    def test_a_client_that_reads_slowly_gets_all_in_parts(self):
        sent = bytes(range(256)) * (LONG // 256)

        def talk(port):
            with connected(port, SO_RCVBUF=65_536) as client:
                self.assertEqual(received(client, LONG + 1), sent)

        self.plays_beside([
            ("accept-ready", "id 0 0"),
            ("write-all 0 0 " + spelled(sent), "moved all in parts"),
            ("close 0 0", "closed"),
        ], talk)

    def test_links_are_served_beside_each_other(self):
        def talk(port):
            with connected(port) as one:
                one.sendall(b"a")
                self.assertEqual(received(one, 1), b"A")
                with connected(port) as other:
                    other.sendall(b"b")
                    self.assertEqual(received(other, 1), b"B")
                    one.sendall(b"c")
                    self.assertEqual(received(one, 1), b"C")
                    self.assertEqual(received(other, 1), b"")

        self.plays_beside([
            ("accept-ready", "id 0 0"),
            ("read-ready 0 0 8", "bytes " + spelled("a")),
            ("write-all 0 0 " + spelled("A"), "moved all"),
            ("accept-ready", "id 1 1"),
            ("read-ready 1 1 8", "bytes " + spelled("b")),
            ("read 0 0 8", "not ready"),
            ("write-all 1 1 " + spelled("B"), "moved all"),
            ("read-ready 0 0 8", "bytes " + spelled("c")),
            ("write-all 0 0 " + spelled("C"), "moved all"),
            ("close 1 1", "closed"),
            ("read-ready 0 0 8", "end"),
        ], talk)

    def test_a_link_is_named_once_something_comes_of_it(self):
        def talk(port):
            with connected(port) as client:
                self.assertEqual(received(client, 2), b"go")
                client.sendall(b"abcdef")
                self.assertEqual(received(client, 2), b"on")
                client.shutdown(socket.SHUT_WR)
                self.assertEqual(received(client, 1), b"")

        self.plays_at_last([
            ("ready", "none"),
            ("accept-ready", "id 0 0"),
            ("ready", "none"),
            # it can be written on
            ("name-ready", "id 0 0"),
            ("write-all 0 0 " + spelled("go"), "moved all"),
            ("name-ready", "id 0 0"),
            ("ready", "none"),
            ("read 0 0 4", "bytes " + spelled("abcd")),
            ("ready", "none"),
            # there is more, though nothing came
            ("wait 1000", "waited"),
            ("ready", "id 0 0"),
            ("ready", "none"),
            ("read 0 0 4", "bytes " + spelled("ef")),
            ("wait 0", "waited"),
            ("ready", "none"),
            ("write-all 0 0 " + spelled("on"), "moved all"),
            ("name-ready", "id 0 0"),
            ("read 0 0 4", "end"),
            ("wait 0", "waited"),
            ("ready", "none"),
            ("close 0 0", "closed"),
            ("wait 0", "waited"),
            ("ready", "none"),
        ], talk)

    def test_a_link_that_is_closed_is_not_named(self):
        def talk(port):
            with connected(port) as one:
                self.assertEqual(received(one, 1), b"")
            with connected(port) as other:
                self.assertEqual(received(other, 1), b"2")

        self.plays_beside([
            ("accept-ready", "id 0 0"),
            # something came of it by then
            ("wait 1000", "waited"),
            ("close 0 0", "closed"),
            ("ready", "none"),
            ("accept-ready", "id 0 1"),
            ("name-ready", "id 0 1"),
            ("write-all 0 1 " + spelled("2"), "moved all"),
        ], talk)

    def test_a_peer_is_connected_to(self):
        def talk(_port):
            for name in (b"ping", b"name"):
                with listener.accept()[0] as peer:
                    peer.settimeout(LATE)
                    self.assertEqual(received(peer, 4), name)
                    peer.sendall(b"pong")
                    self.assertEqual(received(peer, 1), b"")

        with held(listens=8) as listener:
            self.plays_beside([
                (connect("127.0.0.1", port_of(listener)), "id 0 0"),
                # nothing is moved before the system says that the peer answered
                ("ready", "none"),
                ("write 0 0 " + spelled("ping"), "not ready"),
                ("read 0 0 4", "not ready"),
                ("name-ready", "id 0 0"),
                ("write-all 0 0 " + spelled("ping"), "moved all"),
                ("read-ready 0 0 8", "bytes " + spelled("pong")),
                ("close 0 0", "closed"),
                (connect("localhost", port_of(listener)), "id 0 1"),
                ("write-all 0 1 " + spelled("name"), "moved all"),
                ("read-ready 0 1 8", "bytes " + spelled("pong")),
                ("close 0 1", "closed"),
            ], talk)

    def test_a_link_is_not_ready_while_its_peer_does_not_answer(self):
        def talk(port):
            with connected(port) as client:
                self.assertEqual(received(client, 2), b"go")
                with listener.accept()[0], listener.accept()[0] as peer:
                    peer.settimeout(LATE)
                    self.assertEqual(received(peer, 4), b"ping")

        # one peer waits to be accepted, and no other is let in beside it
        with held(listens=0) as listener, connected(port_of(listener)):
            self.plays_beside([
                (connect("127.0.0.1", port_of(listener)), "id 0 0"),
                ("wait 50", "waited"),
                ("accept-ready", "id 1 1"),
                ("write 0 0 " + spelled("ping"), "not ready"),
                ("read 0 0 4", "not ready"),
                ("write-all 1 1 " + spelled("go"), "moved all"),
                ("write-all 0 0 " + spelled("ping"), "moved all"),
                ("close 0 0", "closed"),
            ], talk)

    def test_a_refusal_is_found_by_the_next_call(self):
        with held() as refusing:
            self.plays_beside([
                (connect("127.0.0.1", port_of(refusing)), "id 0 0"),
                ("write 0 0 " + spelled("x"), "not ready"),
                ("name-ready", "id 0 0"),
                ("read 0 0 4", "failed"),
                ("close 0 0", "closed"),
                (connect("localhost", port_of(refusing)), "id 0 1"),
                ("write-all 0 1 " + spelled("x"), "failed"),
                ("close 0 1", "closed"),
            ], lambda _port: None)

    def test_no_name_is_looked_up(self):
        self.plays_beside([(connect(host, 6379), "failed") for host in NO_HOSTS], lambda _port: None)

    def test_a_port_in_use_is_told(self):
        with socket.socket() as taken:
            taken.bind(("127.0.0.1", 0))
            taken.listen()
            script = "sockets listen %d\n" % taken.getsockname()[1]
            ran = subprocess.run([built("rehearse_values")], input=script, capture_output=True, text=True, timeout=LATE)
        self.assertEqual((ran.returncode, ran.stdout, ran.stderr), (1, "", "rehearse_values: file failed\n"))


if __name__ == "__main__":
    unittest.main()
