"""Runs the built program as a server, and redis-server beside it: clients of both, and what the system tells of their processes."""

import os
import re
import resource
import select
import shutil
import signal
import socket
import struct
import subprocess
import time

from tests.support.program import LATE, LAUNCHER, PROGRAM, notices, request

HOST = "127.0.0.1"
READY = re.compile(rb"minired: ready on 127\.0\.0\.1:(\d+), (\d+) keys(?: from (.*))?\n")
# how the notice begins by which each start tells how many clients it takes
TAKES = b"takes at most "
# how long a poll sleeps between two looks, in seconds
A_LOOK = 0.002
# descriptors that a test with many links needs, of its own and of the server
DESCRIPTORS = 12_288
MIB = 1 << 20
# what a client may leave unread, in bytes
UNREAD = 64 * MIB


def free_port():
    """A port that nobody listens on now."""
    with socket.socket() as it:
        it.bind((HOST, 0))
        return it.getsockname()[1]


def until(holds, seconds=LATE):
    """Whether something comes to hold in time. It is looked at again and again."""
    late = time.monotonic() + seconds
    while not holds():
        if time.monotonic() > late:
            return False
        time.sleep(A_LOOK)
    return True


def raise_limit():
    """This process, and those that it starts, may have as many descriptors as many links take."""
    soft, hard = resource.getrlimit(resource.RLIMIT_NOFILE)
    wanted = DESCRIPTORS if hard == resource.RLIM_INFINITY else min(DESCRIPTORS, hard)
    if soft != resource.RLIM_INFINITY and soft < wanted:
        resource.setrlimit(resource.RLIMIT_NOFILE, (wanted, hard))


class NotReady(Exception):
    """A server ended before it listened: its status, and what it wrote."""

    def __init__(self, ended):
        super().__init__(ended)
        self.ended = ended


class Server:
    """A running `minired serve` on a free port, or on the one that is named."""

    program = LAUNCHER

    def __init__(self, port=None, aof=None, sync=None, turns=None, limits=None, **how):
        def begin():
            # who runs the tests may have started them with this signal ignored
            signal.signal(signal.SIGINT, signal.SIG_DFL)
            if limits:
                limits()

        self.port = port or free_port()
        streams = {"stdin": subprocess.DEVNULL, "stdout": subprocess.PIPE, "stderr": subprocess.PIPE}
        self.process = subprocess.Popen(self.words(aof, sync, turns), preexec_fn=begin, **{**streams, **how})
        self.pid, self.ready = self.process.pid, b""
        try:
            self.wait_until_ready()
        except BaseException:
            self.stop()
            raise

    def words(self, aof, sync, turns):
        given = {"--port": self.port, "--aof": aof, "--sync": sync, "--turns": turns}
        return [self.program, "serve"] + [str(it) for name, value in given.items() if value is not None for it in (name, value)]

    def wait_until_ready(self):
        """Reads the one line that says that the program listens."""
        late = time.monotonic() + LATE
        while not self.ready.endswith(b"\n"):
            readable, _, _ = select.select([self.process.stdout], [], [], max(0, late - time.monotonic()))
            piece = os.read(self.process.stdout.fileno(), 1) if readable else b""
            if not piece:
                if not readable:
                    self.process.kill()
                raise NotReady(self.ended())
            self.ready += piece

    def ended(self):
        """How the program ended, what it wrote behind the ready line, which notices, and which of its room. It is waited for."""
        try:
            out, err = self.process.communicate(timeout=LATE)
        finally:
            self.stop()
        said = b"" if self.ready.endswith(b"\n") else self.ready
        noticed, err = notices(err)
        ended = subprocess.CompletedProcess([], self.process.returncode, said + out, err)
        ended.room = [it for it in noticed if it.startswith(TAKES)]
        ended.notices = [it for it in noticed if not it.startswith(TAKES)]
        return ended

    def signalled(self, number):
        self.process.send_signal(number)
        return self.ended()

    def kill(self):
        """The program ends wherever it is."""
        return self.signalled(signal.SIGKILL)

    def told(self):
        """The notices up to now, and it ends. A turn writes them behind its replies, so that they are there once one link is answered in two more turns."""
        with self.client() as it:
            for _ in range(2):
                it.asks("PING")
        return self.kill().notices

    def stop(self):
        """Ends it, where it hasn't ended, and lets go of its pipes."""
        if self.process.poll() is None:
            self.process.kill()
        self.process.wait()
        for pipe in (self.process.stdout, self.process.stderr):
            if pipe:
                pipe.close()

    def client(self, **how):
        return Client(self.port, **how)

    def is_running(self):
        return self.process.poll() is None

    def descriptors(self):
        return len(os.listdir(f"/proc/{self.pid}/fd"))

    def status(self, name):
        """A line of the system's account of the process, as VmRSS, in bytes."""
        with open(f"/proc/{self.pid}/status", encoding="ascii") as it:
            return next(int(line.split()[1]) << 10 for line in it if line.startswith(name + ":"))

    def used(self):
        """The processor time that it has taken so far, the system's part included, in seconds."""
        with open(f"/proc/{self.pid}/schedstat", encoding="ascii") as it:
            return int(it.read().split()[0]) / 1e9

    def memory(self):
        """What it has in memory now."""
        return self.status("VmRSS")

    def peak(self):
        """The most that it has had in memory so far."""
        return self.status("VmHWM")


class BareServer(Server):
    """The program itself, without what starts it."""

    program = PROGRAM


class RedisServer(Server):
    """redis-server with the limits that minired has, where it is installed. Its file is one of commands, which it moves into a folder of its own."""

    def words(self, aof, sync, turns):
        assert turns is None
        words = ["redis-server", "--port", self.port, "--bind", HOST, "--save", "", "--maxclients", 4000]
        words += ["--client-output-buffer-limit", "normal", UNREAD, 0, 0]
        words += ["--dir", os.path.dirname(os.path.abspath(aof)) if aof else "/", "--appendonly", "yes" if aof else "no"]
        if aof:
            words += ["--appendfilename", os.path.basename(aof), "--appendfsync", sync or "always"]
        return [str(it) for it in words]

    def wait_until_ready(self):
        """It says on many lines what it does, and listens while it loads."""
        said = b""
        while b"Ready to accept connections" not in said:
            piece = os.read(self.process.stdout.fileno(), 65_536)
            if not piece:
                raise NotReady(self.ended())
            said += piece


def has_redis():
    return bool(shutil.which("redis-server"))


class Client:
    """A client's end of a link, over which bytes go as they are."""

    def __init__(self, port, room=None, host=HOST):
        self.socket = socket.socket()
        self.socket.settimeout(LATE)
        if room:
            # how much the system takes in for this client before it reads
            self.socket.setsockopt(socket.SOL_SOCKET, socket.SO_RCVBUF, room)
        self.socket.connect((host, port))
        self.socket.setsockopt(socket.IPPROTO_TCP, socket.TCP_NODELAY, 1)
        self.name = self.socket.getsockname()[1]
        self.server = port
        self.kept = bytearray()

    def __enter__(self):
        return self

    def __exit__(self, *_):
        self.close()

    def send(self, data):
        self.socket.sendall(data)

    def send_what_goes(self, data):
        """Sends as much as the server takes: it may close the link within these bytes."""
        try:
            self.send(data)
        except (ConnectionResetError, BrokenPipeError):
            pass

    def more(self):
        """Takes what there is into what is kept, at least a byte, and says whether there was one: there is none at the end."""
        piece = self.socket.recv(1 << 20)
        self.kept += piece
        return bool(piece)

    def taken(self, count):
        taken = bytes(self.kept[:count])
        del self.kept[:count]
        return taken

    def receive(self, count):
        """So many bytes, or fewer at the link's end."""
        while len(self.kept) < count and self.more():
            pass
        return self.taken(count)

    def rest(self):
        """All bytes until the server closes the link, in whichever way."""
        try:
            while self.more():
                pass
        except ConnectionResetError:
            pass
        return self.taken(len(self.kept))

    def line(self, start):
        """Where the line that begins at this place of what is kept ends, behind its line feed."""
        while (end := self.kept.find(b"\n", start)) < 0:
            if not self.more():
                raise EOFError("the link ended within a reply")
        return end + 1

    def end_of_reply(self, start):
        """Where the reply that begins at this place of what is kept ends: `+`, `-` and `:` are lines, `$` has bytes behind, and `*` replies."""
        end = self.line(start)
        kind, count = self.kept[start : start + 1], self.kept[start + 1 : end - 2]
        if kind == b"$" and count != b"-1":
            end += int(count) + 2
            while len(self.kept) < end:
                if not self.more():
                    raise EOFError("the link ended within a reply")
        elif kind == b"*" and count != b"-1":
            for _ in range(int(count)):
                end = self.end_of_reply(end)
        elif kind not in (b"+", b"-", b":", b"$", b"*"):
            raise ValueError(bytes(self.kept[start:end]))
        return end

    def reply(self):
        """The bytes of one whole reply."""
        return self.taken(self.end_of_reply(0))

    def asks(self, *words):
        """The reply to a request."""
        self.send(request(*words))
        return self.reply()

    def asks_line(self, line):
        return self.asks(*line.split(" "))

    def send_no_more(self):
        self.socket.shutdown(socket.SHUT_WR)

    def close(self):
        self.socket.close()

    def reset(self):
        """Breaks the link off, in place of closing it."""
        self.socket.setsockopt(socket.SOL_SOCKET, socket.SO_LINGER, struct.pack("ii", 1, 0))
        self.socket.close()

    def unread(self):
        """How many bytes of this client lie in the system, where the server hasn't read them. What is still under way counts too."""
        count = 0
        with open("/proc/net/tcp", encoding="ascii") as it:
            for line in it.readlines()[1:]:
                words = line.split()
                near, far = (int(end.split(":")[1], 16) for end in words[1:3])
                sent, received = (int(size, 16) for size in words[4].split(":"))
                if (near, far) == (self.server, self.name):
                    count += received
                elif (near, far) == (self.name, self.server):
                    count += sent
        return count

    def send_and_wait(self, data):
        """Sends bytes, and waits until the server has read them."""
        self.send(data)
        if not until(lambda: not self.unread()):
            raise TimeoutError("the server doesn't read")
