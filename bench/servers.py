"""What the benches share: the programs that are measured, and the requests that they are asked."""

import fcntl
import os
import shutil
import statistics
import subprocess
import threading
import time

ROOT = os.path.dirname(os.path.dirname(os.path.abspath(__file__)))
LAUNCHER = os.path.join(ROOT, "minired")
KEYS = 1_000_000
VALUE = b"xxx"
# of the same length: a text in place of itself changes nothing, and would leave out what a change costs
OTHER = b"yyy"
MIB = 1 << 20
# how often a run is made, of both programs in turn; what is told is the least of processor time, and else the median
ROUNDS = int(os.environ.get("ROUNDS", "1"))
# no run takes this long, in seconds: one that does hangs
LATE = 600
# as large as the system lets a pipe be
PIPE_SIZE = 1 << 20
F_SETPIPE_SZ = 1031
TICKS_A_SECOND = os.sysconf("SC_CLK_TCK")
# the fields of a process' statistics that tell the processor time of its children that ended, counted behind its name
CHILDREN = slice(13, 15)


def has_redis():
    return bool(shutil.which("redis-server") and shutil.which("redis-cli"))


def is_chosen(name, chosen):
    return not chosen or any(word in name for word in chosen)


def key(number):
    return b"key:%012d" % number


def scrambled(number):
    """The keys in an order that is the same in each run: 3^18 and the number of keys have no common divisor."""
    return key(number * 387_420_489 % KEYS)


def request(*words):
    return b"*%d\r\n" % len(words) + b"".join(b"$%d\r\n%s\r\n" % (len(word), word) for word in words)


def bulk(text):
    return b"$%d\r\n%s\r\n" % (len(text), text)


def least(runs):
    """The least of each column of several runs: of processor time, what else the machine and its host do can only add."""
    return [min(column) for column in zip(*runs)]


def medians(runs):
    """The median of each column of several runs."""
    return [statistics.median(column) for column in zip(*runs)]


def used_by(process):
    """Nanoseconds of processor time that all threads of a process have taken so far."""
    total = 0
    folder = f"/proc/{process}/task"
    for thread in os.listdir(folder):
        with open(f"{folder}/{thread}/schedstat") as it:
            total += int(it.read().split()[0])
    return total


def used_by_children(process):
    """Nanoseconds of processor time that the children of a process took that it has waited for."""
    with open(f"/proc/{process}/stat") as it:
        fields = it.read().rpartition(")")[2].split()
    return sum(map(int, fields[CHILDREN])) * 1e9 / TICKS_A_SECOND


def peak_of(process):
    """The most memory that a process has had so far, in bytes."""
    with open(f"/proc/{process}/status") as it:
        line = next(line for line in it if line.startswith("VmHWM:"))
    return int(line.split()[1]) * 1024


def timed(words, path, out):
    """Nanoseconds of processor time and bytes of peak memory of a program on a file, whose output goes to another."""
    with open(path, "rb") as asked, open(out, "wb") as replies:
        child = subprocess.Popen(words, stdin=asked, stdout=replies)
        _, status, used = os.wait4(child.pid, 0)
        child.returncode = os.waitstatus_to_exitcode(status)
    if child.returncode:
        raise SystemExit(f"bench: {words[0]} ended with {child.returncode}")
    return (used.ru_utime + used.ru_stime) * 1e9, used.ru_maxrss * 1024


class Minired:
    """The program, asked over pipes."""

    def __init__(self, *words, start=(LAUNCHER,)):
        self.process = subprocess.Popen([*start, "pipe", *words], stdin=subprocess.PIPE, stdout=subprocess.PIPE, bufsize=0)
        self.answered, self.grew, self.reader = 0, threading.Condition(), None
        # it has started, and its file is loaded
        self.ask(request(b"PING"), len(b"+PONG\r\n"))

    def used(self):
        return used_by(self.process.pid)

    def peak(self):
        return peak_of(self.process.pid)

    def ask(self, data, size):
        """One request, with a reply of so many bytes, which comes before the next."""
        os.write(self.process.stdin.fileno(), data)
        reply = b""
        while len(reply) < size:
            piece = os.read(self.process.stdout.fileno(), size)
            if not piece:
                raise SystemExit("bench: ./minired ended early")
            reply += piece
        return reply

    def run(self, path, size):
        """Requests of a file, with replies of so many bytes together."""
        if not self.reader:
            for pipe in (self.process.stdin, self.process.stdout):
                fcntl.fcntl(pipe, F_SETPIPE_SZ, PIPE_SIZE)
            self.reader = threading.Thread(target=self._read, daemon=True)
            self.reader.start()
        wanted = self.answered + size
        with open(path, "rb") as file:
            shutil.copyfileobj(file, self.process.stdin, PIPE_SIZE)
        with self.grew:
            self.grew.wait_for(lambda: self.answered >= wanted or self.process.poll() is not None, LATE)
        if self.answered != wanted:
            raise SystemExit(f"bench: ./minired wrote {self.answered} bytes of replies in place of {wanted}")
        # it waits for more
        time.sleep(0.005)

    def _read(self):
        while piece := os.read(self.process.stdout.fileno(), PIPE_SIZE):
            with self.grew:
                self.answered += len(piece)
                self.grew.notify_all()
        self.process.wait()
        with self.grew:
            self.grew.notify_all()

    def stop(self):
        self.process.stdin.close()
        self.process.wait()


class Redis:
    """A server of its own in this folder, which keeps nothing on disk but what the words say."""

    def __init__(self, room, *more, start=()):
        self.socket = os.path.join(room, "redis")
        words = ["--port", "0", "--unixsocket", self.socket, "--save", "", "--appendonly", "no", "--dir", room, *more]
        self.process = subprocess.Popen([*start, "redis-server", *words], stdout=subprocess.DEVNULL)
        while not os.path.exists(self.socket):
            if self.process.poll() is not None:
                raise SystemExit("bench: redis-server does not start")
            time.sleep(0.01)

    def asked(self, *words):
        return subprocess.run(["redis-cli", "-s", self.socket, *words], capture_output=True, text=True, check=True).stdout.strip()

    def used(self):
        return used_by(self.process.pid)

    def peak(self):
        return peak_of(self.process.pid)

    def run(self, path, size=0):
        with open(path, "rb") as asked:
            subprocess.run(["redis-cli", "-s", self.socket, "--pipe"], stdin=asked, stdout=subprocess.DEVNULL, check=True)

    def stop(self):
        self.process.terminate()
        self.process.wait()
        if os.path.exists(self.socket):
            os.remove(self.socket)
