"""Runs the built program, as the tests do."""

import array
import fcntl
import glob
import os
import re
import subprocess
import sys
import termios
import time

from tools.quick import UNPROVED, compiled

# the folder of this file, and of what the tests put before the C library
SUPPORT = os.path.dirname(os.path.abspath(__file__))
ROOT = os.path.dirname(os.path.dirname(SUPPORT))
# starts the program as a user does; it ignores SIGPIPE for the program
LAUNCHER = os.path.join(ROOT, "minired")
# whether what is played has nothing proved of it (tools/quick.py)
IS_UNPROVED = bool(os.environ.get(UNPROVED))
# the program itself
PROGRAM = os.path.join(ROOT, "crates", "minired", "out", *["unproved"] * IS_UNPROVED, "minired")
# a line on standard error that says what the program does, with the time in front
NOTICE = re.compile(rb"(\d{4}-\d\d-\d\dT\d\d:\d\d:\d\d\.\d{3}Z) minired: ([^\n]*)\n")
# how much of its stream a node keeps for its replicas where nothing is said of it, in bytes
USUAL_BACKLOG = 1_048_576
# how the reason begins for which a test of a client is skipped that the machine doesn't have
ABSENT = "absent: "
# no run of a test takes this long, in seconds: one that does hangs. What is compiled with checks may take some minutes for a large table
LATE = 300 if IS_UNPROVED else 60


def request(*words):
    """The array form of a request."""
    words = [word if isinstance(word, bytes) else word.encode() for word in words]
    return b"*%d\r\n" % len(words) + b"".join(b"$%d\r\n%s\r\n" % (len(word), word) for word in words)


def run(data, *words, **how):
    """Runs the program on these bytes, and returns how it ended and what it wrote."""
    return subprocess.run([LAUNCHER, *words], input=data, capture_output=True, timeout=LATE, **how)


def notices(said):
    """What the lines say that have the time in front, and the other lines of standard error."""
    return [text for _, text in NOTICE.findall(said)], NOTICE.sub(b"", said)


def built(name):
    """The program of a crate, built first where it isn't or a source is newer."""
    if IS_UNPROVED:
        return compiled(name) or sys.exit(f"minired's tests: the program {name} cannot be compiled")
    program = os.path.join(ROOT, "crates", name, "out", name)
    sources = glob.glob(os.path.join(ROOT, "crates", "*", "src", "**", "*.rt"), recursive=True)
    if not os.path.exists(program) or os.path.getmtime(program) < max(map(os.path.getmtime, sources)):
        folder = os.path.join(ROOT, "crates", name)
        # rt runs what it has built, on the input that stands beside its sources
        with open(os.path.join(folder, "stdin"), "rb") as usual:
            if subprocess.run([sys.executable, os.path.join(ROOT, "tools", "rt.py"), "run"], cwd=folder, stdin=usual, capture_output=True).returncode:
                sys.exit(f"minired's tests: the program {name} cannot be built")
        os.utime(program)
    return program


def waiting(pipe):
    """How many bytes of a pipe nobody has read."""
    count = array.array("i", [0])
    fcntl.ioctl(pipe, termios.FIONREAD, count)
    return count[0]


def run_in_pieces(pieces, *words):
    """Runs the program, and hands it each piece once it has read all of the one before."""
    started = subprocess.Popen([LAUNCHER, *words], stdin=subprocess.PIPE, stdout=subprocess.PIPE, stderr=subprocess.PIPE)
    late = time.monotonic() + LATE
    for piece in pieces:
        try:
            os.write(started.stdin.fileno(), piece)
        except BrokenPipeError:
            # the program has ended, as it does after a fault
            break
        while waiting(started.stdin) and started.poll() is None and time.monotonic() < late:
            time.sleep(0.0001)
    out, err = started.communicate(timeout=LATE)
    return subprocess.CompletedProcess(words, started.returncode, out, err)


def compiler():
    """A C compiler with what it needs to make a shared library: the kit's, which is always there."""
    kit = os.path.dirname(os.path.dirname(os.path.realpath(_path_of("rt"))))
    tools = os.path.join(kit, "toolchain", "bin")
    return [os.path.join(tools, "clang"), "-fuse-ld=" + os.path.join(tools, "ld.lld")]


def shim(name, folder):
    """The library that is put before the C library, built in this folder from the source of this name that lies beside this file."""
    library = os.path.join(folder, name + ".so")
    subprocess.run([*compiler(), "-shared", "-fPIC", "-O1", "-nostdlib", "-o", library, os.path.join(SUPPORT, name + ".c")], check=True)
    return library


def needs(test, is_there, package):
    """The rest of the test needs what this package of Debian has. Where that isn't installed the test fails, or is told as absent where ABSENT_CLIENTS is `named`."""
    if not is_there:
        if os.environ.get("ABSENT_CLIENTS") == "named":
            test.skipTest(ABSENT + package)
        test.fail("the Debian package %s isn't installed" % package)


def _path_of(command):
    for folder in os.environ.get("PATH", "").split(os.pathsep):
        path = os.path.join(folder, command)
        if os.access(path, os.X_OK):
            return path
    sys.exit(f"minired's tests: the command {command} is not on PATH")
