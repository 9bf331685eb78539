"""The launcher: what it gives the program beside its words, what it answers itself, and how it runs the program unproved."""

import os
import re
import shutil
import signal
import socket
import subprocess
import sys
import tempfile
import unittest

from tests.support import tiny_repository as tiny
from tests.support.program import LATE, LAUNCHER, ROOT, request
from tests.support.replies import PONG
from tests.support.requests import PING

SETTING = b"GLIBC_TUNABLES="


def setting_of(**changes):
    """What a started program has in its environment under the setting's name, where the launcher is started with these."""
    env = {key: value for key, value in os.environ.items() if key != "GLIBC_TUNABLES"} | changes
    pipe = subprocess.PIPE
    with subprocess.Popen([LAUNCHER, "pipe"], stdin=pipe, stdout=pipe, env=env, bufsize=0) as started:
        started.stdin.write(PING)
        answer = started.stdout.read(len(PONG))
        with open(f"/proc/{started.pid}/environ", "rb") as file:
            said = [it.removeprefix(SETTING) for it in file.read().split(b"\0") if it.startswith(SETTING)]
        started.stdin.close()
        started.wait(timeout=LATE)
    return answer, said


class LargePages(unittest.TestCase):
    def test_large_pages_are_asked_for(self):
        self.assertEqual(setting_of(), (PONG, [b"glibc.malloc.hugetlb=1"]))

    def test_what_the_user_has_set_stays(self):
        for chosen in ("glibc.malloc.check=0", ""):
            self.assertEqual(setting_of(GLIBC_TUNABLES=chosen), (PONG, [chosen.encode()]))


class Signals(unittest.TestCase):
    """Where the system would end a program by a signal, a call fails instead, and the program says so."""

    def test_they_are_ignored(self):
        pipe = subprocess.PIPE
        with subprocess.Popen([LAUNCHER, "pipe"], stdin=pipe, stdout=pipe, bufsize=0) as started:
            started.stdin.write(PING)
            self.assertEqual(started.stdout.read(7), PONG)
            with open(f"/proc/{started.pid}/status", encoding="ascii") as file:
                ignored = next(int(line.split()[1], 16) for line in file if line.startswith("SigIgn:"))
            started.stdin.close()
            started.wait(timeout=LATE)
        for number in (signal.SIGPIPE, signal.SIGXFSZ):
            self.assertTrue(ignored >> (number - 1) & 1, number)

    def test_a_file_that_may_not_grow(self):
        with tempfile.TemporaryDirectory() as folder:
            path = os.path.join(folder, "data.aof")
            asked = b"".join(request("SET", "k%04d" % it, 100 * "v") for it in range(100))
            how = {"input": asked, "capture_output": True, "timeout": LATE}
            # a shell's `ulimit -f` counts blocks of 512 bytes
            ran = subprocess.run(["sh", "-c", 'ulimit -f 4 && exec "$0" pipe --aof "$1"', LAUNCHER, path], **how)
            self.assertEqual(ran.returncode, 3)
            self.assertRegex(ran.stderr, rb"\Aminired: file failed\n[^\n]*could not be written: [^\n]*\n\Z")
            answered = ran.stdout.count(b"+OK\r\n")
            self.assertTrue(0 < answered < 100)
            found = subprocess.run([LAUNCHER, "pipe", "--aof", path], **{**how, "input": request("DBSIZE")})
            self.assertIn(found.stdout, (b":%d\r\n" % answered, b":%d\r\n" % (answered + 1)))


# stands in for the kit's command: it tells its words, its folder and its input, and where it is to be a server it listens until a client has come
KIT = """\
#!{python}
import os, socket, sys
print(sys.argv[1:], os.path.relpath(os.getcwd(), {root!r}), sys.stdin.read(), flush=True)
if "serve" in sys.argv:
    with socket.create_server(("127.0.0.1", int(sys.argv[-1]))) as listens:
        listens.accept()
sys.exit(7)
"""


def constants():
    """What the program's source says of the program: its help and its version, as it prints them."""
    with open(os.path.join(ROOT, "crates", "minired", "src", "help.rt"), encoding="utf-8") as file:
        text = file.read()
    said = dict(re.findall(r'^const (\w+): &str = "((?:[^"\\]|\\.|\\\n)*)";$', text, re.M))
    return said["HELP"].removeprefix("\\\n"), said["VERSION"] + "\n"


class Unbuilt(unittest.TestCase):
    """The launcher in a tree in which nothing is built, and in which nothing can be: the kit's command is a stand-in."""

    def setUp(self):
        room = tempfile.TemporaryDirectory()
        self.addCleanup(room.cleanup)
        self.root = room.name
        shutil.copy(LAUNCHER, self.root)
        shutil.copytree(os.path.join(ROOT, "tools"), os.path.join(self.root, "tools"), ignore=shutil.ignore_patterns("__pycache__"))
        with open(os.path.join(ROOT, "crates", "minired", "src", "help.rt"), encoding="utf-8") as file:
            tiny.write(self.root, {"crates.txt": "minired:\n", "crates/minired/src/help.rt": file.read()})
        self.bin = os.path.join(self.root, "bin")
        tiny.write(self.root, {"bin/rt": KIT.format(python=sys.executable, root=self.root)})
        os.chmod(os.path.join(self.bin, "rt"), 0o755)

    def run_it(self, *words, path=None, **how):
        how = {"input": b"", "capture_output": True, "timeout": LATE, **how}
        env = {**os.environ, "PATH": path or f"{self.bin}:{os.environ['PATH']}"}
        ran = subprocess.run([os.path.join(self.root, "minired"), *words], env=env, **how)
        return ran.returncode, (ran.stdout or b"").decode(), ran.stderr.decode()


class Questions(Unbuilt):
    """The help and the version are answered without a build, in the program's own words."""

    def test_they_are_the_texts_of_the_program(self):
        said_help, version = constants()
        # a text with an escape would have to be read as the compiler reads it
        self.assertNotIn("\\", said_help + version)
        for words in (["--help"], ["-h"], ["--version", "--help"], ["serve", "--port", "--help"], ["try", "--help"]):
            with self.subTest(words=words):
                self.assertEqual(self.run_it(*words), (0, said_help, ""))
        for words in (["--version"], ["serve", "--version"], ["try", "--version"]):
            with self.subTest(words=words):
                self.assertEqual(self.run_it(*words), (0, version, ""))

    def test_where_the_program_is_built_it_answers_the_same(self):
        for word, said in zip(("--help", "--version"), constants()):
            ran = subprocess.run([LAUNCHER, word], capture_output=True, timeout=LATE)
            self.assertEqual((ran.returncode, ran.stdout.decode(), ran.stderr), (0, said, b""))

    def test_an_answer_that_cannot_be_written(self):
        for word in ("--help", "--version"):
            with self.subTest(word=word), open("/dev/full", "wb") as full:
                ran = self.run_it(word, capture_output=False, stdout=full, stderr=subprocess.PIPE)
                self.assertEqual(ran, (3, "", "minired: file failed\n"))


class Tries(Unbuilt):
    """`try` has the kit run the program, and says what that is worth."""

    def lines(self, said):
        lines = said.split("\n")
        self.assertRegex(lines[0], r"^minired: nothing is proved of this build, and it is slow\b")
        self.assertRegex(lines[1], r"^minired: it runs for 60 minutes at most\b")
        return lines[2:]

    def test_the_kit_gets_the_words_and_the_input(self):
        status, out, err = self.run_it("try", "pipe", "--now", "3", input=b"PING")
        self.assertEqual((status, self.lines(err)), (7, [""]))
        self.assertEqual(out, "['try', '--seconds', '3600', '--', 'pipe', '--now', '3'] crates/minired PING\n")

    def test_a_server_is_told_once_it_listens(self):
        with socket.create_server(("127.0.0.1", 0)) as taken:
            port = str(taken.getsockname()[1])
            self.assertEqual(self.run_it("try", "serve", "--port", port), (2, "", f"minired: something listens on 127.0.0.1:{port} already: name another port\n"))
        # standard input is left open: a server needs none
        ours, its = os.pipe()
        self.addCleanup(os.close, its)
        with open(ours, "rb") as given:
            status, out, err = self.run_it("try", "serve", "--port", port, input=None, stdin=given)
        self.assertEqual(status, 7)
        self.assertEqual(out, f"['try', '--seconds', '3600', '--', 'serve', '--port', '{port}'] crates/minired \n")
        self.assertEqual(self.lines(err), [f"minired: ready on 127.0.0.1:{port}, unproved; Ctrl-C ends it", ""])

    def test_without_words_it_asks_for_some(self):
        self.assertEqual(self.run_it("try"), (1, "", "minired: say what it shall do, as in: ./minired try serve --port 6379\n"))

    def test_without_the_kit_nothing_is_run(self):
        os.remove(os.path.join(self.bin, "rt"))
        os.symlink(sys.executable, os.path.join(self.bin, "python3"))
        said = (1, "", "minired: cannot run the program: put the command rt of the Rattle kit on PATH\n")
        self.assertEqual(self.run_it("try", "serve", "--port", "6379", path=f"{self.bin}:/usr/bin:/bin"), said)


if __name__ == "__main__":
    unittest.main()
