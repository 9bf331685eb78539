"""What others do to the file of a server while it runs, and what else may stand in its place or beside it."""

import os
import resource
import socket
import tempfile
import time
import unittest

from tests.support.files import InFolder
from tests.support.program import NOTICE, request, run
from tests.support.replies import OK, STARTED, bulk, number
from tests.support.requests import SET
from tests.support.serving import Serving

HELPS = b": a restart may not find what is written now; BGREWRITEAOF writes it anew"
# within so many seconds it is told
SOON = 1.5


class Changes(Serving):
    def begun(self):
        """A server with a file and one key in it, and a client of it."""
        it = self.serve(aof=self.path)
        client = self.client(it)
        self.assertEqual(client.asks("SET", "k", "v"), OK)
        # it was looked at once as it was
        time.sleep(0.2)
        return it, client

    def told(self, it):
        """What was told of its file, and when."""
        it.process.kill()
        it.process.wait()
        front = os.fsencode(os.path.realpath(self.path)) + b": "
        return [text[len(front) :] for _, text in NOTICE.findall(it.process.stderr.read()) if text.startswith(front)]

    def counted(self, client, first):
        """Twenty writes, which take two seconds."""
        for at in range(20):
            self.assertEqual(client.asks("INCR", "n"), number(first + at))
            time.sleep(0.1)

    def put(self, data):
        other = self.path + ".other"
        with open(other, "wb") as file:
            file.write(data)
        os.replace(other, self.path)

    def test_what_others_do_is_told_once_and_rewriting_helps(self):
        for does, told in (
            (lambda: os.remove(self.path), b"it was removed"),
            (lambda: self.put(SET), b"another file is in its place"),
            (lambda: os.truncate(self.path, 10), b"it has 10 bytes, and 27 were written"),
            (lambda: self.longer(b"#\n"), b"it has 29 bytes, and 27 were written"),
        ):
            with self.subTest(told=told):
                self.absent()
                it, client = self.begun()
                does()
                time.sleep(SOON)
                self.counted(client, 1)
                self.assertEqual(client.asks("BGREWRITEAOF"), STARTED)
                self.counted(client, 21)
                self.assertEqual(self.told(it), [told + HELPS])
                again = self.serve(aof=self.path)
                client = self.client(again)
                self.assertEqual(client.asks("GET", "n") + client.asks("GET", "k"), bulk("40") + bulk("v"))
                again.kill()

    def absent(self):
        """No file is there."""
        if os.path.exists(self.path):
            os.remove(self.path)

    def longer(self, data):
        with open(self.path, "ab") as file:
            file.write(data)

    def test_it_is_told_within_a_second_also_where_nothing_is_written(self):
        it, _ = self.begun()
        os.remove(self.path)
        time.sleep(SOON)
        self.assertEqual(self.told(it), [b"it was removed" + HELPS])

    def test_what_comes_again_is_told_again(self):
        it, client = self.begun()
        for _ in range(2):
            os.remove(self.path)
            time.sleep(SOON)
            self.assertEqual(client.asks("BGREWRITEAOF"), STARTED)
            time.sleep(SOON)
        self.assertEqual(self.told(it), 2 * [b"it was removed" + HELPS])

    def test_what_the_server_does_itself_is_not_told(self):
        self.write(SET + b"*3\r\n$3\r\nSE")
        it, client = self.begun()
        for at in range(3):
            self.counted(client, 20 * at + 1)
            self.assertEqual(client.asks("BGREWRITEAOF"), STARTED)
        self.assertEqual([text for text in self.told(it) if not text.startswith(b"cut off")], [])

    def test_a_file_that_moves_with_a_link_in_its_place_is_the_same_file(self):
        it, client = self.begun()
        other = self.path + ".other"
        os.rename(self.path, other)
        os.symlink(other, self.path)
        time.sleep(SOON)
        self.assertEqual(client.asks("SET", "k", "w"), OK)
        self.assertEqual(self.told(it), [])
        with open(other, "rb") as file:
            self.assertEqual(file.read(), SET + request("SET", "k", "w"))


def may_grow_a_little():
    """Files of this process stay small."""
    resource.setrlimit(resource.RLIMIT_FSIZE, (65_536, 65_536))


class Kinds(InFolder):
    def test_what_is_no_regular_file_is_refused_with_its_kind(self):
        names = {it: os.path.join(self.folder, it) for it in ("folder", "pipe", "socket", "link")}
        os.mkdir(names["folder"])
        os.mkfifo(names["pipe"])
        os.symlink("pipe", names["link"])
        kinds = {names["folder"]: b"a folder", names["pipe"]: b"a named pipe", names["link"]: b"a named pipe"}
        with socket.socket(socket.AF_UNIX) as it:
            it.bind(names["socket"])
        kinds |= {names["socket"]: b"a socket", "/dev/null": b"a character device", "/dev/zero": b"a character device"}
        for path, kind in kinds.items():
            with self.subTest(path=path):
                ran = run(SET, "pipe", "--aof", path, preexec_fn=may_grow_a_little)
                refused = b"minired: file failed\n%s: %s, and no regular file\n" % (os.fsencode(path), kind)
                self.assertEqual((ran.returncode, ran.stdout, ran.stderr), (3, b"", refused))
        self.assertEqual(sorted(os.listdir(self.folder)), sorted(names))
        self.assertEqual([it for it in os.listdir("/dev") if it.startswith(("null.", "zero."))], [])

    def test_the_lock_of_another_file_is_not_made_through_a_link(self):
        with tempfile.TemporaryDirectory() as others:
            other = os.path.join(others, "other")
            for there in (False, True):
                with self.subTest(there=there):
                    if there:
                        open(other, "wb").close()
                    os.symlink(other, self.path + ".lock")
                    ran = run(SET, "pipe", "--aof", self.path)
                    self.assertEqual((ran.returncode, ran.stdout), (3, b""))
                    self.assertEqual(os.path.exists(other), there)
                    os.remove(self.path + ".lock")


if __name__ == "__main__":
    unittest.main()
