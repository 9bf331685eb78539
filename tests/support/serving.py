"""Tests of the built program as a server."""

import os
import re
import resource

from tests.support.files import InFolder
from tests.support.replies import PONG
from tests.support.server import Server, raise_limit, until


class Serving(InFolder):
    """Tests with servers and links that end with them."""

    def setUp(self):
        super().setUp()
        raise_limit()

    def serve(self, **how):
        it = Server(**how)
        self.addCleanup(it.stop)
        return it

    def client(self, of, **how):
        it = of.client(**how)
        self.addCleanup(it.close)
        return it

    def left(self, it, count):
        """A client of a server that has only so many descriptors from now on, so that clients may take all."""
        resource.prlimit(it.pid, resource.RLIMIT_NOFILE, (count, count))
        return self.client(it)

    def goes_on(self, it):
        """The server is there, and serves a new link."""
        self.assertTrue(it.is_running())
        with it.client() as client:
            self.assertEqual(client.asks("PING"), PONG)

    def comes(self, holds):
        self.assertTrue(until(holds))

    def failed(self, ended, status, first, second):
        """How the program ended, the first line that it wrote, and what its second says."""
        self.assertEqual((ended.returncode, ended.stdout), (status, b""), ended.stderr)
        line, why, rest = ended.stderr.split(b"\n")
        self.assertEqual((line, rest), (first, b""))
        self.assertRegex(why, second)

    def file_failed(self, ended):
        self.failed(ended, 3, b"minired: file failed", re.escape(os.fsencode(self.path)))
