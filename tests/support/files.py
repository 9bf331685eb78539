"""Tests on a file of their own."""

import os
import tempfile
import unittest


class InFolder(unittest.TestCase):
    """Tests with a folder of their own, and a path in it for a file."""

    def setUp(self):
        folder = tempfile.TemporaryDirectory()
        self.addCleanup(folder.cleanup)
        self.folder, self.path = folder.name, os.path.join(folder.name, "data.aof")

    def write(self, data):
        with open(self.path, "wb") as file:
            file.write(data)

    def bytes(self):
        with open(self.path, "rb") as file:
            return file.read()
