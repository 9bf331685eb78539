#!/usr/bin/env python3
"""Stands in for redis-server in tests of others, which start it: serves at the port that they name, says so as redis-server does, and ends at a signal, or
with who started it."""

import os
import signal
import sys
import time

sys.path.insert(0, os.path.dirname(os.path.dirname(os.path.dirname(os.path.abspath(__file__)))))

from tests.support.server import Server

# how often it looks whether who started it is still there, in seconds
A_LOOK = 0.1


def main(words):
    """Serves. The other words ask for what the server is anyway: it listens on this machine alone, and keeps no file."""
    starter = os.getppid()
    for number in (signal.SIGINT, signal.SIGTERM):
        signal.signal(number, lambda *_: sys.exit())
    it = Server(port=int(words[words.index("--port") + 1]))
    try:
        print(" * Ready to accept connections", flush=True)
        while os.getppid() == starter:
            time.sleep(A_LOOK)
    finally:
        it.stop()


if __name__ == "__main__":
    main(sys.argv[1:])
