"""What one large word costs `serve` of memory, and redis-server, where it is installed: the most that each has behind a SET of it and behind a GET, and what is left.

`words.py` prints a row of docs/MEMORY.md for each size. It takes a minute, 3 GB of memory, and 1 GB of the disk that temporary files are on."""

import os
import tempfile

from tests.support import server
from tests.support.program import request

# how many MiB a word has, and whether a file is kept, which is synced behind each turn
SIZES = [(16, False), (64, False), (512, False), (512, True)]
BLOCK = os.urandom(server.MIB)
# how long a reply may take, in seconds
LATE = 600


class Unlimited(server.RedisServer):
    """It may keep as much as it is asked for before a client reads it."""

    def words(self, aof, sync, turns):
        return [*super().words(aof, sync, turns), "--client-output-buffer-limit", "normal", "0", "0", "0"]


def begin_peak(running):
    """From here on the system tells the most memory that a server has had since."""
    with open(f"/proc/{running.pid}/clear_refs", "w", encoding="ascii") as it:
        it.write("5")


def takes(client, text):
    """The next bytes that a client is sent are these."""
    if client.receive(len(text)) != text:
        raise SystemExit("bench: a reply is another than it must be")


def sets(client, size):
    """Sets a key to a word of so many MiB."""
    client.send(b"*3\r\n$3\r\nSET\r\n$1\r\nk\r\n$%d\r\n" % (size * server.MIB))
    for _ in range(size):
        client.send(BLOCK)
    client.send(b"\r\n")
    takes(client, b"+OK\r\n")


def gets(client, size):
    """Gets it, and keeps nothing of it."""
    client.send(request("GET", "k"))
    takes(client, b"$%d\r\n" % (size * server.MIB))
    for _ in range(size):
        takes(client, BLOCK)
    takes(client, b"\r\n")


def played(running, size):
    """MiB past what it had before: at most behind a SET, at most behind a GET, and left."""
    with running.client() as client:
        client.socket.settimeout(LATE)
        client.asks("PING")
        before, told = running.memory(), []
        for ask in (sets, gets):
            begin_peak(running)
            ask(client, size)
            told.append(running.peak())
        # a turn behind the reply
        client.asks("PING")
        return [(it - before) / server.MIB for it in (*told, running.memory())]


def measured(kind, size, with_file):
    with tempfile.TemporaryDirectory() as folder:
        it = kind(aof=os.path.join(folder, "data.aof") if with_file else None)
        try:
            return played(it, size)
        finally:
            it.stop()


def main():
    kinds = [server.Server, Unlimited][: 2 if server.has_redis() else 1]
    print("| Value | " + " | ".join(f"{name}: {program}" for name in ("SET", "GET", "left") for program in ("minired", "Redis")[: len(kinds)]) + " |")
    for size, with_file in SIZES:
        told = zip(*(measured(kind, size, with_file) for kind in kinds))
        cells = " | ".join(f"{it:,.0f}" for pair in told for it in pair)
        print(f"| {size} MiB{', with a file, `always`' if with_file else ''} | {cells} |", flush=True)


if __name__ == "__main__":
    main()
