"""What a replica says to its master before it takes the stream, line by line, and what it is answered."""

from tests.support.program import request
from tests.support.replies import OK, PONG
from tests.support.requests import PING, SET

PORT = request("REPLCONF", "listening-port", "0")
CAPABILITIES = request("REPLCONF", "capa", "eof", "capa", "psync2")
# the first three lines, and the answers to them
GREETS, GREETED = PING + PORT + CAPABILITIES, PONG + OK + OK
# the last line of who has nothing to go on from
NOTHING_TO_CONTINUE = request("PSYNC", "?", "-1")
# how the answer to the last line begins, in front of a snapshot and in front of the rest of a stream
WHOLE, PART = b"+FULLRESYNC ", b"+CONTINUE "


def asks_from(id, offset):
    return request("PSYNC", id * 40, str(offset))


def continues(id):
    return b"%s%s\r\n" % (PART, (id * 40).encode())


def announces(id, offset, snapshot=None):
    """The answer to PSYNC of who sends a snapshot, and this behind it."""
    return b"%s%s %d\r\n" % (WHOLE, (id * 40).encode(), offset) + (b"" if snapshot is None else b"$%d\r\n" % len(snapshot) + snapshot)


# what a master that holds one key answers to each line, and its snapshot
ANSWERS = [PONG, OK, OK, announces("a", 27), b"$27\r\n" + SET]
