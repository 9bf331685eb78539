"""Requests that many tests make, and texts of effects and groups."""

from tests.support.program import request

PING, GET, DEL = request("PING"), request("GET", "k"), request("DEL", "k")
# of 27 bytes each
SET, SET_W, SET_X = (request("SET", "k", it) for it in "vwx")
# has a node follow nobody
LEAD = request("REPLICAOF", "NO", "ONE")
# a moment in the year 2100
FAR = 4_102_444_800_000


# in front of the texts of a group's effects and behind them, where it has two or more
MULTI, EXEC = request("MULTI"), request("EXEC")


def framed(*texts):
    """The text of the group of the effects with these texts."""
    return MULTI + b"".join(texts) + EXEC


# two effects of 27 bytes each, and the text of their group, of 83
SET_A, SET_B = request("SET", "a", "1"), request("SET", "b", "2")
PAIR = framed(SET_A, SET_B)
