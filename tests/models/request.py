"""Requests as they are read, byte by byte: the array form, inline lines, empty requests, and the bytes that no request can begin with.

A part of the slow, plain model in `world.py`, written from the description alone."""

from typing import NamedTuple

MOST_OF_A_WORD = 536_870_912
MOST_WORDS = 1_048_576
MOST_OF_A_TEXT = 1_073_741_824
MOST_OF_A_LINE = 65_536
# `$0`, and the two line ends of an empty word
LEAST_OF_A_WORD = 6
SEPARATORS = b" \t\x0b\x0c\r"
HEXADECIMAL = b"0123456789abcdefABCDEF"
ESCAPES = {ord("n"): b"\n", ord("r"): b"\r", ord("t"): b"\t"}

# what a fault's text says behind `Protocol error: `
COUNT = "invalid multibulk length"
LENGTH = "invalid bulk length"
QUOTES = "unbalanced quotes in request"
LONG_LINE = "too big inline request"


class Whole(NamedTuple):
    """A request with these words begins the bytes, and has so many of them."""

    words: list
    used: int


class Skip(NamedTuple):
    """An empty request begins the bytes."""

    used: int


class More(NamedTuple):
    """The bytes begin neither, and some continuation of them does."""


class Bad(NamedTuple):
    """No continuation of the bytes begins with either."""

    fault: str


class Wanted(Exception):
    """More bytes are wanted."""


class Doomed(Exception):
    """The byte read last can't stand there."""


def next_request(data):
    """What the bytes begin with."""
    return tried(read_array if data[:1] == b"*" else read_line, data)


def next_command(data):
    """The same, of a command text: the array form with at least one word, and no limit on the text."""
    return tried(read_command, data)


def tried(read, data):
    try:
        return read(data)
    except Wanted:
        return More()
    except Doomed as fault:
        return Bad(str(fault))


# ---- the array form


def read_array(data):
    at, least = 1, 0
    if byte_at(data, at) == ord("-"):
        return Skip(ends(data, at + 1, b"1\r\n", COUNT))
    count, at = number(data, at, COUNT, lambda value, _: COUNT if value > MOST_WORDS else None)
    at = ends(data, at, b"\r\n", COUNT)
    if count == 0:
        return Skip(at)
    words = []
    for left in range(count - 1, -1, -1):
        least = left * LEAST_OF_A_WORD
        word, at = read_word(data, at, lambda value, here: here + 2 + value + 2 + least > MOST_OF_A_TEXT)
        words.append(word)
    return Whole(words, at)


def read_command(data):
    if byte_at(data, 0) != ord("*"):
        raise Doomed(COUNT)
    count, at = number(data, 1, COUNT, lambda value, _: COUNT if value > MOST_WORDS or value == 0 else None)
    at = ends(data, at, b"\r\n", COUNT)
    words = []
    for _ in range(count):
        word, at = read_word(data, at, lambda value, here: False)
        words.append(word)
    return Whole(words, at)


def read_word(data, at, is_past_the_text):
    """The word whose `$` line begins here, and the place behind its line end."""
    found = byte_at(data, at)
    if found != ord("$"):
        raise Doomed("expected '$', got '%s'" % (chr(found) if 0x20 <= found <= 0x7E else "?"))
    length, at = number(data, at + 1, LENGTH, lambda value, here: LENGTH if value > MOST_OF_A_WORD or is_past_the_text(value, here) else None)
    at = ends(data, at, b"\r\n", LENGTH)
    if at + length > len(data):
        raise Wanted
    return data[at : at + length], ends(data, at + length, b"\r\n", LENGTH)


def byte_at(data, at):
    if at >= len(data):
        raise Wanted
    return data[at]


def ends(data, at, end, fault):
    """The place behind these bytes, which must stand here."""
    for wanted in end:
        if byte_at(data, at) != wanted:
            raise Doomed(fault)
        at += 1
    return at


def number(data, at, fault, passes):
    """The number whose digits stand here, without a zero in front, and the place behind them. `passes` is asked after each digit."""
    value = None
    while byte_at(data, at) in b"0123456789":
        if value == 0:
            raise Doomed(fault)
        value = (value or 0) * 10 + data[at] - ord("0")
        at += 1
        passed = passes(value, at)
        if passed:
            raise Doomed(passed)
    if value is None:
        raise Doomed(fault)
    return value, at


# ---- inline lines


# the states of a line that is read, and how many bytes must still come before it may end
NEEDED = {"plain": 0, "closed": 0, "double": 1, "escape": 2, "first_digit": 1, "second_digit": 1, "single": 1, "single_escape": 2}


class Line:
    """A line as it is read: the words that ended, and the one that is open, or None."""

    def __init__(self):
        self.words, self.word, self.state, self.digit = [], None, "plain", 0

    def needed(self):
        return NEEDED[self.state]

    def take(self, byte):
        """Reads a byte that isn't the line's end."""
        getattr(self, "in_" + self.state)(byte)

    def add(self, data, state):
        self.word, self.state = (self.word or b"") + data, state

    def end_word(self):
        if self.word is not None:
            self.words.append(self.word)
        self.word, self.state = None, "plain"

    def in_plain(self, byte):
        if byte in SEPARATORS:
            self.end_word()
        elif byte == ord('"'):
            self.add(b"", "double")
        elif byte == ord("'"):
            self.add(b"", "single")
        else:
            self.add(bytes([byte]), "plain")

    def in_closed(self, byte):
        if byte not in SEPARATORS:
            raise Doomed(QUOTES)
        self.end_word()

    def in_double(self, byte):
        if byte == ord('"'):
            self.state = "closed"
        elif byte == ord("\\"):
            self.state = "escape"
        else:
            self.add(bytes([byte]), "double")

    def in_escape(self, byte):
        if byte == ord("x"):
            self.state = "first_digit"
        else:
            self.add(ESCAPES.get(byte, bytes([byte])), "double")

    def in_first_digit(self, byte):
        if byte in HEXADECIMAL:
            self.digit, self.state = byte, "second_digit"
        else:
            self.add(b"x", "double")
            self.take(byte)

    def in_second_digit(self, byte):
        if byte in HEXADECIMAL:
            self.add(bytes([int(bytes([self.digit, byte]), 16)]), "double")
        else:
            self.add(b"x" + bytes([self.digit]), "double")
            self.take(byte)

    def in_single(self, byte):
        if byte == ord("'"):
            self.state = "closed"
        elif byte == ord("\\"):
            self.state = "single_escape"
        else:
            self.add(bytes([byte]), "single")

    def in_single_escape(self, byte):
        if byte == ord("'"):
            self.add(b"'", "single")
        else:
            self.add(b"\\", "single")
            self.take(byte)


def read_line(data):
    line = Line()
    for at, byte in enumerate(data):
        if byte == ord("\n"):
            if line.needed():
                raise Doomed(QUOTES)
            line.end_word()
            return Whole(line.words, at + 1) if line.words else Skip(at + 1)
        if at == MOST_OF_A_LINE:
            raise Doomed(LONG_LINE)
        line.take(byte)
        if at + 1 + line.needed() > MOST_OF_A_LINE:
            raise Doomed(QUOTES)
    raise Wanted
