"""What one node says to another before the stream: lines, the answer to PSYNC, offsets."""

import unittest

from tests.support.values import Playing, spelled

# a line has so many bytes before its end at most
LONGEST = 1024
# the greatest offset, and the greatest length
MOST = 2**62
A, B = "a" * 40, "0123456789abcdef" * 2 + "01234567"

# what stands at the front of the input, and what is answered
LINES = [
    ("+OK\r\n", "line 5 status " + spelled("OK")),
    ("+\r\n", "line 3 status -"),
    ("+OK\r\n+OK\r\n", "line 5 status " + spelled("OK")),
    ("-ERR no\r\n", "line 9 refusal " + spelled("ERR no")),
    ("$0\r\n", "line 4 length 0"),
    ("$27\r\n*3\r\n", "line 5 length 27"),
    ("$%d\r\n" % MOST, "line 22 length %d" % MOST),
    ("+" + "x" * (LONGEST - 1) + "\r\n", "line %d status " % (LONGEST + 2) + spelled("x" * (LONGEST - 1))),
    # more is wanted
    ("", "more"),
    ("+", "more"),
    ("+OK", "more"),
    ("+OK\r", "more"),
    ("$2", "more"),
    ("+" + "x" * (LONGEST - 1), "more"),
    ("+" + "x" * (LONGEST - 1) + "\r", "more"),
    # no line begins so
    (":1\r\n", "bad"),
    ("OK\r\n", "bad"),
    ("\r\n", "bad"),
    ("+" + "x" * LONGEST, "bad"),
    ("+OK\n", "bad"),
    ("+OK\rx", "bad"),
    # a length is one number, spelled in one way
    ("$\r\n", "bad"),
    ("$-1\r\n", "bad"),
    ("$+1\r\n", "bad"),
    ("$01\r\n", "bad"),
    ("$1 \r\n", "bad"),
    ("$%d\r\n" % (MOST + 1), "bad"),
]

# what stands behind the mark of the line that answers PSYNC
ANSWERS = [
    ("CONTINUE " + A, "continue " + A),
    ("CONTINUE " + B, "continue " + B),
    ("FULLRESYNC %s 0" % A, "full %s 0" % A),
    ("FULLRESYNC %s 27" % B, "full %s 27" % B),
    ("FULLRESYNC %s %d" % (A, MOST), "full %s %d" % (A, MOST)),
    ("", "no answer"),
    ("OK", "no answer"),
    ("CONTINUE", "no answer"),
    ("CONTINUE ", "no answer"),
    ("CONTINUE " + A[1:], "no answer"),
    ("CONTINUE a" + A, "no answer"),
    ("CONTINUE " + A.upper(), "no answer"),
    ("CONTINUE  " + A, "no answer"),
    ("CONTINUE %s " % A, "no answer"),
    ("CONTINUE %s 27" % A, "no answer"),
    ("FULLRESYNC " + A, "no answer"),
    ("FULLRESYNC %s " % A, "no answer"),
    ("FULLRESYNC %s27" % A, "no answer"),
    ("FULLRESYNC %s  27" % A, "no answer"),
    ("FULLRESYNC %s -1" % A, "no answer"),
    ("FULLRESYNC %s 027" % A, "no answer"),
    ("FULLRESYNC %s %d" % (A, MOST + 1), "no answer"),
    ("FULLRESYNC %s 27" % A[1:], "no answer"),
]

OFFSETS = [
    ("0", "offset 0"),
    ("27", "offset 27"),
    (str(MOST), "offset %d" % MOST),
    *[(text, "no offset") for text in ("", "-", "-0", "-1", "+1", "00", "01", "1x", " 1", str(MOST + 1), str(2**64), "9" * 40)],
]

# what a master says, and the line that says it
WRITTEN = [
    ("full %s 0" % A, "+FULLRESYNC %s 0\r\n" % A),
    ("full %s 27" % B, "+FULLRESYNC %s 27\r\n" % B),
    ("full %s %d" % (A, MOST), "+FULLRESYNC %s %d\r\n" % (A, MOST)),
    ("continue " + A, "+CONTINUE %s\r\n" % A),
    ("continue " + B, "+CONTINUE %s\r\n" % B),
    ("length 0", "$0\r\n"),
    ("length 27", "$27\r\n"),
    ("length %d" % MOST, "$%d\r\n" % MOST),
]


class PeerLines(Playing):
    def plays_on(self, step, rows):
        self.plays("peer", [(step + " " + spelled(text), answer) for text, answer in rows])

    def test_a_line_is_read_where_one_begins_the_input(self):
        self.plays_on("line", LINES)

    def test_an_answer_has_an_id_of_forty_digits(self):
        self.plays_on("answer", ANSWERS)

    def test_an_offset_has_one_spelling(self):
        self.plays_on("offset", OFFSETS)

    def test_a_master_writes_its_lines(self):
        self.plays("peer", [(step, "text " + spelled(line)) for step, line in WRITTEN])


if __name__ == "__main__":
    unittest.main()
