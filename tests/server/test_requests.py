"""Requests on standard input, and the replies on standard output."""

import unittest

from tests.support.program import request, run, run_in_pieces
from tests.support.replies import BULK_LENGTH, COUNT, OK, array, bulk, number

SET_THEN_GET = b"*3\r\n$3\r\nSET\r\n$1\r\nk\r\n$1\r\nv\r\n*2\r\n$3\r\nGET\r\n$1\r\nk\r\n"
OK_THEN_VALUE = b"+OK\r\n$1\r\nv\r\n"
PING = b"*1\r\n$4\r\nPING\r\n"


class Requests(unittest.TestCase):
    def answers(self, ran, wanted):
        self.assertEqual((ran.returncode, ran.stdout, ran.stderr), (0, wanted, b""))

    def test_a_key_is_set_and_got(self):
        self.answers(run(SET_THEN_GET, "pipe"), OK_THEN_VALUE)

    def test_no_words_are_pipe(self):
        self.answers(run(SET_THEN_GET), OK_THEN_VALUE)

    def test_one_byte_at_a_time(self):
        self.answers(run_in_pieces([bytes([byte]) for byte in SET_THEN_GET], "pipe"), OK_THEN_VALUE)

    def test_each_cut_in_two_pieces(self):
        for cut in range(len(SET_THEN_GET) + 1):
            with self.subTest(cut=cut):
                pieces = [SET_THEN_GET[:cut], SET_THEN_GET[cut:]]
                self.answers(run_in_pieces([it for it in pieces if it], "pipe"), OK_THEN_VALUE)

    def test_each_cut_of_a_fault_in_two_pieces(self):
        text = PING + b"*1\r\n$-5\r\n" + PING
        for cut in range(1, len(text)):
            with self.subTest(cut=cut):
                self.answers(run_in_pieces([text[:cut], text[cut:]], "pipe"), b"+PONG\r\n" + BULK_LENGTH)

    def test_a_key_is_deleted_once(self):
        asked = request("SET", "k", "v") + 2 * request("DEL", "k") + request("GET", "k")
        self.answers(run(asked, "pipe"), b"+OK\r\n:1\r\n:0\r\n$-1\r\n")

    def test_values_are_bytes(self):
        value = bytes(range(256)) + b"\r\n"
        asked = request("SET", "k", value) + request("GET", "k") + request("SET", "", "") + request("GET", "")
        self.answers(run(asked, "pipe"), b"+OK\r\n$258\r\n" + value + b"\r\n+OK\r\n$0\r\n\r\n")

    def test_keys_of_any_length(self):
        names = ["seven bytes at a time"[:end] for end in range(22)]
        asked = b"".join(request("SET", it, it) for it in names) + request("MGET", *names, 21 * "\0")
        self.answers(run(asked, "pipe"), 22 * OK + array(*names, None))

    def test_bytes_are_ordered_without_a_sign(self):
        added, in_order = [b"b", b"ab", b"\xff", b"", b"a"], [b"", b"a", b"ab", b"b", b"\xff"]
        asked = request("SADD", "s", *added) + request("SMEMBERS", "s") + request("DEL", "s")
        asked += request("MSET", *(it for key in added for it in (key, "v"))) + request("KEYS", "*")
        self.answers(run(asked, "pipe"), number(5) + array(*in_order) + number(1) + OK + array(*in_order))

    def test_command_names_in_any_case(self):
        asked = request("set", "k", "v") + request("gEt", "k") + request("Ping")
        self.answers(run(asked, "pipe"), b"+OK\r\n$1\r\nv\r\n+PONG\r\n")

    def test_empty_requests_have_no_reply(self):
        self.answers(run(b"*0\r\n*-1\r\n" + PING, "pipe"), b"+PONG\r\n")

    def test_no_input_has_no_reply(self):
        self.answers(run(b"", "pipe"), b"")

    def test_an_unread_rest_is_dropped(self):
        for cut in range(1, len(PING)):
            with self.subTest(cut=cut):
                self.answers(run(PING + PING[:cut], "pipe"), b"+PONG\r\n")

    def test_many_requests_in_one_stream(self):
        asked = b"".join(request("SET", f"k{n}", f"v{n}") + request("GET", f"k{n}") for n in range(3000))
        wanted = b"".join(b"+OK\r\n$%d\r\nv%d\r\n" % (len(f"v{n}"), n) for n in range(3000))
        self.answers(run(asked, "pipe"), wanted)

    def test_a_value_longer_than_a_piece(self):
        value = bytes(n * n % 251 for n in range(300_000))
        asked = request("SET", "k", value) + request("GET", "k") + PING
        self.answers(run(asked, "pipe"), b"+OK\r\n$300000\r\n" + value + b"\r\n+PONG\r\n")


class Lines(unittest.TestCase):
    """Requests on a line of their own."""

    def answers(self, asked, wanted):
        for ran in (run(asked, "pipe"), run_in_pieces([bytes([byte]) for byte in asked], "pipe")):
            self.assertEqual((ran.returncode, ran.stdout, ran.stderr), (0, wanted, b""))

    def test_a_line_is_a_request(self):
        self.answers(b"PING\r\nping\n", b"+PONG\r\n+PONG\r\n")

    def test_quotes_are_read(self):
        asked = b"SET \"a b\" 'x\\'y'\r\n" + request("GET", "a b") + b'GET "a\\x20b"\n'
        self.answers(asked, b"+OK\r\n" + 2 * b"$3\r\nx'y\r\n")

    def test_what_quotes_and_escapes_mean(self):
        for line, word in (
            (b'"\\x41\\n\\\\\\q"\n', b"A\n\\q"),
            (b'"\\x4\\xg1\\r\\t\\"\\xfF"\n', b'x4xg1\r\t"\xff'),
            (b'""\n', b""),
            (b"''\n", b""),
            (b'ab"c d"\r\n', b"abc d"),
            (b"e'f'\r\n", b"ef"),
            (b"'a\\nb\\\\c'\n", b"a\\nb\\\\c"),
            (b"d\\n\n", b"d\\n"),
            (b"\\x41\n", b"\\x41"),
            (b'"\\a\\b"\n', b"ab"),
            (b"\0\n", b"\0"),
            (b"a\0b\n", b"a\0b"),
            (b"*\n", b"*"),
        ):
            with self.subTest(line=line):
                self.answers(b"ECHO " + line, bulk(word))
        self.answers(b" \tECHO \x0b\x0ckey \n", bulk("key"))
        self.answers(b"MGET a\x0bb\x0cc \"d\x0be\x0c\"\n", array(None, None, None, None))
        self.answers(b"MGET \"a \\x41\" 'b\\'c' d\r\n", array(None, None, None))

    def test_blank_lines_have_no_reply(self):
        self.answers(b"*0\r\n\r\n*-1\r\n \t\nPING\r\n", b"+PONG\r\n")

    def test_both_forms_in_one_stream(self):
        self.answers(request("SET", "k", "v") + b"GET k\r\n" + PING, OK_THEN_VALUE + b"+PONG\r\n")

    def test_the_longest_line(self):
        ran = run(65_536 * b"x" + b"\n" + PING, "pipe")
        self.assertEqual((ran.returncode, ran.stdout), (0, b"-ERR unknown command\r\n+PONG\r\n"))
        ran = run(b'"' + 65_534 * b"x" + b'"\n' + PING, "pipe")
        self.assertEqual((ran.returncode, ran.stdout), (0, b"-ERR unknown command\r\n+PONG\r\n"))

    def test_a_line_that_may_still_end_waits(self):
        most = b'"' + 65_534 * b"x"
        for line in (b'"a', b'"a"', 65_536 * b"x", most, most + b'"', most[:-2] + b"\\"):
            with self.subTest(line=line[:8]):
                ran = run(line, "pipe")
                self.assertEqual((ran.returncode, ran.stdout), (0, b""))


class Faults(unittest.TestCase):
    """A text that no bytes can make a request is answered once, and what follows is never read."""

    def refuses(self, asked, wanted):
        for rest in (b"", PING, 100_000 * PING):
            ran = run(asked + rest, "pipe")
            self.assertEqual((ran.returncode, ran.stdout, ran.stderr), (0, wanted, b""))

    def test_a_bulk_length_below_zero(self):
        self.refuses(b"*1\r\n$-5\r\n", BULK_LENGTH)

    def test_a_word_that_does_not_end_where_it_should(self):
        self.refuses(b"*2\r\n$3\r\nGET\r\n$1\r\nkXY", BULK_LENGTH)

    def test_another_byte_in_the_place_of_a_dollar(self):
        self.refuses(b"*1\r\n:3\r\n", b"-ERR Protocol error: expected '$', got ':'\r\n")
        self.refuses(b"*1\r\n\x07", b"-ERR Protocol error: expected '$', got '?'\r\n")

    def test_a_count_of_words_that_is_none(self):
        for count in (b"*-2\r\n", b"*x\r\n", b"*01\r\n", b"*\r\n", b"*1048577\r\n"):
            with self.subTest(count=count):
                self.refuses(count, COUNT)

    def test_a_word_of_the_limit_is_waited_for(self):
        self.assertEqual(run(b"*2\r\n$3\r\nGET\r\n$536870912\r\n", "pipe").stdout, b"")

    def test_a_word_past_the_limit(self):
        self.refuses(b"*2\r\n$3\r\nGET\r\n$536870913\r\n", BULK_LENGTH)

    def test_quotes_that_are_not_balanced(self):
        long = b'"' + 65_535 * b"x"
        for line in (b'"a"b', b'GET "a\n', b"GET 'a\n", b'"a\\\n', b"'a\\'\n", long, long[1:] + b'"', long[:-2] + b"\\"):
            with self.subTest(line=line[:8]):
                self.refuses(line, b"-ERR Protocol error: unbalanced quotes in request\r\n")

    def test_a_line_past_the_limit(self):
        for line in (65_537 * b"x", 65_536 * b"x" + b'"', b'"' + 65_534 * b"x" + b'"b'):
            self.refuses(line, b"-ERR Protocol error: too big inline request\r\n")

    def test_a_text_is_doomed_at_its_last_byte(self):
        for text, wanted in (
            (b"*-2", COUNT),
            (b"*01", COUNT),
            (b"*1\rx", COUNT),
            (b"*1048577", COUNT),
            (b"*1\r\n$-", BULK_LENGTH),
            (b"*1\r\n$01", BULK_LENGTH),
            (b"*1\r\n$x", BULK_LENGTH),
            (b"*1\r\n$536870913", BULK_LENGTH),
            (b"*2\r\n$3\r\nGET\r\n$1\r\nkX", BULK_LENGTH),
            (b"*1\r\n:", b"-ERR Protocol error: expected '$', got ':'\r\n"),
            (b"*1\r\n\x01", b"-ERR Protocol error: expected '$', got '?'\r\n"),
        ):
            with self.subTest(text=text):
                self.refuses(text, wanted)
                for end in range(len(text)):
                    self.assertEqual(run(text[:end], "pipe").stdout, b"")


if __name__ == "__main__":
    unittest.main()
