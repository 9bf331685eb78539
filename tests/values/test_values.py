"""Values by themselves: calls that no client's request makes, and what no reply tells."""

import subprocess
import unittest

from tests.support.program import LATE, built, request
from tests.support.values import Playing, spelled

# the greatest word has so many bytes
LONGEST = 536_870_912
# the greatest score: a double holds each whole number up to it
MOST_SCORE = 2**53


class Collections(Playing):
    def test_items_are_inserted_beside_an_item(self):
        self.plays("list", [
            ("push " + spelled("b"), "pushed"),
            ("before %s %s" % (spelled("b"), spelled("a")), "inserted"),
            ("after %s %s" % (spelled("b"), spelled("c")), "inserted"),
            ("after %s %s" % (spelled("x"), spelled("c")), "no pivot"),
            ("before %s %s" % (spelled("x"), spelled("c")), "no pivot"),
            ("items", "items " + " ".join(map(spelled, "abc"))),
        ])

    def test_the_first_and_the_last_pair_are_taken(self):
        self.plays("sorted", [
            ("put %s 5" % spelled("a"), "none"),
            ("put %s 3" % spelled("b"), "none"),
            ("put %s 2" % spelled("c"), "none"),
            ("put %s 2" % spelled("b"), "was 3"),
            ("pairs", "pairs 3 %s 5 %s 2 %s 2" % tuple(map(spelled, "abc"))),
            ("min", "taken %s 2" % spelled("b")),
            ("max", "taken %s 5" % spelled("a")),
            ("pairs", "pairs 1 %s 2" % spelled("c")),
            ("max", "taken %s 2" % spelled("c")),
            ("min", "none"),
        ])

    def test_maps_are_empty_at_first(self):
        self.plays("keyed", [("empty", "empty"), ("insert 6b 5", "none"), ("insert 6b 6", "was 5"), ("empty", "not empty")])
        self.plays("slices", [("empty", "empty"), ("insert 5", "none"), ("insert 6", "was 5"), ("empty", "not empty")])


class Links(Playing):
    """A link's id is its place and how many links were opened before it. The first free place is the last one that was freed."""

    def test_an_id_is_not_used_again(self):
        self.plays("links", [
            ("shows", "shows 0 0 empty"),
            ("insert 10", "id 0 0"),
            ("remove 0 0", "was 10"),
            ("remove 0 0", "none"),
            ("insert 20", "id 0 1"),
            ("contains 0 1", "open"),
            ("contains 0 0", "gone"),
            ("get 0 0", "none"),
            ("get 0 1", "was 20"),
            ("shows", "shows 2 1 0 1 20"),
        ])

    def test_a_link_is_changed_in_place(self):
        self.plays("links", [
            ("insert 10", "id 0 0"),
            ("set 0 0 11", "set"),
            ("get 0 0", "was 11"),
            ("replace 0 0 30", "was 11"),
            ("get 0 0", "was 30"),
            ("remove 0 0", "was 30"),
            ("set 0 0 11", "none"),
        ])

    def test_links_are_met_in_the_order_of_their_places(self):
        self.plays("links", [
            *[("insert %d" % link, "id %d %d" % (place, place)) for place, link in enumerate((10, 20, 30))],
            ("remove 0 0", "was 10"),
            ("insert 40", "id 0 3"),
            ("shows", "shows 4 3 0 3 40 1 1 20 2 2 30"),
            ("ids", "ids 0 3 1 1 2 2"),
        ])


class ReplicationIds(Playing):
    def shown(self, digits):
        """An id as it is shown, the bytes of its digits, and its own bytes."""
        return "id %s %s %s" % (digits, spelled(digits), digits) + (" zeros" if set(digits) == {"0"} else "")

    def test_an_id_is_forty_lower_case_digits(self):
        digits = "0123456789abcdef00ff10f00000000000000a09"
        self.plays("id", [("new " + digits, self.shown(digits)), ("read " + digits, self.shown(digits))])
        others = [digits.upper(), digits[:-1], digits + "0", digits[:-1] + "g", "?"]
        self.plays("id", [("read " + other, "no id") for other in others])

    def test_a_number_is_an_id(self):
        numbers = [0, 1, 3, 256, 0x0123_4567_89AB_CDEF, 2**64 - 1]
        self.plays("id", [("number %d" % number, self.shown("%040x" % number)) for number in numbers])
        self.plays("id", [("zeros", self.shown("0" * 40)), ("order 1 256", "less"), ("order 256 1", "not less"), ("order 1 1", "not less")])


class Backlogs(Playing):
    def test_a_full_backlog_drops_its_oldest_bytes(self):
        self.plays("backlog", [
            ("new 8 0", "begun"),
            ("shows", "shows 8 0 1 0 empty"),
            ("push " + spelled("abcdefgh"), "pushed"),
            ("shows", "shows 8 8 1 8"),
            ("push " + spelled("ij"), "pushed"),
            ("shows", "shows 8 8 3 10"),
            ("tail 2", "not held"),
            ("tail 3", "tail " + spelled("cdefghij")),
            ("tail 8", "tail " + spelled("hij")),
            ("tail 10", "tail " + spelled("j")),
            ("tail 11", "tail -"),
            ("tail 12", "not held"),
        ])

    def test_a_piece_longer_than_the_capacity_is_cut(self):
        self.plays("backlog", [
            ("new 3 0", "begun"),
            ("push " + spelled("abcdefgh"), "pushed"),
            ("shows", "shows 3 3 6 8"),
            ("tail 6", "tail " + spelled("fgh")),
        ])

    def test_a_restart_drops_all_bytes(self):
        self.plays("backlog", [
            ("new 8 0", "begun"),
            ("push " + spelled("abc"), "pushed"),
            ("restart 100", "restarted"),
            ("shows", "shows 8 0 101 100 empty"),
            ("push " + spelled("d"), "pushed"),
            ("tail 101", "tail " + spelled("d")),
        ])

    def test_the_ring_holds_the_end_of_the_stream(self):
        """A hundred pieces of many lengths, and all that is held behind each: the end of what was pushed."""
        text, capacity, offset = b"The quick brown fox jumps over the lazy dog", 13, 5
        steps, stream = [("new %d %d" % (capacity, offset), "begun")], b""
        for turn in range(100):
            piece = text[: turn * 7 % 31]
            stream += piece
            end, held = offset + len(stream), stream[-capacity:]
            first = end + 1 - len(held)
            steps.append(("push " + spelled(piece), "pushed"))
            steps.append(("shows", "shows %d %d %d %d" % (capacity, len(held), first, end) + ("" if held else " empty")))
            steps += [("tail %d" % (first + skipped), "tail " + spelled(held[skipped:])) for skipped in range(len(held) + 1)]
        self.plays("backlog", steps)


class Standings(Playing):
    """Under an id, whoever has all bytes before the one asked for goes on, where the backlog holds that byte or it is the next."""

    A, B = "a" * 40, "b" * 40

    def test_a_replica_goes_on_where_its_bytes_are_held(self):
        self.plays("standing", [
            ("stands %s 54 28" % self.A, "stands"),
            ("asks %s 27" % self.A, "full"),
            ("asks %s 28" % self.A, "continue 28"),
            ("asks %s 55" % self.A, "continue 55"),
            ("asks %s 56" % self.A, "full"),
            ("asks %s 28" % self.B, "full"),
            ("asks %s -1" % self.A, "full"),
            ("asks ? -1", "full"),
            ("stands %s 81 55" % self.A, "stands"),
            ("asks %s 28" % self.A, "full"),
        ])

    def test_a_replica_goes_on_under_the_id_before(self):
        self.plays("standing", [
            ("stands %s 54 28" % self.B, "stands"),
            ("second %s 28" % self.A, "stands"),
            ("asks %s 28" % self.A, "continue 28"),
            ("asks %s 29" % self.A, "full"),
            ("asks %s 55" % self.A, "full"),
            ("asks %s 55" % self.B, "continue 55"),
            ("asks cc 28", "full"),
        ])


class Lineages(Playing):
    """A stream that gets another id keeps the one before up to its last byte; a snapshot ends both."""

    A, B, C = "a" * 40, "b" * 40, "c" * 40

    def test_who_stood_at_the_promotion_goes_on(self):
        """A replica that is promoted at 27 writes on under another id."""
        self.plays("lineage", [
            ("new %s 1048576 27" % self.A, "begun"),
            ("shows", "shows %s 27 28" % self.A),
            ("promote " + self.B, "promoted"),
            ("shows", "shows %s 27 28 %s 28" % (self.B, self.A)),
            ("grow " + spelled(request("SET", "k", "w")), "grown"),
            ("shows", "shows %s 54 28 %s 28" % (self.B, self.A)),
            ("asks %s 28" % self.A, "continue 28"),
            ("asks %s 55" % self.A, "full"),
            ("asks %s 55" % self.B, "continue 55"),
        ])

    def test_a_replica_goes_on_as_long_as_the_next_byte_is_held(self):
        """Of a backlog of 27 bytes, by one that was cut off at 27."""
        first, second = request("SET", "k", "w"), request("SET", "k", "x")
        self.plays("lineage", [
            ("new %s 27 27" % self.A, "begun"),
            ("grow " + spelled(first), "grown"),
            ("asks %s 28" % self.A, "continue 28"),
            ("tail 28", "tail " + spelled(first)),
            ("shows", "shows %s 54 28" % self.A),
            ("grow " + spelled(second), "grown"),
            ("asks %s 28" % self.A, "full"),
            ("tail 28", "not held"),
            ("shows", "shows %s 81 55" % self.A),
            ("asks %s 55" % self.A, "continue 55"),
            ("tail 55", "tail " + spelled(second)),
        ])

    def test_who_goes_on_with_a_promoted_replica_knows_both_ids(self):
        """Another replica stood at 27 too and goes on with the promoted one; the second time nothing changes. Then it takes a snapshot."""
        self.plays("lineage", [
            ("new %s 1048576 27" % self.A, "begun"),
            ("continue " + self.B, "continued"),
            ("continue " + self.B, "continued"),
            ("shows", "shows %s 27 28 %s 28" % (self.B, self.A)),
            ("adopt %s 54" % self.A, "adopted"),
            ("shows", "shows %s 54 55" % self.A),
            ("asks %s 28" % self.A, "full"),
        ])


    def test_who_was_promoted_and_obeys_again(self):
        """A master writes to 54 while a replica that stood at 27 is promoted and writes as far. That one obeys the master again: it gets a whole copy, and
        forgets its id. Promoted once more it has the master go on, which stands where it does."""
        grown = ("grow " + spelled(request("SET", "k", "x")), "grown")
        begun = [("new %s 1048576 27" % self.A, "begun")]
        master = [*begun, grown, ("shows", "shows %s 54 28" % self.A), ("asks %s 55" % self.B, "full"), ("asks %s 28" % self.B, "full")]
        replica = [*begun, ("promote " + self.B, "promoted"), grown, ("shows", "shows %s 54 28 %s 28" % (self.B, self.A))]
        replica += [("adopt %s 54" % self.A, "adopted"), ("shows", "shows %s 54 55" % self.A), ("promote " + self.C, "promoted")]
        # the backlog begins anew with the copy
        promoted = [("shows", "shows %s 54 55 %s 55" % (self.C, self.A)), ("asks %s 55" % self.A, "continue 55"), ("tail 55", "tail -")]
        promoted += [("asks %s 56" % self.A, "full"), ("asks %s 54" % self.A, "full"), ("asks %s 55" % self.B, "full"), ("asks %s 55" % self.C, "continue 55")]
        master += [("continue " + self.C, "continued"), ("shows", "shows %s 54 28 %s 55" % (self.C, self.A))]
        self.plays("lineage", [*replica, *promoted], master)


class Requests(Playing):
    def plays_on(self, step, rows):
        self.plays("request", [(step + " " + spelled(data), answer) for data, answer in rows])

    def test_words_without_quotes_are_borrowed(self):
        self.plays_on("kept", [
            (request("GET", "\"'"), "kept bb"),
            ("GET key\n", "kept bb"),
            ("SET \"a b\" key 'x' v\r\n", "kept bobob"),
            ('"SET" key\n', "kept ob"),
            ('k"v" k\n', "kept ob"),
        ])

    def test_a_word_may_have_as_many_bytes_as_leave_room_for_the_others(self):
        self.plays("request", [
            ("limits 8 4 32", "limited"),
            ("next " + spelled("*3\r\n$3\r\nSET\r\n$8"), "word too big"),
            ("next " + spelled("*3\r\n$3\r\nSET\r\n$7"), "more"),
            # beside a line of 4 bytes, a word of n bytes has 25 more: its mark, 20 digits and two line ends
            ("limits %d 1 %d" % (2**64 - 1, 2**64 - 1), "limited"),
            ("next " + spelled("*1\r\n$18446744073709551586"), "more"),
            ("next " + spelled("*1\r\n$18446744073709551587"), "word too big"),
            ("next " + spelled("*1\r\n$18446744073709551616"), "word too big"),
        ])

    def test_a_word_may_have_512_mib(self):
        begun = "*2\r\n$3\r\nGET\r\n$%d\r\n"
        rows = [(begun % LONGEST, "more"), (begun % (LONGEST + 1), "word too big"), (begun[:-2] % (LONGEST + 1), "word too big")]
        for step in ("next", "command"):
            self.plays_on(step, rows)
        # beside the most words that a request may have
        self.plays_on("next", [("*1048576\r\n$%d\r\n" % LONGEST, "more"), ("*1048577", "too many words")])

    def test_limits_have_room_for_empty_words(self):
        # a request of 4 empty words has 28 bytes
        least = len(request("", "", "", ""))
        self.plays("request", [
            ("limits 8 4 %d" % least, "limited"),
            ("limits 8 4 %d" % (least - 1), "no limits"),
            ("limits 0 4 32", "no limits"),
            ("limits 8 0 32", "no limits"),
            ("limits 1 %d %d" % (2**64 - 1, 2**64 - 1), "no limits"),
        ])

    def test_a_request_is_written_in_parts(self):
        ways = ("parts", "push", "write")
        self.plays("request", [("%s %s %s" % (way, spelled("DEL"), spelled("k")), "text " + spelled(request("DEL", "k"))) for way in ways])

    def test_command_texts_are_in_array_form(self):
        self.plays_on("command", [
            (request("DEL", "k") + b"*", "whole 20"),
            ("*", "more"),
            ("*0", "no count"),
            ("*-", "no count"),
            ("PING\r\n", "no count"),
            ("*1\r\n$%d" % (LONGEST + 1), "word too big"),
        ])

    def test_a_line_is_read_alone(self):
        self.plays_on("line 65536", [("GET k\r\nPING", "whole 7"), ("\r\nPING", "skip"), ("GET k", "more"), ('GET "k', "more"), ('GET "k\n', "bad")])
        self.plays_on("line 3", [("PING", "bad")])


class Commands(Playing):
    def test_commands_are_about_keys_collections_or_the_server(self):
        rows = [("TYPE k", "keys"), ("GET k", "keys"), ("HLEN h", "collections"), ("ZCARD z", "collections"), ("ECHO x", "server"), ("PSYNC ? -1", "server"), ("SLAVEOF NO ONE", "server"), ("LEN l", "no command")]
        self.plays("ask", [("group " + spelled(request(*line.split(" "))), answer) for line, answer in rows])

    def test_amounts_are_numbers(self):
        most = 2**63 - 1
        self.plays("ask", [
            ("one", "adds 1"),
            ("minus-one", "adds -1"),
            ("number %d" % most, "adds %d" % most),
            ("opposite %d" % -most, "adds %d" % -most),
        ])

    def test_names_are_shown(self):
        self.plays("ask", [("name ZADD", "name zadd"), ("name zAdd", "name zadd"), ("name ADD", "no name"), *(("name " + it, "name " + it.lower()) for it in ("PSYNC", "ReplConf", "REPLICAOF", "SlaveOf"))])


class Parts(Playing):
    """What effects are made of."""

    def test_lists_give_their_items(self):
        self.plays("part", [
            ("words " + spelled("a"), "list 1 fits 1"),
            ("pairs %s %s" % (spelled("f"), spelled("v")), "list 1 fits 1"),
            ("scores %s 7" % spelled("m"), "list 1 fits within 1"),
            ("scores %s %d" % (spelled("m"), MOST_SCORE), "list 1 fits within 1"),
            ("scores %s %d" % (spelled("m"), -MOST_SCORE - 1), "list 1 fits past 1"),
        ])

    def test_names_have_texts(self):
        names = ["SET", "FLUSHALL", "LTRIM", "SMOVE", "ZADD"]
        self.plays("part", [*[("name " + name, "name " + spelled(name)) for name in names], ("name ltrim", "no name"), ("name SPOP", "no name")])


class Datasets(Playing):
    def test_moments_go_from_0_to_2_to_the_61(self):
        most = 2**64 - 1
        self.plays("dataset", [
            ("given 1000 4", "given 1000 4"),
            ("given 0 %d" % most, "given 0 %d" % most),
            ("given -1 0", "no moment"),
            ("given %d 0" % 2**61, "given %d 0" % 2**61),
            ("given %d 0" % (2**61 + 1), "no moment"),
        ])

    def test_effects_past_their_limits_have_no_spelling_and_are_refused(self):
        """None of them can come from a text. Beside each stands one within the limit, where there is one."""
        refused = "fits unspelled refused refused"
        self.plays("dataset", [
            ("no-texts", refused),
            ("no-members", refused),
            ("no-items", refused),
            ("score %d" % (MOST_SCORE + 1), refused),
            ("score %d" % (-MOST_SCORE - 1), refused),
            ("offset -1", refused),
            ("place -1", refused),
            ("keys", "keys 0 empty"),
            ("score %d" % MOST_SCORE, "fits spelled applied applied"),
            ("offset 0", "fits spelled applied applied"),
            # a place that no list has can be spelled
            ("place 0", "fits spelled refused refused"),
            ("keys", "keys 2 %s %s" % (spelled("k"), spelled("z"))),
        ])

    def test_a_dataset_is_looked_at(self):
        self.plays("dataset", [
            *[("set %s %s" % (spelled(key), spelled("v")), "fits spelled applied applied") for key in ("ab", "", "a")],
            ("keys", "keys 3 - %s %s" % (spelled("a"), spelled("ab"))),
            ("at " + spelled("ab"), "entry value no deadline"),
            ("at " + spelled("b"), "no entry no value no deadline"),
            ("del " + spelled("ab"), "fits spelled applied applied"),
            ("at " + spelled("ab"), "no entry no value no deadline"),
        ])

    def test_a_word_over_the_limit_is_refused(self):
        refused = "too long spelled refused refused"
        long = "00*%d" % (LONGEST + 1)
        self.plays("dataset", [("set %s %s" % (spelled("k"), long), refused), ("del " + long, refused), ("nothing", "applied"), ("keys", "keys 0 empty")])


class Lines(unittest.TestCase):
    def test_a_line_that_is_no_call_is_told(self):
        for line in ("", "list", "list pull", "stack push 61", "list push 6", "backlog new 0 0", "links get 0"):
            ran = subprocess.run([built("rehearse_values")], input=line + "\n", capture_output=True, text=True, timeout=LATE)
            self.assertEqual((ran.returncode, ran.stdout, ran.stderr), (1, "", "rehearse_values: a line is no call\n"), line)


if __name__ == "__main__":
    unittest.main()
