"""Which keys a pattern finds."""

import random
import re
import unittest

from tests.support.program import request, run
from tests.support.rehearsal import Rehearsing, asked, effect
from tests.support.replies import NONE, OK, array

# how many bytes a key has, and a pattern half of them, so that no run ends in time in which each place is tried by itself (140 s)
LONG = 393_216


def drawn_pattern(draw):
    """A pattern of a few parts for keys of `a` and `b`, and the regular expression that says the same."""
    parts = [("a", "a"), ("b", "b"), ("?", "."), ("[ab]", "[ab]"), ("[^a]", "[^a]"), ("[b-a]", "[a-b]"), ("\\a", "a"), ("*", ".*")]
    chosen = [draw.choice(parts) for _ in range(draw.randrange(1, 12))]
    return "".join(part for part, _ in chosen), "".join(said for _, said in chosen)


class Patterns(Rehearsing):
    def finds(self, rows):
        """Each pattern, a key, and whether it finds the key where that is the only one."""
        calls = []
        for pattern, key, wanted in rows:
            calls.append(("give " + effect("SET", key, "v").hex(), "applied"))
            calls.append((asked("KEYS", pattern), "replied " + (array(key) if wanted else NONE).hex()))
            calls.append(("give " + effect("FLUSHALL").hex(), "applied"))
        self.rehearses(calls)

    def test_bytes_that_stand_for_themselves(self):
        self.finds([
            ("", "", True),
            ("", "a", False),
            ("abc", "abc", True),
            ("abc", "ab", False),
            ("abc", "abcd", False),
            ("abc", "aBc", False),
            ("a]^-", "a]^-", True),
        ])

    def test_any_bytes(self):
        self.finds([
            ("*", "", True),
            ("*", "abc", True),
            ("a*c", "ac", True),
            ("a*c", "abbc", True),
            ("a*c", "abcd", False),
            ("a**c", "abc", True),
            ("*b*", "abc", True),
            ("*b*", "ac", False),
            ("*ab", "aab", True),
            ("*aab*b", "aaabab", True),
            ("a*b*c", "a-b-b-c", True),
            ("a*b*c", "a-c-b", False),
        ])

    def test_one_byte(self):
        self.finds([
            ("?", "x", True),
            ("?", "", False),
            ("?", "xy", False),
            ("a?c", "abc", True),
            ("a?c", "ac", False),
            ("?*?", "a", False),
            ("?*?", "ab", True),
            ("??", "é", True),
        ])

    def test_classes(self):
        self.finds([
            ("h[ae]llo", "hello", True),
            ("h[ae]llo", "hillo", False),
            ("h[ae]llo", "hllo", False),
            ("[a-c]", "b", True),
            ("[a-c]", "d", False),
            ("[a-c]", "", False),
            ("[z-a]", "m", True),
            ("[^a-c]", "d", True),
            ("[^a-c]", "b", False),
            ("[^a-c]", "", False),
            ("[a^]", "^", True),
            ("*[0-9]", "a12", True),
        ])

    def test_empty_and_unclosed_classes(self):
        self.finds([
            ("x[]", "x", False),
            ("[]", "a", False),
            ("[]a]", "a]", False),
            ("[^]", "a", True),
            ("[^]", "", False),
            ("[^]b", "ab", True),
            ("[", "[", False),
            ("[^", "a", True),
            ("[ab", "b", True),
            ("[ab", "c", False),
            ("[a-c", "b", True),
            ("[a*", "*", True),
            ("[a*", "ab", False),
        ])

    def test_hyphens(self):
        self.finds([
            ("[-a]", "-", True),
            ("[a-]", "-", True),
            ("[a-]", "b", False),
            ("[a-", "-", True),
            ("[--a]", "0", True),
            ("[a-c-e]", "b", True),
            ("[a-c-e]", "d", False),
            ("[a-c-e]", "-", True),
            ("[a-c-e]", "e", True),
            ("[a\\-c]", "b", False),
            ("[a\\-c]", "-", True),
        ])

    def test_bytes_that_are_taken(self):
        self.finds([
            ("\\*", "*", True),
            ("\\*", "a", False),
            ("\\[a]", "[a]", True),
            ("\\a", "a", True),
            ("\\\\", "\\", True),
            ("a\\", "a\\", True),
            ("a\\", "a", False),
        ])

    def test_bytes_that_are_taken_in_classes(self):
        self.finds([
            ("[\\]]", "]", True),
            ("[a\\]b]", "b", True),
            ("[a\\]b]", "ab]", False),
            ("[\\^a]", "^", True),
            ("[\\^a]", "b", False),
            ("[\\a-c]", "b", True),
            ("[a-\\c]", "b", True),
            ("[a-\\]]", "_", True),
            ("[\\", "\\", True),
            ("[a-\\", "]", True),
        ])

    def test_a_long_key_is_told_at_once(self):
        name = 10_000 * "a"
        self.finds([("a*a*a*a*a*b", name, False), ("a*a*a*a*a*", name, True), ("a*a*a*a*a*b", name + "b", True)])

    def test_places_in_a_long_key(self):
        parts = [("b", "b", "a"), ("bcd", "bcd", "bce"), ("b?d", "bcd", "bc-"), ("[a-c]z", "bz", "dz"), ("[^x]y", "ay", "xy"), ("\\*q", "*q", "aq")]
        rows = []
        for place in (0, 1, 62, 63, 64, 65, 127, 128, 129):
            front = place * "-"
            for part, taken, other in parts:
                for behind in ("", 3 * "-", 70 * "-"):
                    rows.append((f"*{part}*", front + taken + behind, True))
                    rows.append((f"*{part}*", front + other + behind, False))
                rows.append((f"*{part}", front + taken, True))
                rows.append((f"*{part}", front + taken + "-", False))
        self.finds(rows)

    def test_drawn_patterns_find_what_regular_expressions_do(self):
        draw, rows = random.Random(20), []
        for _ in range(400):
            pattern, said = drawn_pattern(draw)
            key = "".join(draw.choice("ab") for _ in range(draw.choice((3, 63, 64, 65, 100, 130))))
            rows.append((pattern, key, re.fullmatch(said, key) is not None))
        self.assertEqual({wanted for _, _, wanted in rows}, {False, True})
        self.finds(rows)

    def test_a_long_pattern_is_told_in_time(self):
        for form in ("*%sb*", "*%sb", "*?%sb*", "*[a-c]%sb*"):
            pattern = form % (LONG // 2 * "a")
            with self.subTest(form=form):
                ran = run(request("SET", LONG * "a", "v") + request("KEYS", pattern), "pipe")
                self.assertEqual((ran.returncode, ran.stdout), (0, OK + NONE))


if __name__ == "__main__":
    unittest.main()
