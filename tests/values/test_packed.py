"""Short strings in one piece of memory, and pairs of them, beside plain lists: each call, and at the lengths and counts at which its work changes."""

import random
import unittest

from tests.support.values import Playing, spelled

# a string has so many bytes at most
LONGEST = 255
# so many strings are gone back over from one mark
STRETCH = 16


def words(strings):
    return "".join(" " + spelled(string) for string in strings)


def shows(strings, count):
    return "shows %d%s%s" % (count, words(strings), "" if count else " empty")


def ends(strings):
    """One from the front and two from the back, in turn."""
    left, taken = list(strings), []
    for turn in range(len(strings)):
        taken.append(left.pop(0) if turn % 3 == 0 else left.pop())
    return "ends" + words(taken)


def found(strings, string, step):
    places = [at for at in range(0, len(strings), step) if strings[at] == string]
    return "at %d" % places[0] if places else "none"


def order(one, other):
    return "less" if one < other else "equal" if one == other else "greater"


class Runs(Playing):
    def test_strings_of_each_length_are_kept(self):
        strings = [bytes([n % 256]) * n for n in (0, 1, 2, 63, 64, 127, 128, 254, LONGEST)]
        self.plays("packed", [
            *[("push " + spelled(string), "put") for string in strings],
            ("shows", shows(strings, len(strings))),
            *[("at %d" % at, "string" + words([string])) for at, string in enumerate(strings)],
            ("back", "back" + words(strings[::-1])),
        ])

    def test_a_value_is_not_found_as_a_field(self):
        self.plays("packed", [
            *[("push " + spelled(string), "put") for string in ("b", "a", "a", "b")],
            ("find %s 2" % spelled("a"), "at 2"),
            ("find %s 1" % spelled("a"), "at 1"),
            ("find %s 3" % spelled("b"), "at 0"),
            ("find %s 2" % spelled("c"), "none"),
        ])

    def test_bytes_that_spell_strings_are_not_taken_for_them(self):
        """A string whose bytes are a length and a string."""
        inner, outer = b"ab", b"\x02ab"
        self.plays("packed", [
            ("push " + spelled(outer), "put"),
            ("push " + spelled(inner), "put"),
            ("find %s 1" % spelled(inner), "at 1"),
            ("is 0 " + spelled(inner), "is not"),
            ("is 0 " + spelled(outer), "is"),
            ("remove 0", "dropped"),
            ("shows", shows([inner], 1)),
        ])

    def test_they_are_gone_over_from_both_ends(self):
        for count in (0, 1, STRETCH - 1, STRETCH, STRETCH + 1, 2 * STRETCH + 1, 200):
            strings = [b"%d" % n * (n % 5) for n in range(count)]
            self.plays("packed", [
                *[("push " + spelled(string), "put") for string in strings],
                ("shows", shows(strings, count)),
                ("back", "back" + words(strings[::-1])),
                ("ends", ends(strings)),
            ])

    def test_random_calls_are_those_of_lists(self):
        for seed in range(10):
            with self.subTest(seed=seed):
                self.plays("packed", self.calls(random.Random(seed)))

    def calls(self, drawn):
        """Calls on two runs, with what they answer by two plain lists."""
        run, other, steps = [], [], []

        def string():
            most = drawn.choice((0, 1, 1, 2, 2, 3, 3, 20, 20, drawn.choice((254, LONGEST))))
            return bytes(drawn.choice(b"ab\x00\x02\xff") for _ in range(most))

        for _ in range(100):
            at, one, two = drawn.randint(0, len(run)), string(), string()
            within = at < len(run)
            last = drawn.randint(at, len(run))
            to = drawn.randint(0, len(other))
            from_ = drawn.randint(0, to)
            kind = drawn.choice(["push", "front", "insert", "two", "replace", "replace", "remove", "drop", "swap", "append", "part", "at", "is", "order", "find"])
            if kind == "push":
                run.append(one)
                steps.append(("push " + spelled(one), "put"))
            elif kind == "front":
                run.insert(0, one)
                steps.append(("front " + spelled(one), "put"))
            elif kind == "insert":
                run.insert(at, one)
                steps.append(("insert %d %s" % (at, spelled(one)), "put"))
            elif kind == "two":
                run[at:at] = [one, two]
                steps.append(("two %d %s %s" % (at, spelled(one), spelled(two)), "put"))
            elif kind == "replace" and within:
                one = drawn.choice([one, run[at][::-1], run[at][1:], run[at][:LONGEST - 1] + b"z"])
                run[at] = one
                steps.append(("replace %d %s" % (at, spelled(one)), "put"))
            elif kind == "remove" and within:
                del run[at]
                steps.append(("remove %d" % at, "dropped"))
            elif kind == "drop":
                del run[at:last]
                steps.append(("drop %d %d" % (at, last), "dropped"))
            elif kind == "swap":
                run, other = other, run
                steps.append(("swap", "swapped"))
            elif kind == "append" and len(run) + len(other) < 60:
                run += other
                steps.append(("append", "put"))
            elif kind == "part" and len(run) + to < 60:
                run += other[from_:to]
                steps.append(("part %d %d" % (from_, to), "put"))
            elif kind == "at" and within:
                steps.append(("at %d" % at, "string" + words([run[at]])))
            elif kind == "is" and within:
                one = drawn.choice([one, run[at]])
                steps.append(("is %d %s" % (at, spelled(one)), "is" if run[at] == one else "is not"))
            elif kind == "order" and within:
                one = drawn.choice([one, run[at], run[at][:-1], run[at] + b"a"])
                steps.append(("order %d %s" % (at, spelled(one)), order(run[at], one)))
            elif kind == "find":
                one, step = drawn.choice([one, *run]), drawn.randint(1, 3)
                steps.append(("find %s %d" % (spelled(one), step), found(run, one, step)))
            steps.append(("shows", shows(run, len(run))))
            if run:
                steps += [("first", "string" + words(run[:1])), ("last", "string" + words(run[-1:]))]
            steps += [("back", "back" + words(run[::-1])), ("ends", ends(run))]
        return steps


class Pairs(Playing):
    def test_random_calls_are_those_of_a_list_of_pairs(self):
        for seed in range(8):
            with self.subTest(seed=seed):
                self.plays("pairs", self.calls(random.Random(seed)))

    def calls(self, drawn):
        """A field's value is set where it stands or comes in byte order, read and removed, as a hash does it."""
        held, steps = {}, []
        for _ in range(100):
            name = bytes(drawn.choice(b"abc\xff") for _ in range(drawn.choice((0, 1, 2, 2, 64, LONGEST))))
            value = bytes(drawn.choice(b"abc") for _ in range(drawn.choice((0, 1, 2, 3, 64, LONGEST))))
            names = sorted(held)
            at = sum(other < name for other in names)
            steps.append(("find " + spelled(name), "at %d" % at if name in held else "none"))
            steps.append(("seek " + spelled(name), "%s %d" % ("at" if name in held else "before", at)))
            if name in held and drawn.random() < 0.4:
                del held[name]
                steps.append(("remove %d" % at, "dropped"))
            elif name in held:
                held[name] = value
                steps.append(("replace %d %s" % (at, spelled(value)), "put"))
            else:
                held[name] = value
                steps.append(("insert %d %s %s" % (at, spelled(name), spelled(value)), "put"))
            if name in held:
                steps.append(("at %d" % at, "pair" + words([name, value])))
            pairs = [(name, held[name]) for name in sorted(held)]
            steps.append(("shows", shows([string for pair in pairs for string in pair], len(pairs))))
            steps.append(("back", "back" + words([string for pair in pairs[::-1] for string in pair])))
        return steps


if __name__ == "__main__":
    unittest.main()
