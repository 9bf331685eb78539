"""Compares what `rt must-fail` and `tests/edits.py` said of each edit: `compare_edits.py LOG_OF_RT LOG_OF_EDITS`, where either may be a log of a whole gate.

It prints the edits of which the two say different things, and a table of how many there are of each kind. The status is 1 where an edit
that one refuses isn't refused by the other, or was tried by one alone."""

import re
import sys
from collections import Counter

BY_RT = re.compile(r"rt: must-fail (\S+?\.edit): (.*)")
BY_EDITS = re.compile(r"(refused|NOT REFUSED|BAD EDIT) (\S+?\.edit)(.*)")
REFUSED, WEAKLY, NOT, BAD = "refused", "refused, by no goal of its contract", "not refused", "bad edit"


def kind_by_rt(said):
    if said.startswith("refused"):
        # rt names the first reason behind a colon; where there is none, a function isn't treated
        return WEAKLY if "only because a proof file" in said or not re.match(r"refused, as it must be: ", said) else REFUSED
    return NOT if said.startswith("NOT REFUSED") else BAD


def kind_by_edits(word, said):
    if word == "refused":
        return WEAKLY if "so it says little" in said else REFUSED
    return NOT if word == "NOT REFUSED" else BAD


def read(file):
    with open(file, encoding="utf-8", errors="replace") as it:
        return it.read()


def of_rt(text):
    return {name: (kind_by_rt(said), said) for name, said in BY_RT.findall(text)}


def of_edits(text):
    return {name: (kind_by_edits(word, said), said) for word, name, said in BY_EDITS.findall(text)}


def compare(by_rt, by_edits):
    """Returns the lines to print, and whether each edit was tried by both and passes with both, or with neither."""
    lines, kinds, well = [], Counter(), by_rt.keys() == by_edits.keys()
    for name in sorted(by_rt.keys() | by_edits.keys()):
        one, other = by_rt.get(name, ("not tried", "")), by_edits.get(name, ("not tried", ""))
        kinds[one[0], other[0]] += 1
        passes = [it[0] in (REFUSED, WEAKLY) for it in (one, other)]
        well = well and passes[0] == passes[1]
        if one[0] != other[0]:
            lines += [f"{name}:", f"  rt must-fail: {one[0]}: {one[1][:200]}", f"  edits.py:     {other[0]}: {other[1][:200]}"]
    lines += ["", "| `rt must-fail` | `tests/edits.py` | edits |", "|---|---|---|"]
    lines += [f"| {one} | {other} | {count} |" for (one, other), count in kinds.most_common()]
    return lines, well


def main(files):
    if len(files) != 2:
        print(__doc__)
        return 2
    lines, well = compare(of_rt(read(files[0])), of_edits(read(files[1])))
    print(*lines, sep="\n")
    return 0 if well else 1


if __name__ == "__main__":
    sys.exit(main(sys.argv[1:]))
