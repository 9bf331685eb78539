"""Takes the libraries that a gate proves into this clone, so that a crate can be checked here hours sooner: `borrow.py COPY LOG`.

COPY is the folder in which the gate's `rt ci` proves a copy of a repository, and LOG what it prints. Taken is each crate that LOG says is proved and whose text is
the same there and here, as are those below it; run it again as more are proved. The files are linked, not copied.

It is for work at hand alone: a library that was taken so counts as proved for `rt check` and `rt lib` in this clone. The gate takes none: `rt ci` sets aside what `out/` holds."""

import filecmp
import os
import sys

from following import proved_in
from kit import Kit, NoKit

ROOT = os.path.dirname(os.path.dirname(os.path.abspath(__file__)))


def files_in(folder):
    """The files in a folder and in those below it."""
    return sorted(os.path.relpath(os.path.join(at, it), folder) for at, _, files in os.walk(folder) for it in files)


def is_same(one, other):
    """Whether two folders hold the same files."""
    files = files_in(one)
    return files == files_in(other) and all(filecmp.cmp(os.path.join(one, it), os.path.join(other, it), shallow=False) for it in files)


def proved_by(log):
    """The names of the crates that this log of rt ci says are proved."""
    with open(log, encoding="utf-8", errors="replace") as lines:
        return {proved_in(it) for it in lines} - {None}


def borrowed(crates, copy, proved):
    """The names of the crates, lowest first, that stand here as they are proved there; each is taken where this clone hasn't proved it."""
    taken = []
    for crate in crates:
        there = os.path.join(copy, "crates", crate.name)
        if not crate.is_library() or crate.name not in proved or not {it.name for it in crate.below} <= set(taken):
            continue
        if all(is_same(os.path.join(there, part), os.path.join(crate.folder, part)) for part in crate.parts()):
            taken.append(crate.name)
            if not crate.is_proved():
                crate.take_library(there)
    return taken


def main(words):
    if len(words) != 2:
        print(__doc__)
        return 2
    try:
        crates = Kit().crates(ROOT)
    except NoKit as error:
        print(f"borrow: {error}")
        return 1
    taken = borrowed(crates, words[0], proved_by(words[1]))
    print(*taken)
    print(f"{len(taken)} of {len(crates)} crates stand here as they are proved there")
    return 0


if __name__ == "__main__":
    sys.exit(main(sys.argv[1:]))
