"""Which crates' edits a run of the gate tries. Of those that may have another verdict than they had: as many as it has time for, and the others wait for the next run.
Of those that can't have another: a tenth, by turns. docs/GATE.md says what that leaves open."""

from dataclasses import dataclass
from enum import IntEnum

# a run tries at most so many edits, which take some 90 minutes of processor: the proofs of all crates take 180 beside them
MOST = 400
# in one run of so many the edits of a crate are tried though nothing has changed
TURNS = 10


class Rank(IntEnum):
    """Why the edits of a crate are tried: those with the first reason first."""

    CHANGED = 0
    WAITING = 1
    REACHED = 2
    TURN = 3
    # they aren't
    SAME = 4


@dataclass(frozen=True)
class Left:
    """A crate whose edits a run leaves out. They are due where they may have another verdict than they had, and then the next run tries them."""

    crate: str
    is_due: bool
    says: str


def rank_of(crate, place, landed):
    """What speaks for trying the edits of the crate at this place among all."""
    if not landed.has_own(crate.name):
        return Rank.CHANGED
    if crate.name in landed.waiting:
        return Rank.WAITING
    if landed.anew or not landed.is_same(crate):
        return Rank.REACHED
    return Rank.SAME if runs_until(place, landed.run) else Rank.TURN


def runs_until(place, run):
    """How many runs from this one the crate at this place is tried though it is the same."""
    return (place - run) % TURNS


def past_the_most(counts):
    """Of crates with so many edits each, all of which are due, those for which the run has no time."""
    left, room = [], MOST
    for name, edits in counts:
        if edits <= room:
            room -= edits
        else:
            left.append(waits(name, edits, True))
    return left


def waits(name, edits, is_due):
    """A crate for whose edits this run has no time."""
    return Left(name, is_due, f"its {edits} edits wait for a later run, since one tries at most {MOST}")


def left_out(crates, landed):
    """The crates whose edits this run doesn't try."""
    ranked = sorted((rank_of(it, place, landed), place, it.name) for place, it in enumerate(crates))
    left, room = [], MOST
    for rank, place, name in ranked:
        edits = landed.edits_of(name)
        if rank == Rank.SAME and edits:
            says = f"as it landed with {landed.commit[:7]}, so its {edits} edits have their turn {runs_until(place, landed.run)} runs from now"
            left.append(Left(name, False, says))
        elif edits <= room:
            room -= edits
        else:
            left.append(waits(name, edits, rank != Rank.TURN))
    return left
