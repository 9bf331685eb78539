"""What a check of an edited crate says, read for the reasons for which it refuses each function."""

import re
from dataclasses import dataclass
from enum import Enum

# the line of a function, or of a type's or an impl's laws, as `fn mr_glob::pattern::past: no proof: ..`
LINE = re.compile(r"^(?:fn|struct|enum|trait|impl) (\S+?): (proved|not proved|no proof|could not tell)\b(.*)")
GOAL = re.compile(r"`search` did not prove (`[^`]*`)")
# what a function's line says where a part of its proof is missing, or where the function isn't treated
WANTING = re.compile(r"not cover|expected a measure|expected an invariant|cannot be proved yet|expected a proof")
# the reason of another function, and what is said beside a reason of one's own
CALLS = re.compile(r"it calls .*?, which (?:is|are) not proved")
NOTE = re.compile(r"^note: (src/\S+):(\d+):\d+: (it is not proved that .*)")
ERROR = re.compile(r"^(?:\./)?(\S+?):\d+:\d+: error(?:\[[\w-]+\])?: (.*)")
PROOF = re.compile(r"proofs/(\S+)/(?:Answers|Invariants|Proof)\.antt")
# an error that only says that a name in a proof is gone, and not that something is false
GONE = re.compile(r"has no field|is not in scope|has no `|was not admitted")
NO_FUNCTION = re.compile(r"^rattle: error: .* has no function `([^`]*)`", re.M)
# the last line of a check that reached the prover and judged
LAST = ("logic=", "only=")


class Strength(Enum):
    """How much a reason says of a contract."""

    WANTING = 0
    NAMES = 1
    GOAL = 2


@dataclass
class Reason:
    """Why a function is refused, or a type's laws; with no name, why something outside of functions is."""

    function: str
    text: str
    strength: Strength
    path: str = ""


class Answer:
    """What a check of the crate says with these texts in place of its own, where it was asked for these functions, or for all."""

    def __init__(self, crate, sources, status, said, texts, only):
        self.name, self.sources, self.texts, self.only = crate.name, sources, texts, only
        self.status, self.lines = status, said.rstrip("\n").split("\n")
        self.last = self.lines[-1]
        self.reached = status in (0, 1) and self.last.startswith(LAST) and not crate.kit.is_stale(said)
        # the name that was asked for and that the prover doesn't know
        self.unknown = next(iter(NO_FUNCTION.findall(said)), None)
        self.unread = next((it[:200] for it in self.lines if crate.kit.cannot_read(it, texts)), "")
        self.functions = {it.name: it for it in sources.everywhere()}
        self.reasons, self.errors, self.unclear = [], [], []
        for line in self.lines:
            self.read(line)

    def read(self, line):
        note, of_function, error = NOTE.match(line), LINE.match(line), ERROR.match(line)
        if note:
            self.reasons.append(Reason(self.function_at(note[1], int(note[2]) - 1), note[3], Strength.GOAL))
        elif of_function and of_function[1].startswith(f"{self.name}::"):
            self.read_function(self.owner_of(of_function[1][len(self.name) + 2 :]), of_function[2], of_function[3], line)
        elif error:
            self.read_error(*error.groups(), line)

    def read_function(self, name, word, why, line):
        goal = GOAL.search(why)
        if word == "could not tell":
            self.unclear.append(line)
        elif word != "proved" and goal:
            self.reasons.append(Reason(name, f"open: {goal[1]}", Strength.GOAL))
        elif word != "proved" and WANTING.search(CALLS.sub("", why)):
            self.reasons.append(Reason(name, f"{word}{why}", Strength.WANTING))

    def read_error(self, path, text, line):
        inside = PROOF.fullmatch(path)
        strength = Strength.NAMES if GONE.search(text) else Strength.GOAL
        if inside:
            self.reasons += [Reason(it, text, strength, path) for it in self.proved_in(inside[1])]
        else:
            self.errors.append(Reason("", f"{path}: {text}", strength, path))
            self.unclear.append(line)

    def function_at(self, path, row):
        """The function that has this row of a file, or no name."""
        functions = self.sources.functions(path, self.texts.get(path)) if path in self.sources.texts else []
        return next((it.name for it in functions if it.holds(row)), "")

    def owner_of(self, name):
        """The function in which a closure stands, as `a::T::f` for `a::fn::T::f::map+FnMut::call_mut`; any other name as it is."""
        if "::fn::" not in f"::{name}":
            return name
        flat = f"::{name}".replace("::fn::", "::")[2:]
        owners = [it for it in self.functions if flat.startswith(f"{it}::")]
        return max(owners, key=len, default=name)

    def proved_in(self, folder):
        """The functions whose proof lies in a folder of proofs/: one, or those that call each other, whose folder begins with +."""
        name = folder.replace("/", "::").replace("::+", "::").removeprefix("+")
        if name in self.functions or "+" not in folder:
            return [name]
        cycle = name.rpartition("::")[2]
        return [it.name for it in self.functions.values() if it.cycle == cycle] or [name]

    def why_unclear(self):
        """Why this check of several edits tells nothing of any of them, or an empty text."""
        if not self.reached:
            return f"it ends in {self.last!r}"
        beyond = next((f"{it.function}: {it.text}" for it in self.reasons if it.function not in self.only), "")
        return self.unread or next(iter(self.unclear), "") or beyond

    def first_error(self):
        return next((it for it in self.lines if "error" in it), self.last)[:200]

    def errors_in(self, paths):
        """The errors in these files."""
        return [it for it in self.errors if it.path in paths]
