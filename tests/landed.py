"""Which crates' edits can't have another verdict than they had as the main line last landed: `landed.py COMMIT` writes down that this commit has landed.

tests/landed.txt names the commit, the kit that it landed with, the number of the run that comes next, and the crates whose edits wait. A commit lands only where the gate passes on it: so of each
of its edits it is known, from that run or one before, that the prover refuses it, but of those that wait. An edit's verdict rests on its text, on the files of its crate, on what these name of
what the crates below show (tests/reach.py), on the kit and on the scripts that try it. Where all of these are the same, the edits of a crate are tried by turns (tests/turns.py). docs/GATE.md
says what that leaves open."""

import contextlib
import hashlib
import os
import re
import subprocess
import sys
import tempfile

from reach import NAMELESS, differences, pieces_of, spread, words
from sources import without_bodies
from turns import left_out

ROOT = os.path.dirname(os.path.dirname(os.path.abspath(__file__)))
NOTE = os.path.join("tests", "landed.txt")
FIELD = re.compile(r"^(run|commit|kit|waiting): (\S.*)$", re.M)
# what says whether an edit is refused; which are tried is another matter
SCRIPTS = ("tests/edits.py", "tests/answers.py", "tests/sources.py", "tools/kit.py")
SHOWN_PARTS = ("src", "specs", "proofs")
OWN_PARTS = (*SHOWN_PARTS, "must-fail")
# what a row that is a comment begins with
COMMENTS = {".rt": "//", ".antt": "--"}
# the proof of one function, which no other crate can cite
OF_A_FUNCTION = re.compile(r"proofs/.*/(?:Answers|Invariants|Proof)\.antt$")


def git(root, *words):
    """What git prints in a repository, in bytes, or None where it fails or isn't there."""
    try:
        ran = subprocess.run(["git", "-C", root, *words], stdin=subprocess.DEVNULL, capture_output=True)
    except OSError:
        return None
    return None if ran.returncode else ran.stdout


def read(file):
    with open(file, "rb") as it:
        return it.read()


class Landed:
    """The tree that landed last, as git has it in this repository. Make it by `of`."""

    def __init__(self, root, fields, blobs, kit):
        self.root, self.run, self.commit, self.blobs = root, int(fields["run"]), fields["commit"], blobs
        # the crates whose edits weren't tried since their verdicts may be others
        self.waiting = fields.get("waiting", "").split()
        # why any edit may have another verdict, or nothing
        self.anew = f"another kit: {kit}" if fields.get("kit") != kit else next((f"{it} has changed" for it in SCRIPTS if not self.has(it)), "")
        self.listed_then, self.listed_now = self.text("crates.txt"), read(os.path.join(root, "crates.txt")).decode()
        # the names that have changed in a crate, by its name
        self.changed = {}

    @classmethod
    def of(cls, root, kit):
        """The landed tree that the note names, or None, and why none counts: without one, the edits of all crates are due."""
        try:
            fields = dict(FIELD.findall(read(os.path.join(root, NOTE)).decode()))
        except OSError:
            return None, f"there is no {NOTE}"
        run, commit = fields.get("run", ""), fields.get("commit", "")
        if not run.isdigit() or not re.fullmatch(r"[0-9a-f]{40}", commit):
            return None, f"{NOTE} names no run and no commit"
        # what didn't come before this tree says nothing of it
        if git(root, "merge-base", "--is-ancestor", commit, "HEAD") is None:
            return None, f"{commit} isn't in this tree's history here"
        listed = git(root, "ls-tree", "-r", "-z", commit)
        blobs = dict(reversed(it.split("\t", 1)) for it in (listed or b"").decode().split("\0") if it)
        return cls(root, fields, {path: it.split()[2] for path, it in blobs.items()}, kit), ""

    def has(self, path):
        """Whether the file is the same here as it was."""
        file = os.path.join(self.root, path)
        if not os.path.isfile(file):
            return path not in self.blobs
        text = read(file)
        return self.blobs.get(path) == hashlib.sha1(b"blob %d\0" % len(text) + text).hexdigest()

    def text(self, path):
        """The file's text as it was, or nothing where it wasn't there."""
        return (git(self.root, "cat-file", "blob", self.blobs[path]) or b"").decode() if path in self.blobs else ""

    def files(self, name, parts):
        """The files in these folders of a crate, those of today and those of then."""
        folders = [f"crates/{name}/{it}/" for it in parts]
        found = {it for it in self.blobs if it.startswith(tuple(folders))}
        for folder in folders:
            for at, _, names in os.walk(os.path.join(self.root, folder)):
                found |= {os.path.relpath(os.path.join(at, it), self.root) for it in names}
        return sorted(found)

    def has_own(self, name):
        """Whether a crate's files are the same, its edits among them, but for rows that are comments, and the crates that it stands on."""
        same_line = line_of(name, self.listed_then) == line_of(name, self.listed_now)
        return same_line and all(self.has(it) or self.differs_in_comments(it) for it in self.files(name, OWN_PARTS))

    def edits_of(self, name):
        """How many edits a crate has."""
        return sum(it.endswith(".edit") for it in listed(os.path.join(self.root, "crates", name, "must-fail")))

    def differs_in_comments(self, path):
        """Whether a file that has changed has the same rows where they are no comments."""
        mark, (then, now) = COMMENTS.get(os.path.splitext(path)[1]), self.both(path)
        if not mark or then is None or now is None:
            return False
        plain = [[row for row in it.split("\n") if not row.lstrip().startswith(mark)] for it in (then, now)]
        return plain[0] == plain[1]

    def differs_in_bodies(self, path):
        """Whether a file that has changed shows the same to the crates above: all but its functions' bodies and the proofs of these."""
        if OF_A_FUNCTION.search(path):
            return True
        then, now = self.both(path)
        if not path.endswith(".rt") or then is None or now is None:
            return False
        return without_bodies(then) == without_bodies(now)

    def both(self, path):
        """A file's text as it was and as it is. None stands for one that isn't there."""
        file = os.path.join(self.root, path)
        return self.text(path) if path in self.blobs else None, read(file).decode() if os.path.isfile(file) else None

    def changed_in(self, crate):
        """The names in a crate that mean something else than they did, by its own files or by those of the crates below it."""
        if crate.name not in self.changed:
            files = [it for it in self.files(crate.name, SHOWN_PARTS) if not OF_A_FUNCTION.search(it)]
            changed = self.changed_itself(files) | self.changed_below(crate)
            self.changed[crate.name] = spread(changed, self.pieces(files, 1)) if changed else changed
        return self.changed[crate.name]

    def changed_itself(self, files):
        """The names that a crate had and has whose own text has changed: what has come or is gone, no file of another crate that is the same can mean."""
        differ = [differences(it, *self.both(it)) for it in files if not self.has(it) and not self.differs_in_bodies(it)]
        if not differ:
            return set()
        then, now = ({it.first for it in self.pieces(files, which)} for which in (0, 1))
        changed = {it for pieces, _ in differ for it in pieces if it.first in then & now | {NAMELESS}}
        return set().union(*(it.names for it in changed), *(handed_on for _, handed_on in differ))

    def pieces(self, files, which):
        """What files showed (0) or show (1)."""
        texts = [(it, self.both(it)[which]) for it in files]
        return [piece for path, text in texts if text is not None for piece in pieces_of(path, text)[0]]

    def changed_below(self, crate):
        return set().union(*(self.changed_in(it) for it in crate.below))

    def names(self, crate, changed):
        """Whether a file of a crate, a proof or an edit among them, names one of these."""
        if not changed or NAMELESS in changed:
            return bool(changed)
        return any(words(self.both(it)[1] or "") & changed for it in self.files(crate.name, OWN_PARTS))

    def is_same(self, crate):
        """Whether what the verdicts on a crate's edits rest on is the same, but for the kit and the scripts."""
        return self.has_own(crate.name) and not self.names(crate, self.changed_below(crate))


def listed(folder):
    return os.listdir(folder) if os.path.isdir(folder) else []


def line_of(name, listed):
    """What crates.txt says of a crate, or None where it isn't listed there."""
    found = re.search(rf"^{name}\b[^#\n]*", listed, re.M)
    return found and found[0].split()


def write_down(root, commit, kit, waiting=()):
    """Notes that a commit has landed, and which crates' edits weren't tried there though they were due: the next run is one more than the last."""
    fields = dict(FIELD.findall(read(os.path.join(root, NOTE)).decode()))
    rows = [
        "What landed last: its edits were tried but for those that wait, and those of crates that are the same since are tried by turns (docs/GATE.md).",
        f"run: {int(fields['run']) + 1}",
        f"commit: {commit}",
        f"kit: {kit}",
        *([f"waiting: {' '.join(waiting)}"] if waiting else []),
    ]
    with open(os.path.join(root, NOTE), "w", encoding="utf-8") as it:
        it.writelines(f"{row}\n" for row in rows)


@contextlib.contextmanager
def checked_out(root, commit):
    """A folder with the tree of a commit, which has the repository's history."""
    with tempfile.TemporaryDirectory() as room:
        tree = os.path.join(room, "tree")
        subprocess.run(["git", "-C", root, "worktree", "add", "--quiet", "--detach", tree, commit], check=True)
        try:
            yield tree
        finally:
            git(root, "worktree", "remove", "--force", tree)


def waiting_in(tree, crates, kit):
    """The crates whose edits the gate leaves out of a run over this tree though they are due."""
    landed, _ = Landed.of(tree, kit)
    return [it.crate for it in left_out(crates, landed) if it.is_due] if landed else []


def main(words):
    sys.path.insert(0, os.path.join(ROOT, "tools"))
    from kit import Kit

    found = git(ROOT, "rev-parse", "--verify", f"{words[0]}^{{commit}}") if len(words) == 1 else None
    if not found:
        print(__doc__)
        return 2
    commit, kit = found.decode().strip(), Kit()
    with checked_out(ROOT, commit) as tree:
        waiting = waiting_in(tree, kit.crates(tree), kit.identity())
    write_down(ROOT, commit, kit.identity(), waiting)
    return 0


if __name__ == "__main__":
    sys.exit(main(sys.argv[1:]))
