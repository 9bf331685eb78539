"""What this project uses of the Rattle kit's own Python, all in one place.

The kit's command `rt` is a Python script beside a module `rtlib`. Both are the kit's own: a later kit may name things otherwise,
and then this file is to be brought up to it, and no other."""

import functools
import importlib.machinery
import importlib.util
import os
import shutil
import sys
import threading
import types

# the machine that programs are for
TARGET = "x86_64-unknown-linux-gnu"
# what a check is likely to take at most, in bytes; one crate's takes twice as much
OF_A_CHECK = 3 << 30


class NoKit(Exception):
    """The command rt of the Rattle kit is not on PATH, or isn't the script that is known here."""


def once_in_a_call(method):
    """A method of a crate that asks the crates below it, each of which asks on: one that asks each crate once, however many ways lead to it.

    Some kits ask anew for each way, of which there are a million below the program. What was answered is forgotten as the outermost call ends, so that a later
    one sees files that have changed."""
    here = threading.local()

    @functools.wraps(method)
    def asked(crate):
        if hasattr(here, "answers"):
            if crate not in here.answers:
                here.answers[crate] = method(crate)
            return here.answers[crate]
        here.answers = {}
        try:
            return method(crate)
        finally:
            del here.answers

    return asked


def _load():
    path = shutil.which("rt")
    if not path:
        raise NoKit("put the command rt of the Rattle kit on PATH")
    loader = importlib.machinery.SourceFileLoader("rt_of_the_kit", os.path.realpath(path))
    made = importlib.util.module_from_spec(importlib.util.spec_from_loader(loader.name, loader))
    writes, sys.dont_write_bytecode = sys.dont_write_bytecode, True
    try:
        loader.exec_module(made)
        # where such a name is missing, the script is another kit's
        (made.need, made.processors, made.free, made.edits_of, made.read_edit, made.unread, made.rtlib.Crate, made.rtlib.KEPT, made.rtlib.KIT, made.rtlib.sum_of, made.rtlib.text_of)
    except (OSError, SyntaxError, AttributeError) as error:
        raise NoKit(f"the command rt of this Rattle kit isn't the one that tools/kit.py knows ({error})")
    finally:
        sys.dont_write_bytecode = writes
    for name in ("below", "stamp"):
        setattr(made.rtlib.Crate, name, once_in_a_call(getattr(made.rtlib.Crate, name)))
    # as rt does before it judges anything: no crate of ours has C code
    os.environ.pop(made.rtlib.ALLOW_C, None)
    return made


class Kit:
    """The kit whose command rt is on PATH. Make it in the main thread: it sets a handler of signals."""

    def __init__(self):
        self.rt = _load()
        # words that begin a command, so that it ends when we do, however that comes
        self.guard = self.rt.rtlib.guarded()

    def run(self, words):
        """What the command rt does with these words, and its exit status."""
        return self.rt.main(words)

    def crates(self, root):
        """The crates of a repository, or of one crate's folder and those below it, lowest first."""
        known = {}
        for inner in self.rt.rtlib.crates_below(os.path.realpath(root)):
            known[inner.name] = Crate(self, inner, [known[it.name] for it in inner.below()])
        return list(known.values())

    def identity(self):
        """The kit's line, as `rt version` prints it."""
        with open(os.path.join(self.rt.KIT, "KIT-ID"), encoding="utf-8") as it:
            return it.read().strip()

    def processors(self):
        """How many processors there are to use, under the quota of a container too."""
        return self.rt.processors()

    def lanes(self):
        """How many crates to work on at a time: RT_JOBS, or as many as there are processors."""
        number = os.environ.get("RT_JOBS", "")
        return int(number) if number.isdigit() and int(number) else self.processors()

    def free(self):
        """How many bytes of memory are free, under the limit of a container too."""
        return self.rt.free()

    def memory(self):
        """How many bytes of memory to use: of those that are free, all but a reserve."""
        return int(0.85 * self.free())

    def lock(self, crates):
        """Keeps any other rt out of these crates' folders until the files that it returns are closed."""
        return self.rt.rtlib.lock([it.inner for it in crates])

    def edits_in(self, folder):
        """The files of must-fail edits in a crate's folder, and the files beside them that are none."""
        return self.rt.edits_of(types.SimpleNamespace(folder=folder))

    def read_edit(self, file, folder):
        """The texts of the files that an edit changes, by their path below the crate's folder; or None, and why it can't be applied."""
        return self.rt.read_edit(file, folder)

    def cannot_read(self, line, changed):
        """Whether this line of a check says that the prover couldn't read a text, rather than refuse what it says."""
        return self.rt.unread(line, changed)

    def is_stale(self, said):
        """Whether a check says that the kept work of a library could not be used."""
        return bool(self.rt.rtlib.STALE.search(said))


class Crate:
    """A crate of the repository, with the crates below it."""

    def __init__(self, kit, inner, below):
        self.kit, self.inner, self.below = kit, inner, below
        self.name, self.folder = inner.name, inner.folder

    def lines(self):
        return self.inner.count(rb"\n")

    def memory(self):
        """How many bytes of memory a check is likely to take at most."""
        return self.kit.rt.need(self.inner)

    def memory_of_proof(self):
        """How many bytes of memory `prove` is likely to take at most, at one job.

        Over libraries of statements that was seen to be half of what a check of the gate may take: at most 2 GB of a crate."""
        return self.memory() if self.inner.has_kept() else self.memory() // 2

    def is_library(self):
        return self.inner.makes_rlib()

    def is_proved(self):
        """Whether its library is built from the sources as they are."""
        return self.inner.is_built()

    def is_built_by_ci(self):
        """Whether `rt ci` has built its library in this folder: it leaves no stamp, for nothing may take that library later."""
        return os.path.isdir(self.inner.rlib) and not os.path.exists(os.path.join(os.path.dirname(self.inner.rlib), "stamp"))

    def take_library(self, folder):
        """Takes the library that `rt ci` has built in this folder from the same text, by links, as if it had been built here."""
        to = os.path.dirname(self.inner.rlib)
        shutil.rmtree(to, ignore_errors=True)
        shutil.copytree(os.path.join(folder, "out", os.path.basename(to)), to, copy_function=os.link)
        self._write_stamp(self.inner.stamp())

    def prove(self, jobs, log):
        """Proves the crate and builds its library. It writes to `log`, and returns the exit status, which is negative where a signal ended it.

        Where `rt check` has kept work, that is gone on with. A first proof keeps none: its library holds what the crates above can cite, as in `rt ci`, and not the proofs.
        Those of all crates below are some 30,000 modules for the program, which each check would load, in a minute or more."""
        self.inner.out = log
        if self.inner.has_kept():
            return self.inner.build_rlib(["--jobs", str(jobs)], anew=False)
        return self._build_statements(jobs)

    def _build_statements(self, jobs):
        stamp, to = self.inner.stamp(), os.path.dirname(self.inner.rlib)
        shutil.rmtree(to, ignore_errors=True)
        os.makedirs(to)
        words = self.inner.words(["--jobs", str(jobs)], keeps=False)
        status = self.inner.call(self.kit.rt.rtlib.RATTLE, "build", *words, "--statements", "-o", self.inner.rlib)
        # not of a text that has changed meanwhile
        if status == 0 and stamp == self.inner.stamp():
            self._write_stamp(stamp)
        return status

    def build_program(self, jobs, log):
        """Proves the program, compiles it and links it, unless it is built from the text as it is. It writes to `log`, and returns the exit status, which is negative where a signal ended it.

        `rt run` does so too, but has copies of the prover write their work, and reads all of it once more: for a first proof that takes longer than it spares.
        The stamp is the one of `rt run`, so that each knows what the other has built."""
        self.inner.out = log
        rtlib, made = self.kit.rt.rtlib, os.path.join(self.folder, "out", self.name)
        stamp = self.inner.stamp()
        if rtlib.text_of(f"{made}.stamp") == stamp + rtlib.sum_of(made):
            print("minired: nothing has changed since the program was proved and built", file=log, flush=True)
            return 0
        os.makedirs(os.path.dirname(made), exist_ok=True)
        status = self._compile(made, jobs) or self._link(made)
        # not of a text that has changed meanwhile
        if status == 0 and stamp == self.inner.stamp() and all(it.is_proved() for it in self.below):
            with open(f"{made}.stamp", "w", encoding="utf-8") as it:
                it.write(stamp + rtlib.sum_of(made))
        return status

    def _compile(self, made, jobs):
        rtlib = self.kit.rt.rtlib
        words = self.inner.words(["--jobs", str(jobs)], keeps=False) + (rtlib.KEPT if self.inner.has_kept() else [])
        return self.inner.call(rtlib.RATTLE, "build", *words, *self._tools(), "--backend", "llvm", "-o", f"{made}.o")

    def _link(self, made):
        kit = self.kit.rt.rtlib.KIT
        libraries = [os.path.join(kit, "c", it) for it in ("libos_c.a", "liblibc_c.a")]
        return self.inner.call(os.path.join(kit, "bin", "rattle-link"), "--target", TARGET, *self._tools(), "-o", made, f"{made}.o", *libraries)

    def _tools(self):
        return ["--toolchain", os.path.join(self.kit.rt.rtlib.KIT, "toolchain")]

    def _write_stamp(self, stamp):
        with open(os.path.join(os.path.dirname(self.inner.rlib), "stamp"), "w", encoding="utf-8") as it:
            it.write(stamp)

    def parts(self):
        """The names of the folders that hold its text."""
        return [it for it in self.kit.rt.rtlib.PARTS if os.path.isdir(os.path.join(self.folder, it))]

    def check(self):
        """The command that checks a copy of the crate, in the copy's folder, at one job."""
        return [*self.kit.guard, self.kit.rt.rtlib.RATTLE, "check", *self.inner.words(["--jobs", "1"], keeps=False)]
