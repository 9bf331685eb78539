"""Builds the program, for `./minired`: proves the crates that it stands on side by side, and says how far it is on standard error.

What is proved stays in crates/NAME/out/, so that a build that was interrupted goes on where it stopped."""

import os
import signal
import sys
import tempfile
import time
from dataclasses import dataclass

from kit import Kit, NoKit
from lanes import Task, in_lanes

ROOT = os.path.dirname(os.path.dirname(os.path.abspath(__file__)))
PROGRAM = "minired"
LOG = os.path.join(ROOT, "out", "build.log")
# how many lines of a failed proof are shown; the log has all
SHOWN = 30
# how many processors one crate may use where others wait for it
MOST = 4
# what who waits for a first build can do
MEANWHILE = "./minired try WORDS.. runs the program unproved, in two or three minutes"


def say(text):
    print(f"minired: {text}", file=sys.stderr, flush=True)


def length_of(seconds):
    """A length of time as it is told: in seconds, and from one minute on in minutes."""
    return f"{seconds:.0f} s" if seconds < 60 else f"{seconds // 60:.0f} min"


@dataclass
class Outcome:
    """How the proof of a crate ended, and what the prover said. It counts as true where the crate is proved."""

    well: bool
    said: str

    def __bool__(self):
        return self.well


class Progress:
    """What is said of a build of so many crates, some of which were proved before."""

    def __init__(self, crates, proved, clock=time.monotonic):
        self.crates, self.proved, self.clock, self.begun = crates, proved, clock, clock()

    def begins(self, lanes, is_first=False):
        """The first line. That of a first build, which takes long, names what is there sooner."""
        already = f", {self.proved} of them proved already" if self.proved else ""
        meanwhile = f"; {MEANWHILE}" if is_first else ""
        return f"building: {self.crates} crates{already}, on {lanes} processors{meanwhile}"

    def after(self, name):
        """Counts a crate that is proved now."""
        self.proved += 1
        return f"proved {name}, {self.proved} of {self.crates} crates, {length_of(self.clock() - self.begun)}"


def program_of(crate):
    """The file of the built program."""
    return os.path.join(crate.folder, "out", PROGRAM)


def last_lines(text, count=SHOWN):
    """The last lines of what the prover said, but for its counts of what it read of each library."""
    lines = [it for it in text.rstrip("\n").split("\n") if not it.startswith("statements ")]
    return "\n".join(lines[-count:])


class Build:
    """A build of the program, which writes all that the prover says to the log."""

    def __init__(self, kit, log):
        self.kit, self.log = kit, log
        self.lanes = kit.lanes()

    def task(self, crate, waiting):
        after = [it.name for it in crate.below if it.name in waiting]
        return Task(crate.name, after, crate.lines(), crate.memory_of_proof(), lambda jobs: self.prove(crate, jobs))

    def prove(self, crate, jobs):
        """Proves a crate and builds its library, or the program of one, and returns whether that went well and what the prover said."""
        step = crate.prove if crate.is_library() else crate.build_program
        with tempfile.TemporaryFile("w+", errors="replace") as said:
            status = step(jobs, said)
            if status == -signal.SIGKILL:
                print("minired: killed, most likely for want of memory: once more", file=said, flush=True)
                status = step(1, said)
            said.seek(0)
            return Outcome(status == 0, said.read())

    def libraries(self, crates):
        """Proves the libraries that the program stands on, and returns how far the build is then, or None where one isn't proved."""
        waiting = {it.name: it for it in crates if it.is_library() and not it.is_proved()}
        progress = Progress(len(crates), len(crates) - len(waiting) - 1)
        say(progress.begins(self.lanes, not os.path.exists(program_of(crates[-1]))))
        tasks = [self.task(it, waiting) for it in waiting.values()]
        for task, outcome in in_lanes(tasks, self.lanes, self.kit.memory(), MOST):
            if not self.ended(task.name, outcome, progress):
                return None
        return progress

    def program(self, crate, progress):
        """Proves, compiles and links the program, and returns whether that went well."""
        ends_well = self.ended(crate.name, self.prove(crate, min(self.lanes, MOST)), progress)
        if ends_well:
            # the launcher tells by the time, also where the program has stayed as it was
            os.utime(program_of(crate))
        return ends_well

    def ended(self, name, outcome, progress):
        """Tells how the proof of a crate ended, and returns whether that was well."""
        print(f"== {name}\n{outcome.said}", end="", file=self.log, flush=True)
        if outcome:
            say(progress.after(name))
        else:
            self.failed(name, outcome.said)
        return outcome.well

    def failed(self, name, said):
        print(last_lines(said), file=sys.stderr)
        say(f"the build failed at {name}: the lines above are the last of it, and all are in {LOG}")


def main():
    # else Ctrl-C would wait for what runs
    signal.signal(signal.SIGINT, signal.SIG_DFL)
    try:
        kit = Kit()
    except NoKit as error:
        say(f"cannot build the program: {error}")
        return 1
    os.makedirs(os.path.dirname(LOG), exist_ok=True)
    with open(LOG, "w", encoding="utf-8") as log:
        build, crates = Build(kit, log), kit.crates(os.path.join(ROOT, "crates", PROGRAM))
        # until we end: no other run works in these crates meanwhile
        held = kit.lock(crates)
        progress = build.libraries(crates)
        ends_well = progress is not None and build.program(crates[-1], progress)
        for it in held:
            os.close(it)
        return 0 if ends_well else 1


if __name__ == "__main__":
    status = main()
    sys.stderr.flush()
    # what still runs after a failure ends with us
    os._exit(status)
