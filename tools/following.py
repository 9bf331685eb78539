"""What an `rt ci` that runs beside the edits has proved so far: run.py passes the names on, and edits.py reads them, one a line."""

import contextlib
import os
import re
import threading

from kit import OF_A_CHECK
from lanes import Task

# rt ci says this of a crate once its library is in place: proved now, or kept of an earlier run over the same files
PROVED = re.compile(r"rt: (\w+)(?: proved$| is kept: )")
# the least priority: such a process gets what others of its session leave
LEAST = 19


def proved_in(line):
    """The name of the crate that this line of rt ci tells to be proved, or None."""
    found = PROVED.match(line)
    return found and found[1]


def give_way():
    """Has this process, and all that it starts, run where the other processes of its session leave a processor, and be the first to end where
    memory is wanting. The kernel weighs priorities within a session alone, so whoever starts both makes no session of its own for either."""
    os.nice(LEAST)
    with contextlib.suppress(OSError), open("/proc/self/oom_score_adj", "w", encoding="ascii") as it:
        it.write("1000")


class Following:
    """The crates of a repository, in which an `rt ci` proves up to `at_once` of them at a time, and the bytes of memory that were free as it began."""

    def __init__(self, crates, at_once, free, most):
        self.crates, self.at_once, self.free, self.most = crates, at_once, free, most
        self.names, self.is_over, self.changed = set(), False, threading.Condition()

    def read(self, lines):
        """Takes the names as they come. Their end is the end of rt ci."""
        for line in lines:
            with self.changed:
                self.names.add(line.strip())
                self.changed.notify_all()
        with self.changed:
            self.is_over = True
            self.changed.notify_all()

    def begin(self, lines):
        threading.Thread(target=self.read, args=(lines,), daemon=True).start()

    def is_proved(self, crate):
        """Waits until the crate is named, and returns whether it was, and whether its library is where rt ci puts it."""
        with self.changed:
            self.changed.wait_for(lambda: self.is_over or crate.name in self.names)
            is_named = crate.name in self.names
        return is_named and (not crate.is_library() or crate.is_built_by_ci())

    def tasks(self):
        """A task for each crate, which ends well once it is proved."""
        return [Task(task_of(it), [], 0, 0, lambda jobs, it=it: self.is_proved(it), is_awaited=True) for it in self.crates]

    def after(self, crate):
        """The tasks for which the edits of a crate wait: of the crates below it and, where it is a library, of its own."""
        return [task_of(it) for it in [*crate.below, *([crate] if crate.is_library() else [])]]

    def memory(self):
        """How many bytes the edits may take now: of those that were free, what the checks of rt ci cannot come to take any more. As many run at once
        as it may start, or as are left, and one of them takes twice what is reckoned for a check. It grows as crates are named, and never falls."""
        with self.changed:
            left = 0 if self.is_over else len(self.crates) - len(self.names)
        return min(self.most, self.free - OF_A_CHECK * (min(self.at_once, left) + 1)) if left else self.most


def task_of(crate):
    return f"{crate.name} is proved"
