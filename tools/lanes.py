"""Runs tasks side by side: as many as there are processors and memory for, and first those with the longest chain of others behind them."""

import os
import queue
import threading
import time
from dataclasses import dataclass
from typing import Callable

# what a second processor, and each further one, adds to the memory of a task
OF_ANOTHER = 0.6
# by how much a task beside those that lead makes room for them, as `nice` counts
YIELDING = 5
# a task leads whose chain is at least so much of the longest that runs: what a task takes is only reckoned
ALIKE = 0.95
# tasks whose chains are at least so much of its own leave one that leads a processor less each: a second one for a task costs a quarter more of their time
NEAR = 0.8


@dataclass
class Task:
    """Something to run once the tasks in `after` have ended well. Each stands behind those in its list of tasks."""

    name: str
    after: list
    # in any unit, the same for all tasks
    work: int
    # in bytes
    memory: int
    # takes the number of processors that it may use
    run: Callable
    # it only waits for what is done elsewhere: it begins at once, and takes no processor and no memory
    is_awaited: bool = False


def chains(tasks):
    """By each task's name, the work of the longest chain of tasks that begins with it."""
    behind = {it.name: 0 for it in tasks}
    for task in reversed(tasks):
        behind[task.name] += task.work
        for name in task.after:
            behind[name] = max(behind[name], behind[task.name])
    return behind


def share(idle, ready, most):
    """How many of the idle processors the next of so many ready tasks gets: all but one for each behind it, whose chains are shorter."""
    return max(1, min(most, idle - (ready - 1)))


@dataclass
class Run:
    """What a running task takes, and since when."""

    jobs: int
    memory: int
    # all else waits as long for it as for any other that runs
    leads: bool
    begun: float


class Lanes:
    """The tasks that run, and how many processors and how much memory they leave to others."""

    def __init__(self, tasks, lanes, memory, most, clock=time.monotonic):
        self.behind, self.lanes, self.most, self.clock = chains(tasks), lanes, min(most, lanes), clock
        self.memory = memory if callable(memory) else lambda: memory
        self.work = {it.name: it.work for it in tasks}
        self.running, self.results = {}, queue.Queue()
        # of the tasks that have ended: their work, and how long it took
        self.done, self.took = 0, 0.0

    def left(self, name):
        """The work of the chain that begins with a running task, without what it has done by now, if it goes on as those did that have ended."""
        done = self.done / self.took * (self.clock() - self.running[name].begun) if self.took else 0
        return self.behind[name] - min(done, self.work[name])

    def leads(self, task):
        """Whether all else waits for this task as long as for any that runs, where tasks may use several processors."""
        longest = max((self.left(name) for name in self.running), default=0)
        return self.most > 1 and not task.is_awaited and self.behind[task.name] >= ALIKE * longest

    def near(self, task, ready):
        """How many others, ready or running, have chains of nearly the length of this task's, or longer ones."""
        least = NEAR * self.behind[task.name]
        return sum(self.behind[it.name] >= least for it in ready if it is not task) + sum(self.left(name) >= least for name in self.running)

    def jobs_for(self, task, ready):
        """How many processors this task gets, the first of those that are ready; none where it is to wait."""
        if task.is_awaited:
            return 1
        idle = self.lanes - sum(it.jobs for it in self.running.values() if not it.leads)
        room = self.memory() - sum(it.memory for it in self.running.values())
        leads = self.leads(task)
        if self.running and (task.memory > room or not leads and idle <= 0):
            return 0
        jobs = max(1, self.most - self.near(task, ready)) if leads else share(idle, len(ready), self.most)
        while jobs > 1 and memory_of(task, jobs) > room:
            jobs -= 1
        return jobs

    def start(self, task, jobs):
        leads, begun = self.leads(task), self.clock()
        self.running[task.name] = Run(0, 0, False, begun) if task.is_awaited else Run(jobs, memory_of(task, jobs), leads, begun)
        yielding = YIELDING if self.most > 1 and not leads else 0
        threading.Thread(target=_run, args=(task, jobs, yielding, self.results), daemon=True).start()

    def ended(self):
        """Waits until a task ends, and returns it with what its call returned."""
        task, value, error = self.results.get()
        run = self.running.pop(task.name)
        if not task.is_awaited:
            self.done, self.took = self.done + task.work, self.took + self.clock() - run.begun
        if error:
            raise error
        return task, value


def memory_of(task, jobs):
    return task.memory * (1 + OF_ANOTHER * (jobs - 1))


def in_lanes(tasks, lanes, memory, most=1):
    """Runs the tasks, and yields each with what its call returned as it ends. A task whose forerunner returned something false is not run.

    A task gets up to `most` processors where there are more than ready tasks. Where `most` isn't 1, a task whose chain is as long as the longest that runs gets
    so many, idle or not, but for one for each whose chain is nearly as long, and the others run beside it at a lower priority: they take what it leaves, as while it loads or ends on one processor. The memory is a number of bytes, or a call that tells how many there are by now: it is asked anew as each task ends. Where
    nothing else runs or is awaited, one runs even if it wants more memory than there is."""
    beside, well = Lanes(tasks, lanes, memory, most), set()
    waiting = sorted(tasks, key=lambda it: (not it.is_awaited, -beside.behind[it.name]))
    while waiting or beside.running:
        ready = [it for it in waiting if well.issuperset(it.after)]
        for at, task in enumerate(ready):
            jobs = beside.jobs_for(task, ready[at:])
            if jobs:
                waiting.remove(task)
                beside.start(task, jobs)
        if not beside.running:
            return
        task, value = beside.ended()
        if value:
            well.add(task.name)
        yield task, value


def _run(task, jobs, yielding, results):
    # of this thread alone, and of the programs that it starts
    if yielding and hasattr(os, "setpriority"):
        os.setpriority(os.PRIO_PROCESS, threading.get_native_id(), os.getpriority(os.PRIO_PROCESS, 0) + yielding)
    try:
        results.put((task, task.run(jobs), None))
    except BaseException as error:
        results.put((task, None, error))
