"""Servers that are joined, as the built `rehearse_systems` has them: schedules of events, and what differs from what the model says."""

import functools
import subprocess
from typing import NamedTuple

from tests.models.system import System, normal
from tests.models.world_scripts import shortened
from tests.support.program import built


# of a server that runs and isn't stopped: its role, its id, its offset, its dataset, and how long its file is, and its synced part
WORDS_OF_A_SHOW = 6


class Difference(NamedTuple):
    """The first line of a schedule that is answered otherwise."""

    line: str
    found: str
    wanted: str


@functools.cache
def program():
    """The built program, which is looked for once."""
    return built("rehearse_systems")


def played(lines):
    """What the program answers to the lines. After its end there is no answer."""
    run = subprocess.run([program()], input="".join(line + "\n" for line in lines), capture_output=True, text=True)
    answers = run.stdout.splitlines()
    return answers + [run.stderr.strip()] * (len(answers) < len(lines))


def is_same(found, wanted):
    return found == wanted or (";" in found and ";" in wanted and normal(found) == normal(wanted))


def difference(lines, found, wanted):
    """The first line that isn't answered as is wanted, if there is one."""
    for line, one, other in zip(lines, found, wanted):
        if not is_same(one, other):
            return Difference(line, one, other)
    return None


def differs(lines):
    """Where the program answers these lines otherwise than the model, whatever they are: after how many of them. Else 0."""
    model, found = System(), played(lines)
    for count, line in enumerate(lines, 1):
        if count > len(found) or not is_same(found[count - 1], model.answer(line)):
            return count
    return 0


def shortest(lines):
    """The shortest schedule, or nearly so, that shows a difference as these lines do; all of them where they show none."""
    return shortened(list(lines)[: differs(lines)], differs) or list(lines)


class Shown:
    """What was ever shown under each id and offset, and by how many servers."""

    def __init__(self):
        self.datasets, self.servers = {}, {}

    def look(self, lines, answers):
        """Two servers that ever showed one id and offset showed one dataset; the first line where they didn't is answered."""
        for line, answer in zip(lines, answers):
            name, server, *_ = line.split(" ")
            shown = answer.split(" ")
            if name != "show" or len(shown) != WORDS_OF_A_SHOW:
                continue
            _, id, offset, dataset, *_ = shown
            self.servers.setdefault((id, offset), set()).add(server)
            before = self.datasets.setdefault((id, offset), dataset)
            if dataset != before:
                return Difference(line, answer, before)
        return None

    def shared(self):
        """How many ids and offsets several servers showed."""
        return sum(len(it) > 1 for it in self.servers.values())
