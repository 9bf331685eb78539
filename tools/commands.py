"""Writes what is made of the table of commands, commands.txt, between its marks in code, definitions and proofs.

`commands.py` writes it, and `commands.py --check` only says which files don't have what it would write. A block begins with a comment `commands.txt: NAME` and ends
with `commands.txt ends`; each is laid out as `rt fmt` has it. What a form of a command is, and what becomes of it, stands in its room."""

import os
import re
import sys
import textwrap
from typing import NamedTuple

ROOT = os.path.dirname(os.path.dirname(os.path.abspath(__file__)))
TABLE = "commands.txt"
MARKED = re.compile(r"^(?P<margin> *)(?P<sign>//|--) commands\.txt: (?P<name>\w+)\n(?P<text>.*?)^ *(?P=sign) commands\.txt ends$", re.M | re.S)
CELLS = re.compile(r" {2,}")
# how wide a line, and an array in one line, may be, by rt fmt
COLUMNS, ITEMS = 100, 60
# a space at which no line is broken
FIRM = "\N{NO-BREAK SPACE}"
# where definitions say which variants of other types they name
ASKS = os.path.join("crates", "mr_ask", "specs", "Asks.antt")
IMPORTED = re.compile(r"^use Rattle\.\w+\.specs\.declared\.\w+\.(\w+)\.TheVariants(?: as (\w+)|\.\{(.*)\})$", re.M)


class Command(NamedTuple):
    """A row of the table."""

    text: str
    variant: str
    does: str
    kind: str
    arguments: str
    reading: str

    def function(self):
        return self.reading.split()[0]

    def named(self):
        """The reading with the command's own name in full, as definitions write it."""
        return re.sub(r"\bname$|\bname(?= )", f"name.{self.variant}", self.reading)


class Kind(NamedTuple):
    """How code and definitions call a kind of commands: the variant of `Ask`, and in code the room's functions and the one that makes an `Ask` of theirs."""

    ask: str
    room: str
    made: str


KINDS = {
    "texts": Kind("Texts", "texts", "of_texts"),
    "keys": Kind("Keys", "keys", "of_keys"),
    "hashes": Kind("Hashes", "hashes", "of_hashes"),
    "lists": Kind("Lists", "lists", "of_lists"),
    "sets": Kind("Sets", "sets", "of_sets"),
    "sorted_sets": Kind("SortedSets", "zset", "of_sorted_sets"),
    "server": Kind("Server", "server", "of_server"),
    "node": Kind("Node", "node", "of_node"),
}


def read(root, path):
    with open(os.path.join(root, path), encoding="utf-8") as it:
        return it.read()


class Table:
    """The commands, in order, and the headings under which they stand."""

    def __init__(self, root):
        self.commands, self.headings, heading, titled = [], {}, None, False
        for line in read(root, TABLE).split("\n"):
            if line.startswith("#"):
                heading = line[1:].strip()
                # the first lines say what the columns are
                titled = titled or heading.startswith("text ")
            elif line:
                row = CELLS.split(line)
                if len(row) != len(Command._fields) or row[3] not in KINDS or not titled:
                    raise SystemExit(f"{TABLE}: this is no command: {line}")
                command = Command(*row)
                if heading:
                    self.headings[command.variant] = heading
                self.commands.append(command)
                heading = None
        said = IMPORTED.findall(read(root, ASKS))
        self.types = {alias: name for name, alias, _ in said if alias}
        self.variants = {it.strip(): name for name, _, names in said for it in names.split(",") if it.strip()}

    def of_kind(self, kind):
        return [it for it in self.commands if it.kind == kind]

    def in_code(self, word):
        """A word of a reading as code has it: a name, or a variant with its type."""
        if word == "name":
            return word
        alias, _, variant = word.rpartition(".")
        return f"{self.types[alias] if alias else self.variants[variant]}::{variant}"


# ---- code


def variants(table):
    for it in table.commands:
        if it.variant in table.headings:
            yield f"// {table.headings[it.variant]}"
        yield f"{it.variant},"


def starting(table):
    """By how many letters a name has and the first of them, the shorter first."""
    alike = {}
    for it in table.commands:
        alike.setdefault((len(it.text), it.text[0]), []).append(f"Name::{it.variant}")
    for (length, letter), names in sorted(alike.items(), key=lambda it: it[0][0]):
        line = f"({length}, b'{letter}') => &[{', '.join(names)}],"
        if len(", ".join(names)) <= ITEMS:
            yield line
        else:
            yield f"({length}, b'{letter}') => &["
            yield from (f"    {it}," for it in names)
            yield "],"


def text(table):
    return (f'Name::{it.variant} => "{it.text}",' for it in table.commands)


def wrong_count(table):
    return (f"Name::{it.variant} => b\"ERR wrong number of arguments for '{it.text}' command\"," for it in table.commands)


def kinds(table):
    for kind in KINDS:
        first, *others = (f"Name::{it.variant}" for it in table.of_kind(kind))
        *lines, last = [first, *(f"| {it}" for it in others)]
        yield from lines
        yield f"{last} => read_{kind}(name, arguments),"


def readings(kind):
    """The arms in which the commands of a kind are read."""

    def lines(table):
        for it in table.of_kind(kind):
            own = KINDS[kind]
            words = [*map(table.in_code, it.reading.split()[1:]), "arguments"]
            line = f"Name::{it.variant} => {own.made}({own.room}::{it.function()}({', '.join(words)})),"
            if len(line) + 8 <= COLUMNS:
                yield line
            else:
                yield f"Name::{it.variant} => {own.made}({own.room}::{it.function()}("
                yield from (f"    {word}," for word in words)
                yield ")),"

    return lines


# ---- definitions


def imported(table):
    return [f"use Rattle.mr_arguments.specs.declared.name.Name.TheVariants.{{{', '.join(it.variant for it in table.commands)}}}"]


def text_of(table):
    return (f'text_of {it.variant} = codes "{it.text}"' for it in table.commands)


def names(table):
    # no line begins with the operator
    listed = " ".join([*(f"{it.variant}{FIRM}∷" for it in table.commands), "[]"])
    return [it.replace(FIRM, " ") for it in textwrap.wrap(f"names = {listed}", COLUMNS, subsequent_indent="    ", break_long_words=False)]


def kind_of(table):
    return (f"kind_of name.{it.variant} = {it.kind}" for it in table.commands)


def reading(table):
    return (f"reading name.{it.variant} arguments = of_kind ask.{KINDS[it.kind].ask} ({it.named()} arguments)" for it in table.commands)


def checks(arguments):
    """The list of what each of these arguments is checked by."""
    listed = ["any_word" if it == "word" else it if it.startswith(("in_", "taken_")) else f"{it}_check" for it in arguments]
    return f"({' ∷ '.join([*listed, '[]'])})" if listed else "[]"


def faults(it):
    """The definition of the faults that the arguments of a command have."""
    told, counts = it.arguments, f"counted name.{it.variant}"
    if told == "any":
        return "[]"
    if told.startswith("all by "):
        return f"{told.removeprefix('all by ')} words"
    if told.startswith("by "):
        return f"{counts} ({told.removeprefix('by ')} words)"
    words = told.replace("-", "").split()
    if words[-1:] == [".."]:
        return f"{counts} (each_first {checks(words[:-1])} words)"
    return f"{counts} (each {checks(words)} words)"


def argument_faults(table):
    return (f"argument_faults name.{it.variant} words = {faults(it)}" for it in table.commands)


def is_write(table):
    return (f"is_write name.{it.variant} = {'true' if it.does == 'write' else 'false'}" for it in table.commands)


# ---- proofs: of commands all of whose arguments are words, each case is the same but for its name


def reading_carries(table):
    for it in table.commands:
        if it.reading == it.function():
            proof = "carries" if it.kind in ("texts", "keys", "server") else "spells"
            ask = KINDS[it.kind].ask
            yield f"reading_carries name.{it.variant} ws = of_kind_carries ({it.reading} ws) ask.{ask} (SpellsNamed name.{it.variant} ws) ({it.reading}_{proof} ws)"


def argument_first(table):
    for it in table.commands:
        words = it.arguments.replace("-", "").split()
        if set(words) <= {"word", ".."}:
            names = ["ws" if word == ".." else chr(ord("a") + at) for at, word in enumerate(words)]
            pattern = names if ".." in words else [*names, "[]"]
            listed = " ∷ ".join(pattern)
            yield f"argument_first name.{it.variant} {listed if listed == '[]' else f'({listed})'} = refl"
            yield f"argument_first name.{it.variant} _ = refl"


BLOCKS = {
    "crates/mr_arguments/src/name.rt": {"variants": variants, "starting": starting, "text": text},
    "crates/mr_arguments/src/fault.rt": {"wrong_count": wrong_count},
    "crates/mr_arguments/specs/Names.antt": {"imported": imported, "text_of": text_of, "names": names},
    "crates/mr_ask/specs/Kinds.antt": {"kind_of": kind_of},
    "crates/mr_ask/specs/Asks.antt": {"reading": reading},
    "crates/mr_ask/specs/WordFaults.antt": {"argument_faults": argument_faults},
    "crates/mr_ask/src/reading.rt": {"kinds": kinds, **{kind: readings(kind) for kind in KINDS}},
    "crates/mr_ask/proofs/AskLemmas.antt": {"reading_carries": reading_carries},
    "crates/mr_ask/proofs/FaultLemmas.antt": {"argument_first": argument_first},
    "crates/mr_commands/specs/Writes.antt": {"is_write": is_write},
}


def made(table, path, before):
    """The file's text with each of its blocks as the table says."""
    left = dict(BLOCKS[path])

    def block(found):
        make = left.pop(found["name"], None)
        if not make:
            raise SystemExit(f"{path}: nothing is made for the mark {found['name']}")
        margin, sign = found["margin"], found["sign"]
        # rt fmt has a line free above a comment among definitions
        free = [""] * ("specs" in path.split("/"))
        lines = [f"{sign} commands.txt: {found['name']}", *make(table), *free, f"{sign} commands.txt ends"]
        return "\n".join(line and margin + line for line in lines)

    after = MARKED.sub(block, before)
    if left:
        raise SystemExit(f"{path}: the marks {', '.join(left)} are missing")
    return after


def changes(root):
    """The files that don't have what is made of the table, each with what it is to be."""
    table = Table(root)
    for path in BLOCKS:
        before = read(root, path)
        after = made(table, path, before)
        if after != before:
            yield path, after


def main(words):
    if words not in ([], ["--check"]):
        print(__doc__)
        return 2
    changed = list(changes(ROOT))
    for path, after in changed:
        if words:
            print(f"{path} isn't what {TABLE} says: python3 tools/commands.py")
        else:
            with open(os.path.join(ROOT, path), "w", encoding="utf-8") as it:
                it.write(after)
            print(path)
    return 1 if words and changed else 0


if __name__ == "__main__":
    sys.exit(main(sys.argv[1:]))
