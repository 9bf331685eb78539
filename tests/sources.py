"""Where the functions of a crate stand in its files, under the names by which a check tells of them.

The files are read line by line, as `rt fmt` lays them out: no parser is needed, and what isn't understood has no name here."""

import os
import re
from dataclasses import dataclass

FUNCTION = re.compile(r"^( *)(?:pub(?:\([^)]*\))? )?(?:(?:const|unsafe|extern \"C\") )*fn (\w+)")
IMPL = re.compile(r"^(?:unsafe )?impl(?:<(?:[^<>]|<[^<>]*>)*>)? (?:(?:\w+::)*(\w+)(?:<(.*)>)? for )?(?:\w+::)*(\w+)")
TYPE = re.compile(r"^(?:pub(?:\([^)]*\))? )?(?:struct|enum) (\w+)", re.M)
CYCLE = re.compile(r"^ *#\[cycle\((\w+)\)\]")
ATTRIBUTE = re.compile(r"^ *#\[")
CONSTANT = re.compile(r"^ *(?:pub(?:\([^)]*\))? )?const (\w+): .*;$")
IMPORT = re.compile(r"^ *(?:pub(?:\([^)]*\))? )?use [^;]*;", re.M)


@dataclass(frozen=True)
class Function:
    """A function of a crate. Rows count from 0."""

    name: str
    # the group of functions that call each other, which are proved together
    cycle: str
    # its first attribute, or its head where it has none: a check tells a goal of all of it at this row
    first: int
    head: int
    opening: int
    closing: int

    def holds(self, row):
        return self.first <= row <= self.closing

    def has_in_body(self, first, end):
        """Whether the rows from `first` to before `end` lie between the body's braces."""
        return self.opening < first and end <= self.closing


def module_of(path):
    """The module that a file of src/ holds, as the segments of its path."""
    parts = path.removeprefix("src/").removesuffix(".rt").split("/")
    if parts in (["lib"], ["main"]):
        return []
    return parts[:-1] if parts[-1] == "mod" else parts


def owner_of(line):
    """The name of an impl's methods' owner: a type, or for a trait's impl `TypeTraitArguments`. None where no impl begins."""
    found = IMPL.match(line)
    if not found:
        return None
    trait, arguments, kind = found.groups()
    # `From<Failed<'a, u8>>` is FromFailedU8
    types = re.findall(r"(?<!')\b(?:\w+::)*([A-Za-z]\w*)", arguments or "")
    return kind + (trait or "") + "".join(it[0].upper() + it[1:] for it in types)


def end_of(lines, head, indent):
    """The rows of a function's opening and closing brace, the same one where its body is empty, or None where it has no body."""
    opening = None
    for row in range(head, len(lines)):
        line = lines[row]
        if line in (indent + "{}", indent + "{ }") or row == head and line.endswith("{}"):
            return row, row
        if line == indent + "{" or opening is None and line.endswith("{"):
            opening = row
        if line == indent + "}":
            return (head, row) if opening is None else (opening, row)
        if line.endswith(";") and opening is None:
            return None
    return None


class Sources:
    """The files src/**/*.rt of a crate, in this folder."""

    def __init__(self, folder):
        self.folder, self.texts, self.homes = folder, {}, {}
        for at, folders, names in os.walk(os.path.join(folder, "src")):
            folders.sort()
            for name in sorted(names):
                if name.endswith(".rt"):
                    self.add(os.path.relpath(os.path.join(at, name), folder))

    def add(self, path):
        with open(os.path.join(self.folder, path), encoding="utf-8") as it:
            self.texts[path] = it.read()
        for kind in TYPE.findall(self.texts[path]):
            self.homes.setdefault(kind, []).append(module_of(path))

    def functions(self, path, text=None):
        """The functions of a file, or of a text in its place."""
        lines = (self.texts[path] if text is None else text).split("\n")
        found, owner, cycle, first, row = [], "", "", None, 0
        while row < len(lines):
            line = lines[row]
            begins, in_cycle = FUNCTION.match(line), CYCLE.match(line)
            owner = "" if line == "}" else owner_of(line) or owner
            cycle = in_cycle[1] if in_cycle else cycle
            if not line:
                first = None
            elif first is None and ATTRIBUTE.match(line):
                first = row
            if begins:
                ends = end_of(lines, row, begins[1])
                if ends:
                    name = self.path_of(path, owner if begins[1] else "", begins[2])
                    found.append(Function(name, cycle, row if first is None else first, row, *ends))
                    row = ends[1]
                cycle, first = "", None
            row += 1
        return found

    def path_of(self, path, owner, name):
        """A method has its type's path, in whichever file its impl stands; any other function that of its file."""
        homes = self.homes.get(owner, [])
        module = homes[0] if len(homes) == 1 else module_of(path)
        return "::".join([*module, *([owner] if owner else []), name])

    def everywhere(self):
        """The functions of all files."""
        return [it for path in self.texts for it in self.functions(path)]

    def in_body(self, path, first, end):
        """The names of the functions whose proof a change of these rows can spoil, or None where that isn't known."""
        for function in self.functions(path):
            if function.has_in_body(first, end):
                return self.proved_with(function)
        constant = CONSTANT.match(self.texts[path].split("\n")[first]) if end == first + 1 else None
        return self.users_of(constant[1]) if constant else None

    def proved_with(self, function):
        """The function, and those that are proved together with it."""
        return {function.name} | {it.name for it in self.everywhere() if it.cycle and it.cycle == function.cycle}

    def users_of(self, constant):
        """The functions whose bodies name a constant, or None where it is named elsewhere too: in a clause, a type, a definition, another constant."""
        word, users = re.compile(rf"\b{constant}\b"), set()
        # in a name of antt's a `-` may stand, as in the step `then-len-eq-LIMIT`, which isn't the constant
        if self.is_stated(re.compile(rf"(?<![\w-]){constant}(?![\w-])")):
            return None
        for path, text in self.texts.items():
            if re.search(rf"\b{constant} as\b", text):
                return None
            rows, functions = without_comments_and_imports(text).split("\n"), self.functions(path)
            for row in (it for it, line in enumerate(rows) if word.search(line)):
                user = next((it for it in functions if it.has_in_body(row, row + 1)), None)
                if user:
                    users |= self.proved_with(user)
                elif not re.match(rf"^ *(?:pub(?:\([^)]*\))? )?const {constant}: [^=]*= [^;]*;$", rows[row]):
                    return None
        return users

    def is_stated(self, word):
        """Whether a file of specs/ or proofs/ has what the pattern `word` says."""
        for part in ("specs", "proofs"):
            for at, _, names in os.walk(os.path.join(self.folder, part)):
                for name in names:
                    with open(os.path.join(at, name), encoding="utf-8", errors="replace") as it:
                        if word.search(it.read()):
                            return True
        return False


def without_bodies(text):
    """The text without the bodies of its functions, but for those that are known when the crate is read, as in `const fn`. Where a macro is made, the whole text."""
    lines, kept, row = text.split("\n"), [], 0
    if "macro_rules!" in text:
        return text
    while row < len(lines):
        begins = FUNCTION.match(lines[row])
        ends = end_of(lines, row, begins[1]) if begins and "const fn" not in lines[row] else None
        if ends and ends[0] < ends[1]:
            kept += lines[row : ends[0] + 1]
            row = ends[1]
        kept.append(lines[row])
        row += 1
    return "\n".join(kept)


def without_comments_and_imports(text):
    """The text with as many rows, and nothing in the place of `//` comments and `use` items."""
    plain = re.sub(r"//[^\n]*", "", text)
    return IMPORT.sub(lambda it: "\n" * it[0].count("\n"), plain)
