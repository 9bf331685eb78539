"""Writes the index of docs/DEFINITIONS.md: each file of definitions with the comment that it begins with, in the order of crates.txt.

`definitions.py` writes it between its two markers, and `definitions.py --check` only says whether what stands there is what it would write. It
has no text of its own: where a file begins with no comment, the names of its public definitions stand in place of one."""

import os
import re
import sys
import textwrap

ROOT = os.path.dirname(os.path.dirname(os.path.abspath(__file__)))
PAGE = os.path.join("docs", "DEFINITIONS.md")
BEGINS = "<!-- The index begins: tools/definitions.py writes it. -->"
ENDS = "<!-- The index ends. -->"
DEFINED = re.compile(r"^\s*(?:(?:abbrev|unfoldable) )?pub (?:(?:record|data) (\w+)|(\w+) :)", re.M)
# fields of a record and cases of a type stand deeper; those of a mutual block are told by the line above
FIELD = re.compile(r"^  +pub \w+ :.*$", re.M)
# how many columns a line of a page has at most, and how a line of the index is broken there
COLUMNS = 120
BREAKING = {"subsequent_indent": "  ", "break_long_words": False, "break_on_hyphens": False}
MODULES = re.compile(r"\s*(?:pub mod \w+\s*)*\Z")


def read(path):
    with open(path, encoding="utf-8") as it:
        return it.read()


def crates(root):
    """The crates, lowest first."""
    lines = (line.split("#")[0].strip() for line in read(os.path.join(root, "crates.txt")).split("\n"))
    return [line.split(":")[0].strip() for line in lines if line]


def comment(text):
    """The comment with which a file begins, as one line."""
    lines = []
    for line in text.split("\n"):
        if not line.startswith("--"):
            break
        lines.append(line[2:].strip())
    return " ".join(lines)


def names(text):
    """The names of the public definitions of a file."""
    found = (one or other for one, other in DEFINED.findall(FIELD.sub("", text)))
    return ", ".join(f"`{name}`" for name in found)


def said(text):
    """What the index says of a file, nothing where it only names other files."""
    return "" if MODULES.match(text) else comment(text) or names(text)


def index(root):
    """The lines of the index."""
    lines = []
    for crate in crates(root):
        folder = os.path.join(root, "crates", crate, "specs")
        files = sorted(os.listdir(folder)) if os.path.isdir(folder) else []
        told = [(name[:-5], said(read(os.path.join(folder, name)))) for name in files if name.endswith(".antt")]
        items = [f"- [{name}](../crates/{crate}/specs/{name}.antt): {what}" for name, what in told if what]
        rows = [row for item in items for row in textwrap.wrap(item, COLUMNS, **BREAKING)]
        if rows:
            lines += ["", f"### `{crate}`", "", *rows]
    return lines


def parts(page):
    """The page in front of the index, what stands as the index, and the page behind it."""
    front, begins, rest = page.partition(BEGINS)
    body, ends, behind = rest.partition(ENDS)
    if not begins or not ends:
        sys.exit(f"{PAGE}: the lines between which the index stands aren't there")
    return front, body, behind


def written(root, page):
    """The page with the index as it should be."""
    front, _, behind = parts(page)
    return front + "\n".join([BEGINS, *index(root), "", ENDS]) + behind


def main(words):
    if words not in ([], ["--check"]):
        sys.exit(__doc__)
    path = os.path.join(ROOT, PAGE)
    page = read(path)
    new = written(ROOT, page)
    if words:
        sys.exit(None if new == page else f"{PAGE}: the index is stale: run python3 tools/definitions.py")
    with open(path, "w", encoding="utf-8") as it:
        it.write(new)


if __name__ == "__main__":
    main(sys.argv[1:])
