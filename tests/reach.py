"""How far a change of what a crate shows reaches: the crates above that name what has changed, or what is said by means of it.

A crate shows pieces: the heads and clauses of its functions, its types, its definitions, its lemmas. A piece has changed where its text has, or where it names what
has changed, in its own crate or in one below. What no file of a crate names can't be meant there: its functions meet the same contracts of the same functions, and an
edit of it that was wrong stays wrong. Names are compared as bare words, so that another thing of the same name counts too, and where a changed piece has no name that
is known here, it reaches all above."""

import re
from dataclasses import dataclass

from sources import IMPL, without_bodies

# how the text goes on where a piece of a .rt file begins, at its left edge or within an impl
BEGINS = re.compile(r"#!?\[|(?:pub(?:\([^)]*\))? )?(?:(?:const|unsafe|ghost|extern \"C\") )*(?:fn|struct|enum|trait|impl|type|use|mod|static|const|ghost|macro_rules!)\b")
NAMED = re.compile(r"\b(?:fn|struct|enum|trait|type|mod|static|const(?! fn)|macro_rules!) (\w+)")
FIELD = re.compile(r"^    (?:pub(?:\([^)]*\))? )?(\w+)(?=[:,({ ])", re.M)
# a function that no other crate can call
HIDDEN = re.compile(r"\A(?: *#\[.*\n)* *(?:pub\([^)]*\) )?(?:(?:const|unsafe) )*fn\b")
KIND = re.compile(r"^(?:pub(?:\([^)]*\))? )?(struct|enum|trait)\b", re.M)
PUBLIC_IMPORT = re.compile(r"\bpub(?:\([^)]*\))? (?:ghost )?use\b")
# what a definition or lemma begins with, before its name
KEYWORDS = re.compile(r"(?:(?:pub|abbrev|unfoldable|record|data|private|syntax|ruleset|mod|\|) +)*")
# traits of the library, whose methods are called by operators or by the library: a type's impl of one is the type's
OF_THE_LIBRARY = frozenset("Drop Clone Copy PartialEq Eq PartialOrd Ord Hash Debug Display Default Iterator IntoIterator Deref DerefMut From Model Error Read Write Send Sync".split())
WORD = re.compile(r"[^\s(){}\[\],;.:&|!?\"<>=*/@#]+")
# a piece that no name is known of
NAMELESS = "a piece without a name"


def words(text):
    """The words of a text. Of an operator that has places for what it is applied to its parts are words too."""
    found = set(WORD.findall(text))
    for it in [it for it in found if "◌" in it]:
        found |= {part for part in it.split("◌") if part}
    return found


@dataclass(frozen=True)
class Piece:
    """What others can name, and by which words it is said. Of a type's fields and cases the type's name comes first."""

    text: str
    first: str
    names: frozenset
    words: frozenset


def pieces_of(path, text):
    """What a file shows: its pieces, and its imports."""
    if path.endswith(".rt"):
        return of_code(without_comments(without_bodies(text), "//"))
    return of_definitions(without_comments(text, "--"), "/proofs/" in path)


def without_comments(text, mark):
    """The text without its comments, and without the rows that hold nothing else."""
    rows = [(it, re.sub(rf"(?:^|(?<=\s)){mark}.*$", "", it).rstrip()) for it in text.split("\n")]
    return "\n".join(plain for row, plain in rows if plain or not row.strip())


def blocks_at(lines, indent):
    """The lines in blocks, each of which begins where an item does at this indent. Attributes belong to the item below them."""
    found, after_attribute = [[]], False
    for line in lines:
        begins = line.startswith(indent) and BEGINS.match(line[len(indent) :])
        if begins and not after_attribute:
            found.append([])
        after_attribute = bool(begins) and line[len(indent) :].startswith("#[")
        found[-1].append(line)
    return [it for it in found if any(line.strip() for line in it)]


def of_code(text):
    pieces, imports = [], []
    for block in blocks_at(text.split("\n"), ""):
        whole = "\n".join(block).strip()
        head = next(it for it in block if not it.startswith("#["))
        if re.match(r"(?:pub(?:\([^)]*\))? )?(?:ghost )?use\b", head):
            imports.append(whole)
        elif re.match(r"(?:pub(?:\([^)]*\))? )?mod \w+;", head):
            continue
        else:
            pieces += of_item(block, head, whole)
    return pieces, imports


def of_item(block, head, whole):
    """An item's pieces: of an impl of a type's own methods each is one, any other item is one."""
    is_impl = IMPL.match(head)
    if not is_impl:
        return [] if HIDDEN.search(whole) else [piece(whole, set(NAMED.findall(whole)) | (set(FIELD.findall(whole)) if KIND.search(whole) else set()))]
    trait, _, owner = is_impl.groups()
    if trait:
        return [piece(whole, {owner} | (set() if trait in OF_THE_LIBRARY else {trait, *NAMED.findall(whole)}))]
    first, *methods = blocks_at(block[block.index(head) + 1 :], "    ") or [[]]
    if first and BEGINS.match(first[0].strip()):
        methods, first = [first, *methods], []
    shown = [piece("\n".join([head, *first]), [owner])]
    texts = ["\n".join(it) for it in methods]
    return shown + [piece(it, NAMED.findall(it), {owner}) for it in texts if not HIDDEN.search(it)]


def of_definitions(text, are_lemmas):
    """What definitions show, or lemmas: of these the statements, for no proof can rest on the proof of one."""
    rows = [it for it in text.split("\n") if it.strip()]
    imports = [it for it in rows if it.startswith(("use ", "pub use "))]
    rest = [it for it in rows if it not in imports and not re.match(r"(?:pub )?mod \w+$", it)]
    return list(defined(rest, 0, are_lemmas)), imports


def defined(rows, indent, are_lemmas, around=frozenset()):
    """The pieces that are defined at this indent, and within a module. All of a module is said by means of what it is given, the words `around`."""
    for block in blocks_of_definitions(rows, indent):
        head = block[0].strip()
        if head.startswith("module "):
            inner = next((it for it in block[1:] if it.strip()), "")
            yield from defined(block[1:], len(inner) - len(inner.lstrip()), are_lemmas, around | words(head))
            continue
        keywords = KEYWORDS.match(head)[0]
        is_lemma = are_lemmas and not re.search(r"abbrev|unfoldable|record|data|syntax|ruleset", keywords)
        if not is_lemma:
            yield piece("\n".join(block), names_of(block, keywords), around)
        elif "pub " in keywords:
            yield piece("\n".join(statement(block, indent)), names_of(block[:1], keywords), around)


def blocks_of_definitions(rows, indent):
    """The rows in blocks, each of which begins with the type of what is defined, or with a record, a kind or a module."""
    found = [[]]
    for row in rows:
        text = row[indent:]
        at_edge = row[:indent].isspace() == bool(indent) and text[:1] not in (" ", "")
        if at_edge and re.match(r"\S+ : |(?:record|data|module|syntax|ruleset) ", KEYWORDS.sub("", text, count=1) if not re.match(r"(?:pub |abbrev )*(?:record|data|syntax|ruleset) ", text) else "record "):
            found.append([])
        found[-1].append(row)
    return [it for it in found if it]


def statement(block, indent):
    """The rows of a lemma up to its first clause or attribute."""
    end = next((at for at, row in enumerate(block) if at and row[indent : indent + 1] != " "), len(block))
    return block[:end]


def names_of(block, keywords):
    """The name that a block gives, and those of a record's fields and of a kind's cases."""
    rows = [block[0]]
    if re.search(r"record|data", keywords):
        rows += [it for it in block[1:] if re.match(r"\s+(?:pub |\| )*\S+ : ", it)]
    firsts = [KEYWORDS.sub("", it.strip(), count=1).split(" ")[0] for it in rows]
    return [name for it in firsts if WORD.fullmatch(it) for name in [it, *(words(it) - {it})]]


def piece(text, names, more=frozenset()):
    names = list(names) or [NAMELESS]
    return Piece(text, names[0], frozenset(names), frozenset(words(text)) | frozenset(more))


def imported(text):
    """What an import brings in: the words of each entry, under the path and the entry's own text."""
    start, _, entries = text.partition("{")
    if not entries or "{" in entries:
        return {(text, ""): words(entries or re.split(r"::|\.", text)[-1])}
    return {(start, it.strip(" \n};")): words(it) for it in entries.split(",")}


def differences(path, old, new):
    """The pieces of a file that have changed by themselves, as they were and as they are, and the names that it hands on from other places. None stands for a file that
    isn't there."""
    (before, uses_before), (after, uses_after) = (pieces_of(path, it) if it is not None else ([], []) for it in (old, new))
    changed = {it for some, others in ((before, after), (after, before)) for it in some if it.text not in {other.text for other in others}}
    entries = [{key: it for use in uses for key, it in imported(use).items()} for uses in (uses_before, uses_after)]
    other = set().union(*(it for some, others in (entries, entries[::-1]) for key, it in some.items() if key not in others))
    changed |= {it for it in [*before, *after] if it.words & other}
    shown = set().union(*(words(it) for it in [*uses_before, *uses_after] if PUBLIC_IMPORT.match(it)))
    return changed, shown & other


def spread(changed, pieces):
    """The names that have changed, with those of all pieces that are said by means of one."""
    users, found, left = {}, set(changed), list(changed)
    for it in pieces:
        for word in it.words:
            users.setdefault(word, []).append(it)
    while left:
        new = set().union(*(it.names for it in users.get(left.pop(), []))) - found
        found |= new
        left += new
    return found
