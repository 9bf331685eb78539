"""The pages: each file that one of them links to or names is there; each file of code stands in its crate's page, each edit in its crate's table, and each named edit is
one; tables have the crates in their order; lines of prose are short. Beside them each function of a crate says what it is for."""

import glob
import os
import re
import unittest

from tests.sources import FUNCTION
from tests.support.program import ROOT

# how many columns a line of prose has at most
COLUMNS = 120
# how many rows the page of a crate has at most before its table of promises, and what each says; rooms say some of it once
ROWS = 60
PROMISES = "\n## Promises\n"
SAID = ("**A contract sees**", "**Claims**")
LEFT_OPEN = ("ot claimed", "#what-all-rooms-share")
LINK = re.compile(r"\]\(([^)#\s]+)?(#[^)\s]+)?\)")
# a path of the repository, as it is named in a page
NAMED = re.compile(r"`((?:crates/)?(?:(?:mr|law)_\w+|minired|rehearse\w*)/(?:src|specs|proofs|must-fail)/[\w/.-]+|(?:docs|tests|tools|bench)/[\w/.-]+\.\w+)`")
# a file of tests by its name alone, and behind it classes, and tests without what all their names begin with
NAMED_TESTS = re.compile(r"`(test_\w+)`((?:,? (?:`[A-Z]\w+`|[a-z]+_\w+(?:\.\.)?))*)")
# a crate by its name, or several by what their names begin with and a star
NAMED_CRATE = re.compile(r"\b((?:mr|law)_\w+)(\*?)")
# the head of a floor in crates.txt
FLOOR = re.compile(r"# \w+: ")
# what declares no more than names: attributes, modules, imports, types that hold nothing, and what a type says of itself for proofs alone
DECLARED = re.compile(r"#!?\[[^\]]*\]|(?:pub )?mod \w+;|(?:pub )?(?:ghost )?use [^;]*;|pub struct \w+;|ghost \w+(?::| =) \{[^{}]*\};")
# a trait or an implementation in which nothing is left
EMPTY = re.compile(r"(?:pub trait|impl)[^{;]*\{\s*\}")
# a function without a body, or with that of another law
LAW = re.compile(r"pub fn \w+(?:<[^>]*>)?\(\)[^{]*(?:\{[^{}]*\}[^{}]*)*?\{(?:\s*\w+(?:::<\w+>)?\(\)\s*)?\}")
# what of the tests is named as Python finds it
DOTTED = re.compile(r"\btests((?:\.\w+)+)")
# a crate whose edits are named behind it, or an edit; a star stands for all that begin so
EDIT = re.compile(r"`((?:mr|law)_\w+|minired)`|(?<![\w`./:])([a-z][a-z0-9]*(?:_[a-z0-9]+)*_\*|[a-z][a-z0-9]*(?:_[a-z0-9]+)+)(?![\w*`])")

# what stands right above a function's head: its comments and its attributes
ABOVE = re.compile(r" *(?://|#\[)")
# the head of an impl, and in it a trait
IMPL = re.compile(r"(?:unsafe )?impl\b(.* for )?")


def found(pattern):
    return [os.path.relpath(path, ROOT) for path in sorted(glob.glob(os.path.join(ROOT, pattern), recursive=True))]


def read(page):
    with open(os.path.join(ROOT, page), encoding="utf-8") as it:
        return it.read()


def pages():
    """The text of each page."""
    return {page: read(page) for page in ["README.md", "tests/README.md", *found("docs/*.md"), *found("crates/*/README.md")]}


def without_code(text):
    """The text without blocks and pieces of code."""
    return re.sub(r"`[^`\n]*`", "", re.sub(r"^```.*?^```", "", text, flags=re.M | re.S))


def prose(text):
    """The lines of a page, by their numbers, without tables and blocks of code."""
    lines, is_fenced, is_code, before = {}, False, False, ""
    for number, line in enumerate(text.split("\n"), 1):
        is_fence = line.lstrip().startswith("```")
        # a block without fences stands behind an empty line; what goes on in a list doesn't
        is_code = line.startswith("    ") and (is_code or not before.strip())
        if not (is_fenced or is_fence or is_code or line.lstrip().startswith("|")):
            lines[number] = line
        is_fenced, before = is_fenced != is_fence, line
    return lines


def anchors(text):
    """The places of a page that a link can name, by their heads."""
    heads = re.findall(r"^#+ (.*)$", re.sub(r"^```.*?^```", "", text, flags=re.M | re.S), re.M)
    return {"#" + re.sub(r"[^\w\- ]", "", head.lower()).replace(" ", "-") for head in heads}


def there(path):
    return os.path.exists(os.path.join(ROOT, path))


class Links(unittest.TestCase):
    def test_each_link_leads_to_a_file_and_a_head_of_it(self):
        texts = pages()
        lost = []
        for page, text in texts.items():
            for path, head in LINK.findall(without_code(text)):
                if path.startswith(("http:", "https:")):
                    continue
                to = os.path.normpath(os.path.join(os.path.dirname(page), path)) if path else page
                if not there(to) or (head and head not in anchors(texts.get(to, ""))):
                    lost.append((page, path + head))
        self.assertEqual(lost, [])

    def test_each_file_that_is_named_by_its_path_is_there(self):
        lost = []
        for page, text in pages().items():
            for path in NAMED.findall(text):
                whole = os.path.join("crates", path) if path.startswith(("mr_", "law_", "minired", "rehearse")) else path
                if "*" not in path and "NAME" not in path and "must-fail" not in path and not there(whole):
                    lost.append((page, path))
        self.assertEqual(lost, [])


class Crates(unittest.TestCase):
    """Each library has a page of its own, of one page at most, that says the same things of it."""

    def test_each_library_has_a_short_page(self):
        texts = pages()
        bad = []
        for root in found("crates/*/src/lib.rt"):
            page = os.path.join(os.path.dirname(os.path.dirname(root)), "README.md")
            said = texts.get(page, "").split(PROMISES)[0]
            rows, text = said.count("\n"), " ".join(said.split())
            if not 0 < rows <= ROWS or any(it not in text for it in SAID) or not any(it in text for it in LEFT_OPEN):
                bad.append(page)
        self.assertEqual(bad, [])

    def test_each_file_of_code_stands_in_the_page_of_its_crate(self):
        """But for files that only declare a type, and the programs for tests."""
        texts, lost = pages(), []
        for path in found("crates/[lm]*/src/**/*.rt"):
            crate, name = re.fullmatch(r"crates/(\w+)/src/(.*)", path).groups()
            if name not in ("lib.rt", "main.rt") and re.search(r"\bfn \w", read(path)) and f"`{name}`" not in texts[f"crates/{crate}/README.md"]:
                lost.append((crate, name))
        self.assertEqual(lost, [])

    def test_tables_have_the_crates_lowest_first(self):
        crates = crates_in(read("crates.txt"))
        rows = re.findall(r"^\| (`[^|]*`) \|", read("docs/ARCHITECTURE.md").split("\n## The crates\n")[1].split("\n## ")[0], re.M)
        self.assertEqual(re.findall(r"\w+", " ".join(rows)), crates)
        promising = re.findall(r"^\| \[`(\w+)`\]", read("docs/PROMISES.md"), re.M)
        self.assertEqual(promising, [it for it in crates if it in promising])

    def test_a_crate_uses_its_own_floor_and_lower_ones_only(self):
        self.assertEqual(used_above(read("crates.txt")), [])

    def test_which_uses_lead_up_a_floor(self):
        listed = "# All.\n\n# low: one\na:\nb: a itoa\n\n# high: another\nc: b  # and a\n"
        self.assertEqual(used_above(listed), [])
        self.assertEqual(used_above(listed.replace("b: a itoa", "b: c itoa")), [("b", "c")])

    def test_laws_do_nothing(self):
        """A crate of laws has functions that ensure something and have no body, and nothing else."""
        texts = {path: read(path) for path in found("crates/law_*/src/**/*.rt")}
        self.assertTrue(texts)
        self.assertEqual([path for path, text in texts.items() if does_something(text)], [])

    def test_what_does_something(self):
        law = "//! Laws.\n\n/// It holds.\npub fn it_holds<R: Replicated>()\n    ensures { ItHolds }\n{}\n"
        self.assertFalse(does_something(law))
        for doing in ("pub fn it() {\n    go();\n}\n", "pub struct It(u8);\n", "const ONE: u8 = 1;\n"):
            self.assertTrue(does_something(law + doing))

    def test_each_crate_that_a_page_names_is_there(self):
        crates = crates_in(read("crates.txt"))
        self.assertEqual([(page, it) for page, text in pages().items() for it in lost_crates(crates, text)], [])

    def test_which_names_are_none_of_a_crate(self):
        crates = crates_in("# mr_file: none\nmr_data:\nmr_cmd_key: mr_data itoa\n")
        for text, lost in [
            ("`mr_data`, of mr_cmd_key's, and mr_cmd_* or mr_c*", []),
            ("mr_dat, mr_data_s, mr_cmd_ and mr_x*", ["mr_dat", "mr_data_s", "mr_cmd_", "mr_x*"]),
            ("`mr_file`, [`mr_data`](../crates/mr_files/README.md)", ["mr_file", "mr_files"]),
        ]:
            self.assertEqual(lost_crates(crates, text), lost)


def crates_in(text):
    """The names of the crates that this text of crates.txt lists."""
    return re.findall(r"^(\w+):", text, re.M)


def used_above(text):
    """The uses of a crate of a higher floor in this text of crates.txt, whose floors are sections; a section begins with its name, a colon and what it is."""
    floors, floor = {}, 0
    for line in text.split("\n"):
        floor += bool(FLOOR.match(line))
        floors.update((name, floor) for name in crates_in(line))
    uses = [line.split("#")[0].partition(":") for line in text.split("\n")]
    return [(name, it) for name, _, below in uses if name for it in below.split() if floors.get(it, 0) > floors[name]]


def does_something(text):
    """Whether a file of Rattle has more than names, and functions that only ensure something."""
    plain = re.sub(r"//.*", "", text)
    return bool(LAW.sub("", EMPTY.sub("", DECLARED.sub("", plain))).strip())


def lost_crates(crates, text):
    """What a text names as a crate, and is none of these. A star stands for all whose names begin so."""
    return [name + star for name, star in NAMED_CRATE.findall(text) if not any(it.startswith(name) if star else it == name for it in crates)]


class Tests(unittest.TestCase):
    def test_each_file_of_the_tests_is_told_of(self):
        text = read("tests/README.md")
        folders = ("tests", "tests/*")
        files = {os.path.basename(it) for folder in folders for kind in ("py", "c", "txt") for it in found(f"{folder}/*.{kind}")} - {"__init__.py"}
        self.assertEqual([it for it in sorted(files) if f"`{it}`" not in text], [])

    def test_each_test_that_a_page_names_is_there(self):
        texts = {os.path.basename(path)[: -len(".py")]: read(path) for path in found("tests/*/test_*.py")}
        lost = []
        for page, text in pages().items():
            for file, names in NAMED_TESTS.findall(text):
                lost += [(page, file)] if file not in texts else [(page, file, it) for it in re.findall(r"\w+(?:\.\.)?", names) if not defines(texts[file], it)]
        self.assertEqual(lost, [])

    def test_each_test_that_is_named_with_its_folders_is_there(self):
        self.assertEqual([(page, it) for page, text in pages().items() for it in DOTTED.findall(text) if not leads_somewhere(it)], [])


def defines(text, name):
    """Whether a file of tests has a class of this name, or a test; two dots stand for the rest of its name."""
    begins, end = name.removesuffix(".."), "" if name.endswith("..") else r"\b"
    return bool(re.search(rf"^ *(?:class |def (?:test_)?){begins}{end}", text, re.M))


def leads_somewhere(dotted):
    """Whether this names a folder of tests, a file, or what a file defines."""
    path, names = "tests", dotted.split(".")[1:]
    while names and os.path.isdir(os.path.join(ROOT, path)):
        path = os.path.join(path, names.pop(0))
    return there(path) if not there(path + ".py") else all(defines(read(path + ".py"), it) for it in names)


class Prose(unittest.TestCase):
    def test_no_line_is_longer_than_120_columns(self):
        long = [(page, number, len(line)) for page, text in pages().items() for number, line in prose(text).items() if len(line) > COLUMNS]
        self.assertEqual(long, [])

    def test_decisions_are_told_in_words(self):
        """Without the names of functions, laws and edits, which change; crates keep theirs."""
        named = re.findall(r"`([a-z]+_\w+|\w+::\w+)`", "\n".join(prose(read("docs/DECISIONS.md")).values()))
        self.assertEqual([it for it in named if it not in crates_in(read("crates.txt"))], [])

    def test_readme_names_the_kit_that_the_tree_landed_with(self):
        landed = re.search(r"^kit: (\S+)", read("tests/landed.txt"), re.M)[1]
        self.assertEqual(re.findall(r"\brattle-kit-\w+", read("README.md")), [landed])

    def test_tables_and_code_are_no_prose(self):
        text = "one\n\n    code\n    more\n\n- two\n    goes on\n\n| a |\n|---|\n\n```text\nthree\n```\nfour"
        self.assertEqual([line for line in prose(text).values() if line], ["one", "- two", "    goes on", "four"])


class Walk(unittest.TestCase):
    """The way of a byte, in docs/ARCHITECTURE.md."""

    def test_it_has_as_many_files_and_crates_as_it_says(self):
        walk, said = re.search(r"^## The way of a byte$(.*?)^These are (\d+ files of \d+ crates)", read("docs/ARCHITECTURE.md"), re.M | re.S).groups()
        files = re.findall(r"`(\w+/src/[\w/]+\.rt)`", walk)
        self.assertEqual(sorted(set(files)), sorted(files))
        self.assertEqual(f"{len(files)} files of {len({it.split('/')[0] for it in files})} crates", said)

    def test_the_drawing_has_each_crate(self):
        drawing = re.search(r"^```text$(.*?)^```$", read("docs/ARCHITECTURE.md"), re.M | re.S)[1]
        # rooms stand there without what all their names begin with
        crates = [os.path.basename(it).replace("mr_cmd_", "_") for it in found("crates/*")]
        self.assertEqual([it for it in crates if not re.search(rf"{it}\b", drawing)], [])


def tables_of_crates():
    """The table of promises of each crate, as its rows."""
    texts = {os.path.basename(os.path.dirname(page)): read(page) for page in found("crates/*/README.md")}
    return {crate: [it for it in text.split(PROMISES)[1].split("\n") if it.startswith("|")] for crate, text in texts.items() if PROMISES in text}


def named(crate, cell):
    """The edits that a cell names, each with its crate: this one, or the one that is named before it. What tests show is none."""
    edits = []
    for other, edit in EDIT.findall(re.split(r"tests?:", cell)[0]):
        crate = other or crate
        if edit:
            edits.append((crate, edit))
    return edits


class Promises(unittest.TestCase):
    def test_each_library_has_a_table_of_promises(self):
        crates = [it.split("/")[1] for it in found("crates/*/src/lib.rt")]
        tables = tables_of_crates()
        self.assertEqual([it for it in crates if len(tables.get(it, [])) < 3], [])

    def test_each_row_has_a_promise_its_contract_and_wrong_bodies(self):
        bad = [(crate, row) for crate, rows in tables_of_crates().items() for row in rows if len(re.findall(r"(?<!\\)\|", re.sub(r"`[^`]*`", "", row))) != 4]
        self.assertEqual(bad, [])

    def test_the_index_has_a_line_on_each_table(self):
        lines = re.findall(r"^\| \[`(\w+)`\]\(\.\./crates/(\w+)/README\.md#promises\) \| .*[.] \|$", read("docs/PROMISES.md"), re.M)
        self.assertEqual(sorted(lines), sorted((it, it) for it in tables_of_crates()))


class Edits(unittest.TestCase):
    """The gate plays the tables in a copy without the edits: there nothing is looked up."""

    def setUp(self):
        self.edits = {(path.split("/")[1], os.path.basename(path)[:-5]) for path in found("crates/*/must-fail/*.edit")}

    def is_there(self, crate, edit):
        return not self.edits or any(it == crate and (name == edit or (edit.endswith("*") and name.startswith(edit[:-1]))) for it, name in self.edits)

    def test_each_named_wrong_body_is_an_edit(self):
        cells = [(crate, row.strip("| ").split(" | ")[-1]) for crate, rows in tables_of_crates().items() for row in rows if not row.endswith("| |")]
        # what the specification names stands in the index, each edit behind its crate
        specified = read("docs/PROMISES.md").split("\n## The wrong bodies that the specification names\n")[1].split("\n## ")[0]
        cells += [("", row.split(" | ")[-1]) for row in re.findall(r"^\| .*$", specified, re.M)]
        lost = [it for crate, cell in cells for it in named(crate, cell) if not self.is_there(*it)]
        self.assertEqual(lost, [])

    def test_each_edit_stands_in_the_table_of_its_crate(self):
        said = {(crate, edit) for crate, rows in tables_of_crates().items() for row in rows for it, edit in named(crate, row.split(" | ")[-1]) if it == crate}
        begun = [(crate, edit[:-1]) for crate, edit in said if edit.endswith("*")]
        unsaid = [it for it in sorted(self.edits) if it not in said and not any(crate == it[0] and it[1].startswith(edit) for crate, edit in begun)]
        self.assertEqual(unsaid, [])

    def test_what_a_cell_names(self):
        for cell, edits in [
            ("one_edit, another_one", [("a", "one_edit"), ("a", "another_one")]),
            ("one_edit; `mr_b` its_edit, its_other", [("a", "one_edit"), ("mr_b", "its_edit"), ("mr_b", "its_other")]),
            ("list_*, one_edit; tests: `test_x` a_test_of_it", [("a", "list_*"), ("a", "one_edit")]),
            ("(law)", []),
        ]:
            self.assertEqual(named("a", cell), edits)


def undocumented(text):
    """The functions of a file without `///`. What a trait's impl has needs none, nor does a test."""
    names, above, is_of_trait = [], [], False
    for line in text.split("\n"):
        begins, impl = FUNCTION.match(line), IMPL.match(line)
        if impl or line == "}":
            is_of_trait = bool(impl and impl[1])
        if begins and not is_of_trait and not any(it.startswith(("///", "#[test]")) for it in above):
            names.append(begins[2])
        above = [*above, line.lstrip()] if ABOVE.match(line) else []
    return names


class Functions(unittest.TestCase):
    def test_each_function_says_what_it_is_for(self):
        paths = found("crates/*/src/**/*.rt")
        self.assertEqual([(path, name) for path in paths for name in undocumented(read(path))], [])

    def test_which_functions_need_to(self):
        for text, names in [
            ("/// Says it.\n#[inline]\npub fn one() {}\n\nfn two() {}", ["two"]),
            ("// Says it to nobody.\npub(crate) const fn one() {}", ["one"]),
            ("trait Named {\n    /// Says it.\n    fn one(&self);\n\n    fn two(&self);\n}", ["two"]),
            ("impl<T: Drop> Named for &T {\n    fn one() {}\n}\n\nimpl<T: Drop> Of<T> {\n    fn two() {}\n}", ["two"]),
            ("#[test]\nfn one() {}", []),
        ]:
            self.assertEqual(undocumented(text), names)


if __name__ == "__main__":
    unittest.main()
