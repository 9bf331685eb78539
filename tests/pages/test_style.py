"""The measures of the house: how many functions a crate has, how long files and functions are, which names stand twice and where lemmas stand. What is past a measure
stands in EXCUSED, with how far it may go: so that none grows unseen."""

import glob
import os
import re
import unittest

from tests.sources import FUNCTION, Sources
from tests.support.program import ROOT

# how many functions a crate has at most, and how many rows a file, and the body of a function; how many columns a row of a clause; how many parameters a
# function, `self` among them
FUNCTIONS, ROWS, BODY, COLUMNS, PARAMETERS = 100, 800, 39, 100, 5
EXCUSED = {
    "functions": {
        "rehearse_values": 222,  # a program for tests: calls on each kind of value
        "mr_order": 153,  # one structure in levels, and its searches
        "rehearse_systems": 130,  # a program for tests: servers, the network between them, and a wire of their own
        "minired": 133,  # what a program does with what it is handed, of four kinds
        "mr_value": 137,  # lists, hashes, of two forms, sets and their bytes: kinds of one value
        "mr_node": 115,  # each call on a node, by the one invariant below it
        "mr_loop": 137,  # a turn, whose steps share one clause, and turns that are watched
        "mr_keyspace": 124,  # what each effect makes of each kind of value, whether it can, and the order of deadlines beside them
    },
    "rows": {
        "crates/law_protocol_example/specs/Troubles.antt": 850,  # a run, moment by moment
        "tests/support/world_rows.py": 1100,  # a table
        "tests/server/test_aof.py": 1000,  # the file in all that can happen to it
        "tests/server/test_serve.py": 900,  # the server, likewise
    },
    # of each but `next` a row for each command, effect, name or fault
    "bodies": {
        "mr_groups owning::owned_effect": 168,
        "mr_arguments name::Name::starting": 75,
        "mr_arguments name::Name::text": 116,
        "mr_arguments fault::wrong_count": 116,
        "mr_ask reading::read_arguments": 116,
        "mr_effect encoding::push_effect": 77,
        "mr_node_output out::OutsIterIterator::next": 70,  # each place at which something may be given out
        "mr_keyspace entries::Entries::copy": 60,
        "mr_keyspace entries::Entries::take": 58,
        "mr_cmd_zset planning::change": 50,
        "mr_effect effect::Effect::fits": 48,
    },
    # by the file and the function's name
    "parameters": {
        # node, links, wire, log and source are what a turn goes over; these have one more: who watches, or the turn's moment
        "crates/mr_loop/src/serving.rt serve": 6,
        "crates/mr_loop/src/serving.rt turn_watched": 6,
        "crates/mr_loop/src/turning.rt turn_at": 6,
        "crates/mr_loop/src/watch.rt look": 6,  # all that a turn went over, but for what it drew from
        "crates/minired/src/watching.rt look": 6,
        # what is piped, and the file and both streams that it goes over
        "crates/mr_pipe/src/relay.rt pipe_with": 6,
        "crates/mr_pipe/src/relay.rt relay": 6,
        "crates/mr_pipe/src/relay.rt serve_piece": 6,
        # a request, or what it comes to, with the node's call that it came in
        "crates/mr_node/src/node/asking.rt ask": 6,
        "crates/mr_node/src/node/waiting.rt come": 6,
        "crates/mr_node/src/todo.rt request_todo": 6,
        "crates/mr_node/src/todo.rt todo_of": 6,
        "crates/mr_effect/src/encoding.rt push_five": 6,  # five words of one lifetime
        "crates/mr_world_player/src/asked.rt restart_of": 6,  # what a line names, and the World that it is asked of
        # programs for tests
        "crates/rehearse_systems/src/joining.rt deliver_to_server": 6,
        "crates/rehearse_turns/src/host.rt new": 6,
        "crates/rehearse_values/src/course.rt begin": 6,
    },
    # a name that a crate exports, as one that it uses does, and why each may
    "names": {
        "mr_loop Links mr_links": "a loop's, by sockets; there of a node, of any kind",
        "mr_wire Failed mr_file": "that a wire failed, said in one word as of a file",
    },
    # how many lemmas a file of definitions has, since a ghost member or a clause feeds on them
    "lemmas": {
        "crates/mr_zset/specs/Limits.antt": 14,
        "crates/law_protocol_example/specs/TinyLaws.antt": 12,
        "crates/mr_resp/specs/Usual.antt": 8,
        "crates/mr_world_parts/specs/Codes.antt": 1,
        "crates/mr_node_links/specs/State.antt": 1,
        "crates/mr_loop/specs/Lacking.antt": 1,
    },
}
CLAUSE = re.compile(r" *(?:ensures|requires|invariant|decreases)\b")
LOOP = re.compile(r" *(?:'\w+: )?(?:for|while|loop)\b")
EXPORT = re.compile(r"^pub use (\w+)::([^;]*);", re.M)
# what begins at the left edge with a name and what it is, and what of it stands on the rows below
HEAD = re.compile(r"^(?:(?:abbrev|unfoldable|pub) )*([^\s:]+) :((?: .*)?(?:\n +.*)*)", re.M)
STATES = re.compile(r"[≡≢≤⊥]| < |\bIsTrue\b")


def read(path):
    with open(os.path.join(ROOT, path), encoding="utf-8") as it:
        return it.read()


def found(*patterns):
    """The files of these patterns, from the top of the repository."""
    return [os.path.relpath(it, ROOT) for pattern in patterns for it in sorted(glob.glob(os.path.join(ROOT, pattern), recursive=True))]


def past(sizes, most, kind):
    """What is larger than it may be, with its size, and what is excused and needn't be."""
    excused = EXCUSED[kind]
    return {it: size for it, size in sizes.items() if size > excused.get(it, most)}, [it for it in excused if sizes.get(it, 0) <= most]


def loops_in(rows):
    return sum(1 for row in rows if LOOP.match(row))


def clauses_in(text):
    """The rows of the clauses of a text, each clause from its word to the brace that ends it."""
    open_braces = 0
    for row in text.split("\n"):
        if open_braces or CLAUSE.match(row):
            open_braces += row.count("{") - row.count("}")
            yield row


def parameters_in(text):
    """The functions of a text, with how many parameters each has."""
    heads = (it for it in re.finditer(FUNCTION.pattern + r"(?:<(?:[^<>()-]|->|<[^<>]*>|\([^)]*\))*>)?\(", re.sub(r"//.*", "", text), re.M))
    for head in heads:
        count, depth, some = 0, 0, False
        for sign, before in zip(head.string[head.end() :], head.string[head.end() - 1 :]):
            if sign in ")" and not depth:
                break
            depth += (sign in "([{<") - (sign in ")]}" or sign == ">" and before != "-")
            count, some = (count + 1, False) if sign == "," and not depth else (count, some or not sign.isspace())
        yield head[2], count + some


def exported(text):
    """The types that the root file of a crate exports, without those of other crates that it hands on."""
    return {name for module, names in EXPORT.findall(text) if not module.startswith("mr_") for name in re.findall(r"\b[A-Z]\w*[a-z]\w*\b", names)}


def lemmas_in(text):
    """The definitions of a file that state something: what they come to is an equation, an order, a test that is true or what never is."""
    plain = re.sub(r"(?:^|(?<=\s))--.*", "", text)
    return [name for name, what in HEAD.findall(plain) if STATES.search(what.split("→")[-1]) and "Type" not in what]


class Style(unittest.TestCase):
    @classmethod
    def setUpClass(cls):
        lines = [it.split("#")[0].partition(":") for it in read("crates.txt").split("\n")]
        cls.uses = {name: below.split() for name, _, below in lines if name.strip()}
        cls.sources = {it: Sources(os.path.join(ROOT, "crates", it)) for it in cls.uses}

    def bodies(self):
        """The rows of each function's body."""
        for crate, sources in self.sources.items():
            for path, text in sources.texts.items():
                rows = text.split("\n")
                yield from ((f"{crate} {it.name}", rows[it.opening + 1 : it.closing]) for it in sources.functions(path))

    def test_no_crate_has_many_functions(self):
        heads = {crate: sum(1 for text in it.texts.values() for row in text.split("\n") if FUNCTION.match(row)) for crate, it in self.sources.items()}
        self.assertEqual(past(heads, FUNCTIONS, "functions"), ({}, []))

    def test_no_file_is_long(self):
        files = found("crates/*/src/**/*.rt", "crates/*/specs/**/*.antt", "crates/*/proofs/**/*.antt", "tests/**/*.py", "tools/*.py", "bench/*.py")
        self.assertEqual(past({it: read(it).count("\n") for it in files}, ROWS, "rows"), ({}, []))

    def test_no_function_is_long(self):
        self.assertEqual(past({it: len(rows) for it, rows in self.bodies()}, BODY, "bodies"), ({}, []))

    def test_no_function_has_many_parameters(self):
        most = {}
        for path in found("crates/*/src/**/*.rt"):
            for name, count in parameters_in(read(path)):
                most[f"{path} {name}"] = max(count, most.get(f"{path} {name}", 0))
        self.assertEqual(past(most, PARAMETERS, "parameters"), ({}, []))

    def test_no_function_has_two_loops(self):
        self.assertEqual([it for it, rows in self.bodies() if loops_in(rows) > 1], [])

    def test_clauses_break_within_their_columns(self):
        texts = {path: read(path) for path in found("crates/*/src/**/*.rt")}
        self.assertEqual([f"{path}: {row}" for path, text in texts.items() for row in clauses_in(text) if len(row) > COLUMNS], [])

    def test_no_crate_exports_a_name_of_one_that_it_uses(self):
        types = {it: exported(read(path)) for it in self.uses for path in found(f"crates/{it}/src/lib.rt")}
        twice = [f"{it} {name} {low}" for it, below in self.uses.items() for low in below for name in sorted(types.get(it, set()) & types.get(low, set()))]
        self.assertEqual(sorted(twice), sorted(EXCUSED["names"]))

    def test_lemmas_stand_in_proofs(self):
        self.assertEqual(past({it: len(lemmas_in(read(it))) for it in found("crates/*/specs/**/*.antt")}, 0, "lemmas"), ({}, []))


class Measures(unittest.TestCase):
    def test_what_is_a_loop(self):
        self.assertEqual(loops_in(["    for x in xs {", "        'all: while is_low(x) {", "    loop {", "    formed(x);", "    // for one"]), 3)

    def test_how_many_parameters(self):
        text = "fn none() {}\npub(crate) fn two<'a, F: Fn(u8) -> u8>(&'a mut self, low: Map<'a, u8>) -> u8\n    fn three(\n        low: fn(u8, u8) -> u8, // a, b\n        (high, x): (u8, u8),\n        y: u8,\n    ) {\n"
        self.assertEqual(list(parameters_in(text)), [("none", 0), ("two", 2), ("three", 3)])

    def test_what_is_a_clause(self):
        rows = ["fn low(x: u8) -> bool", "    requires { x < 3 }", "    ensures low { (y : ℕ) →", "        y ≡ x };", "fn high()", "{", "}"]
        self.assertEqual(list(clauses_in("\n".join(rows))), rows[1:4])

    def test_which_types_are_exported(self):
        self.assertEqual(exported("mod low;\npub use low::{High, LIMIT, low};\npub use mr_low::Low;\npub use one::One;\n"), {"High", "One"})

    def test_what_is_a_lemma(self):
        text = "abbrev pub IsLow : ℕ → Type 0\nIsLow n = n < 3\n\n-- low\npub low : (n : ℕ) → n < 3\n  → n + 1 < 4 -- too\n\npub record Low (n : ℕ) : Type 0 where\n  pub low : n < 3\nlows : (n : ℕ) → n ≡ 1 → ℕ\n"
        self.assertEqual(lemmas_in(text), ["low"])


if __name__ == "__main__":
    unittest.main()
