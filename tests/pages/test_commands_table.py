"""The table of commands: what is made of it stands where it belongs, and pages tell of each command."""

import os
import re
import tempfile
import unittest

from tests.support.program import ROOT
from tools import commands


class Made(unittest.TestCase):
    def test_code_and_definitions_are_as_the_table_says(self):
        self.assertEqual([path for path, _ in commands.changes(ROOT)], [])

    def test_what_a_row_says_is_written(self):
        table = commands.Table(ROOT)
        row = next(it for it in table.commands if it.text == "lpushx")
        self.assertIn('Name::LPushX => "lpushx",', list(commands.text(table)))
        self.assertEqual(commands.faults(row), "counted name.LPushX (each_first (any_word ∷ any_word ∷ []) words)")
        self.assertIn("Name::LPushX => of_lists(lists::push(name, End::Left, PushTo::ExistingKey, arguments)),", list(commands.readings("lists")(table)))
        self.assertIn("reading name.LPushX arguments = of_kind ask.Lists (push name.LPushX Left ExistingKey arguments)", list(commands.reading(table)))

    def test_a_changed_row_is_seen(self):
        path = "crates/mr_commands/specs/Writes.antt"
        table = commands.Table(ROOT)
        table.commands = [it._replace(does="read") if it.text == "getdel" else it for it in table.commands]
        before = commands.read(ROOT, path)
        changed = set(commands.made(table, path, before).split("\n")) - set(before.split("\n"))
        self.assertEqual(changed, {"is_write name.GetDel = false"})

    def test_a_missing_mark_is_told(self):
        with self.assertRaisesRegex(SystemExit, "the marks kind_of are missing"):
            commands.made(commands.Table(ROOT), "crates/mr_ask/specs/Kinds.antt", "-- no mark\n")

    def test_a_row_of_another_kind_is_refused(self):
        with tempfile.TemporaryDirectory() as root:
            with open(os.path.join(root, commands.TABLE), "w", encoding="utf-8") as it:
                it.write("# text  variant\nget  Get  read  nothing  word  get\n")
            with self.assertRaisesRegex(SystemExit, "this is no command: get"):
                commands.Table(root)


class Told(unittest.TestCase):
    def test_each_text_and_each_variant_stands_once(self):
        table = commands.Table(ROOT).commands
        for column in ("text", "variant"):
            self.assertEqual(len({getattr(it, column) for it in table}), len(table))
        self.assertLessEqual({it.does for it in table}, {"write", "read", "-"})

    def test_the_readme_names_each_command(self):
        named = set(re.findall(r"\b[A-Z]+\b", commands.read(ROOT, "README.md")))
        self.assertEqual([it.text for it in commands.Table(ROOT).commands if it.text.upper() not in named], [])


if __name__ == "__main__":
    unittest.main()
