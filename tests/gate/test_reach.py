"""What pieces a file shows, under which names."""

import unittest

from reach import NAMELESS, differences, pieces_of, spread

CODE = """\
//! Boxes.
use crate::lid::{Lid, open};
pub use crate::side::Side;

/// A box.
pub struct Crate {
    pub width: u32,
    lid: Lid,
}

impl Crate {
    /// How wide it is.
    pub fn width(&self) -> u32
        ensures { result ≡ self.now.width }
    {
        self.width
    }

    fn shut(&mut self) {
        self.lid = Lid::Shut;
    }
}

impl Drop for Crate {
    fn drop(self) {}
}

impl Opens for Crate {
    fn opens(&self) -> bool {
        true
    }
}

pub enum Colour {
    Red,
    Other(u8),
}
"""
DEFINITIONS = """\
-- Widths.
use Rattle.std.specs.Prelude.{◌≡◌, ℕ}

-- how wide
unfoldable pub width_of : Crate → ℕ
width_of c = c.width

record pub Fits (c : Crate) : Type 0 where
  pub narrow : c.width ≤ 10
  pub ◌fits◌ : ℕ

module _ (c : Crate) where
  inner : c.width ≡ width_of c
  inner = refl

  pub outer : Fits c → width_of c ≤ 10
  outer h = h.narrow ∙ inner
"""


def names(path, text):
    return [sorted(it.names) for it in pieces_of(path, text)[0]]


class Pieces(unittest.TestCase):
    def test_of_code(self):
        found = names("crates/a/src/lib.rt", CODE)
        self.assertIn(["Crate", "lid", "width"], found)
        self.assertIn(["width"], found)
        # a method that nobody else can call isn't shown, and a drop is its type's
        self.assertNotIn(["shut"], found)
        self.assertNotIn("drop", sum(found, []))
        self.assertIn(["Crate", "Opens", "opens"], found)
        self.assertIn(["Colour", "Other", "Red"], found)

    def test_a_method_is_said_by_means_of_its_type(self):
        width = next(it for it in pieces_of("crates/a/src/lib.rt", CODE)[0] if it.names == {"width"})
        self.assertIn("Crate", width.words)

    def test_of_definitions(self):
        found = names("crates/a/specs/Widths.antt", DEFINITIONS)
        self.assertEqual(found, [["width_of"], ["Fits", "fits", "narrow", "◌fits◌"], ["inner"], ["outer"]])

    def test_of_lemmas_the_public_statements_and_what_unfolds(self):
        pieces = {it.first: it for it in pieces_of("crates/a/proofs/Widths.antt", DEFINITIONS)[0]}
        self.assertEqual(set(pieces), {"width_of", "Fits", "outer"})
        self.assertNotIn("narrow", pieces["outer"].words)
        # what the module is given is part of what it says
        self.assertIn("Crate", pieces["outer"].words)


class Differences(unittest.TestCase):
    def changed(self, old, new, text=CODE, path="crates/a/src/lib.rt"):
        self.assertEqual(text.count(old), 1)
        pieces, handed_on = differences(path, text, text.replace(old, new))
        return set().union(handed_on, *(it.names for it in pieces))

    def test_a_clause(self):
        self.assertEqual(self.changed("result ≡ self.now.width", "result ≤ self.now.width"), {"width"})

    def test_a_body_a_comment_and_what_is_hidden(self):
        for old, new in (("        self.width\n", "        0\n"), ("/// A box.", "/// A crate."), ("fn shut(&mut self)", "fn close(&mut self)")):
            with self.subTest(new):
                self.assertEqual(self.changed(old, new), set())

    def test_an_import_of_another_of_the_same_name(self):
        # the type has a lid in it
        self.assertEqual(self.changed("use crate::lid::{Lid, open};", "use crate::lids::{Lid, open};"), {"Crate", "lid", "width"})
        self.assertEqual(self.changed("{Lid, open}", "{Lid}"), set())

    def test_what_is_handed_on(self):
        self.assertEqual(self.changed("pub use crate::side::Side;", "pub use crate::edge::Side;"), {"Side"})

    def test_what_has_no_name(self):
        self.assertIn(NAMELESS, self.changed("//! Boxes.\n", "//! Boxes.\n#![tactic(auto)]\n"))

    def test_the_proof_of_a_lemma(self):
        path = "crates/a/proofs/Widths.antt"
        self.assertEqual(self.changed("h.narrow ∙ inner", "h.narrow", DEFINITIONS, path), set())
        self.assertEqual(self.changed("width_of c ≤ 10", "width_of c ≤ 11", DEFINITIONS, path), {"outer"})


class Spread(unittest.TestCase):
    def test_what_is_said_by_means_of_a_change_has_changed(self):
        pieces = pieces_of("crates/a/specs/Widths.antt", DEFINITIONS)[0]
        self.assertEqual(spread({"width_of"}, pieces), {"width_of", "inner", "outer"})
        self.assertEqual(spread({"Box"}, pieces), {"Box"})


if __name__ == "__main__":
    unittest.main()
