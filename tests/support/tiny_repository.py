"""A tiny repository for the tests of the gate's own scripts: its crates are proved in seconds."""

import os

LIST = "tiny:\n"
HANDLES = "Handles allowed: none.\n"

CRATE = {
    "src/lib.rt": """\
//! A few functions, each of which an edit changes.
#![tactic(auto)]

ghost use Rattle.std.specs.Prelude.{◌≡◌, ◌+◌};

mod level;
mod levels;
mod steps;

pub use level::Level;
pub use levels::all_low;
pub use steps::{down, is_even, is_odd, up};

const LIMIT: u8 = 10;

pub fn limit() -> u8
    ensures { result ≡ 10 }
{
    LIMIT
}

pub fn below_limit() -> u8
    ensures { result + 1 ≡ 10 }
{
    LIMIT - 1
}

pub fn third() -> u8
    ensures { result ≡ 3 }
{
    let two = 2;
    two + 1
}
""",
    "src/level.rt": """\
ghost use Rattle.std.specs.Prelude.{◌≡◌};

pub struct Level {
    pub height: u8,
}

impl From<u8> for Level {
    fn from(height: u8) -> Level
        ensures { result.height ≡ height }
    {
        Level { height }
    }
}
""",
    "src/levels.rt": """\
ghost use Rattle.std.specs.Prelude.{◌≡◌, nat_lt};
ghost use Rattle.std.specs.List.{list_all};

/// Whether each height is below the limit.
pub fn all_low(heights: &[u8]) -> bool
    ensures { result ≡ list_all (λ n. nat_lt n 10) heights.now }
{
    heights.iter().all(|height| *height < 10)
}
""",
    "src/steps.rt": """\
ghost use Rattle.std.specs.Prelude.{◌≡◌, ◌+◌, ◌<◌};

use crate::level::Level;

impl Level {
    pub fn of(height: u8) -> Level
        ensures { result.height ≡ height }
    {
        Level { height }
    }
}

pub fn up(n: u8) -> u8
    requires { n < 10 }
    ensures { result ≡ n + 1 }
{
    n + 1
}

pub fn down(n: u8) -> u8
    requires { 0 < n }
    ensures { result + 1 ≡ n }
{
    n - 1
}

#[cycle(parity)]
pub fn is_even(n: u8) -> bool {
    if n == 0 { true } else { is_odd(n - 1) }
}

#[cycle(parity)]
pub fn is_odd(n: u8) -> bool {
    if n == 0 { false } else { is_even(n - 1) }
}
""",
    "proofs/Lib.antt": "mod Sums\n",
    "proofs/Sums.antt": """\
use Rattle.std.proofs.Common.{ℕ, ◌≡◌, ◌+◌, refl}

pub one_more : 1 + 1 ≡ 2
one_more = refl
""",
    "proofs/steps/+parity/Invariants.antt": """\
use Rattle.tiny.proofs.steps.+parity.Given as goal

abbrev pub decreases-is_even : goal.decreases-is_even
decreases-is_even l = l.n

abbrev pub decreases-is_odd : goal.decreases-is_odd
decreases-is_odd l = l.n
""",
}

# two crates of one function each, one above the other
PAIR = {
    "crates.txt": "low:\nhigh: low\n",
    "HANDLES": HANDLES,
    "crates/low/src/lib.rt": """\
//! One number.
#![tactic(auto)]

ghost use Rattle.std.specs.Prelude.{◌≡◌};

pub fn one() -> u8
    ensures { result ≡ 1 }
{
    1
}
""",
    "crates/high/src/lib.rt": """\
//! Another number.
#![tactic(auto)]

ghost use Rattle.std.specs.Prelude.{◌≡◌};

pub fn two() -> u8
    ensures { result ≡ 2 }
{
    low::one() + 1
}
""",
}

# edits by name: a file, an old text and a new one
UP_BY_TWO = ("src/steps.rt", "    n + 1", "    n + 2")
UP_BY_NONE = ("src/steps.rt", "    n + 1", "    n")
DOWN_BY_TRUE = ("src/steps.rt", "    n - 1", "    n - true")
LIMIT_OF_ELEVEN = ("src/lib.rt", "u8 = 10;", "u8 = 11;")
TWO_IN_OTHER_WORDS = ("src/lib.rt", "let two = 2;", "let two = 1 + 1;")
EVEN_GOES_TOO_FAR = ("src/steps.rt", "is_odd(n - 1)", "is_odd(n - 2)")
ODD_IN_OTHER_WORDS = ("src/steps.rt", "{ false }", "{ n == 1 }")
LEVEL_IS_HALVED = ("src/steps.rt", "Level { height }", "Level { height: height / 2 }")
LEVEL_IS_SEVEN = ("src/level.rt", "Level { height }", "Level { height: 7 }")
ELEVEN_IS_LOW = ("src/levels.rt", "*height < 10", "*height < 11")
ONE_IS_TWO = ("src/lib.rt", "    1", "    2")
TWO_IS_THREE = ("src/lib.rt", "one() + 1", "one() + 2")
LEMMA_IS_FALSE = ("proofs/Sums.antt", "1 + 1 ≡ 2", "1 + 1 ≡ 3")


def write(folder, files):
    """Writes texts to files below a folder."""
    for path, text in files.items():
        file = os.path.join(folder, path)
        os.makedirs(os.path.dirname(file), exist_ok=True)
        with open(file, "w", encoding="utf-8") as it:
            it.write(text)


def edit_text(path, old, new):
    return f"file: {path}\nold: {old}\nnew: {new}\n"


def repository(root, edits):
    """Writes the repository of the tiny crate with these edits, by name."""
    crate = {f"crates/tiny/{path}": text for path, text in CRATE.items()}
    crate.update({f"crates/tiny/must-fail/{name}.edit": edit_text(*edit) for name, edit in edits.items()})
    write(root, {"crates.txt": LIST, "HANDLES": HANDLES, **crate})


def pair(root):
    """Writes the repository of two crates with an edit of each."""
    edits = {"crates/low/must-fail/one_is_two.edit": edit_text(*ONE_IS_TWO), "crates/high/must-fail/two_is_three.edit": edit_text(*TWO_IS_THREE)}
    write(root, {**PAIR, **edits})
