"""The list of definitions, over a small repository that is written for the test."""

import tempfile
import unittest
from pathlib import Path

from support import write_files  # (it puts the tools on the path too)

from common.faults import ToolFault
from sources.crates import all_needs, read_crates
from sources.document import document, unclear
from sources.reach import Sources

FILES = {
    "crates.txt": "# Layer one.\nlow:\nhigh: low std_thing   # comment\n",
    "crates/low/src/lib.rt": "#![tactic(auto)]\n",
    "crates/low/specs/Lib.antt": "pub mod Numbers\npub mod Lemmas\n",
    "crates/low/specs/Numbers.antt": """-- What numbers are.
use Rattle.std.specs.Prelude.{ℕ}
use Rattle.low.specs.Lemmas.Facts.{Has}

-- the number after one
abbrev pub next : ℕ → ℕ
next n = one_more n

abbrev pub one_more : ℕ → ℕ
one_more n = n + 1

-- a number that nothing cites
abbrev pub unused : ℕ
unused = 7

-- ---- laws

-- how numbers are counted
pub data Count : Type 0 where
  -- from zero on
  Up : Count
  Down : Count

-- the same of pairs
pub record IsPair (a b : ℕ) : Type 0 where
  pub has : Has a

-- nothing is below zero
pub not_below : (n : ℕ) → n < 0 → ⊥
not_below n p = unused p
""",
    "crates/low/specs/Lemmas.antt": "-- Lemmas.\npub mod Facts\n",
    "crates/low/specs/Lemmas/Facts.antt": """-- Facts.
use Rattle.std.specs.Prelude.{ℕ}

-- a fact
abbrev pub Has : ℕ → Type 0
Has n = n ≡ n
""",
    "crates/high/src/lib.rt": """#![tactic(auto)]
ghost use Rattle.high.specs.Views.{next as after, view, proved};
ghost use Rattle.low.specs.Numbers as numbers;

pub fn f()
    ensures { numbers.IsPair 1 2 }
{}
""",
    "crates/high/specs/Lib.antt": "pub mod Views\n",
    "crates/high/specs/Views.antt": """-- Views.
pub use Rattle.low.specs.Numbers.{next, Count}

-- a view of a count
abbrev pub view : Count → ℕ
view c = 0

-- a lemma that the code cites by mistake
pub proved : view c ≡ 0
proved = refl
""",
}


class Definitions(unittest.TestCase):
    def setUp(self) -> None:
        folder = tempfile.TemporaryDirectory()
        self.addCleanup(folder.cleanup)
        self.root = Path(folder.name)
        write_files(self.root, FILES)
        self.sources = Sources(self.root)

    def test_reached(self) -> None:
        """What contracts cite, directly, by another name or through a module, and what that rests on; no lemma."""
        names = {(place.crate, place.name) for place in self.sources.reached()}
        expected = {("low", name) for name in ("next", "one_more", "Count", "IsPair", "Has")} | {("high", "view")}
        self.assertEqual(names, expected)

    def test_document(self) -> None:
        text = document(self.sources)
        head = "\n## low\n\n### low/specs/Numbers.antt\n\nWhat numbers are.\n\n"
        self.assertIn(f"{head}- `next`: the number after one\n", text)
        self.assertIn("- `Count`: how numbers are counted\n  - `Up`: from zero on\n", text)
        self.assertIn("- Without a comment: `one_more`.\n", text)
        self.assertLess(text.index("## low"), text.index("## high"))
        for left_out in ("unused", "not_below", "proved", "`Down`"):
            self.assertNotIn(left_out, text)

    def test_unclear(self) -> None:
        found = {one.place.name: why for one, why in unclear(self.sources)}
        self.assertEqual(found, {"one_more": "no comment", "IsPair": "the same of pairs"})

    def test_crates(self) -> None:
        crates = read_crates(self.root)
        self.assertEqual(crates, {"low": [], "high": ["low", "std_thing"]})
        self.assertEqual(all_needs("high", crates), ["low", "high"])
        self.assertRaises(ToolFault, all_needs, "none", crates)


if __name__ == "__main__":
    unittest.main()
