"""The lists of lemmas, over a small repository that is written for the test."""

import tempfile
import unittest
from pathlib import Path

from support import write_files  # (it puts the tools on the path too)

from sources.lemmas import lemmas_of, lines_in_specs, repeated, unnamed

FILES = {
    "crates.txt": "low:\nhigh: low\n",
    "crates/low/src/lib.rt": "#[tactic(auto, using(crate::proofs::Sums::sum_turned))]\n",
    "crates/low/specs/Sums.antt": """use Rattle.std.specs.Prelude.{ℕ, ◌+◌, ◌≡◌}

-- a number twice
abbrev pub twice : ℕ → ℕ
twice n = n + n

-- a lemma among definitions
pub twice_again : (n : ℕ) → twice n ≡ n + n
twice_again n = refl
""",
    "crates/low/proofs/Sums.antt": """use Rattle.low.specs.Sums.{twice, twice_again}

pub sum_turned : (m n : ℕ) → m + n ≡ n + m
sum_turned m n = omega arith

-- whole numbers are others
pub whole_turned : (m n : ℤ) → m + n ≡ n + m
whole_turned m n = twice_again m
""",
    "crates/high/proofs/Turned.antt": """use Rattle.low.specs.Sums.{twice as double}

swapped : (a : ℕ)
    → (b : ℕ) → a + b ≡ b + a
swapped a b = omega arith

doubled : (n : ℕ) → double n ≡ double n
doubled n = refl

doubled-zero : double 0 ≡ 0
doubled-zero = refl
""",
    "crates/high/proofs/lists/sort/Answers.antt": "pub returns : goal.returns\nreturns = swapped doubled-zero 0\n",
    "crates/high/proofs/TurnedExamples.antt": "one : 1 + 2 ≡ 2 + 1\none = refl\n",
}


class SameLemmas(unittest.TestCase):
    def setUp(self) -> None:
        folder = tempfile.TemporaryDirectory()
        self.addCleanup(folder.cleanup)
        self.root = Path(folder.name)
        write_files(self.root, FILES)
        self.lemmas = lemmas_of(self.root)

    def test_statements_are_the_same_up_to_variables(self) -> None:
        groups = [[lemma.name for lemma in group] for group in repeated(self.lemmas)]
        self.assertEqual(groups, [["sum_turned", "swapped"]])

    def test_names_are_full(self) -> None:
        doubled = next(lemma for lemma in self.lemmas if lemma.name == "doubled")
        self.assertIn("Rattle.low.specs.Sums.twice #0", doubled.statement)

    def test_lemmas_that_nothing_names(self) -> None:
        self.assertEqual([lemma.name for lemma in unnamed(self.root, self.lemmas)], ["whole_turned", "doubled"])

    def test_lines_of_lemmas_in_specs(self) -> None:
        self.assertEqual(lines_in_specs(self.root, self.lemmas), [("low", 9, 3), ("high", 0, 0)])


if __name__ == "__main__":
    unittest.main()
