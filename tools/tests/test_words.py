"""The list of words, over a small repository that is written for the test."""

import contextlib
import io
import tempfile
import unittest
from pathlib import Path
from unittest import mock

from support import write_files  # (it puts the tools on the path too)

from common.faults import ToolFault
from sources import words_cli, wording
from sources.wording import Hit, Lists, find

FILES = {
    "crates.txt": "low:\n",
    "crates/low/src/lib.rt": """//! A crate.
#![tactic(auto)]
ghost use Rattle.low.specs.Numbers.{begun, initial_view, put_back, IsPair};

pub mod marks;
/// The glyph at a place goes.
pub fn told_flags(text: &str) -> bool {
    text == "// behind"
}

/// A law.
pub fn law_of_pairs()
    ensures { IsPair 1 2 }
{}

pub fn keeps_pairs()
    ensures { IsPair 1 2 }
{}

#[test]
fn pairs()
    requires { IsPair 1 2 }
{}
""",
    "crates/low/src/marks.rt": """//! Marks beside hb_buffer_t.
pub struct MarkHung {
    /// What stands in its place, behind the cursor.
    pub place: u32,
}
""",
    "crates/low/src/bare.rt": "fn ahead_of() {}\n",
    "crates/low/src/tables.rt": "//! Tables, so many of them.\npub struct LayoutTable;\n",
    "crates/low/specs/Lib.antt": "pub mod Numbers\n",
    "crates/low/specs/Numbers.antt": """-- Numbers.
use Rattle.std.specs.Prelude.{ℕ}

-- the first number
abbrev pub begun : ℕ
begun = 0

-- a view of a stretch
abbrev pub initial_view : ℕ
initial_view = 0

abbrev pub put_back : ℕ
put_back = 0

-- two numbers
pub record IsPair (a b : ℕ) : Type 0 where
  pub ahead : ℕ
""",
    "README.md": """# Low

It tells what hangs `behind` it.
And what is behind it.

The output stands behind the cursor.
""",
}
EXPECTED = [
    ("goes", "crates/low/src/lib.rt", 6, "goes"),
    ("tell", "crates/low/src/lib.rt", 7, "told"),
    ("place", "crates/low/src/lib.rt", 6, "place"),
    ("law", "crates/low/src/lib.rt", 16, "keeps_pairs"),
    ("hang", "crates/low/src/marks.rt", 2, "hung"),
    ("place", "crates/low/src/marks.rt", 4, "place"),
    ("behind", "crates/low/src/bare.rt", 1, "ahead"),
    ("header", "crates/low/src/bare.rt", 1, "bare.rt"),
    ("many", "crates/low/src/tables.rt", 1, "so many"),
    ("meaning", "crates/low/src/tables.rt", 2, "LayoutTable"),
    ("stretch", "crates/low/specs/Numbers.antt", 8, "stretch"),
    ("behind", "crates/low/specs/Numbers.antt", 17, "ahead"),
    ("participle", "crates/low/specs/Numbers.antt", 5, "begun"),
    ("participle", "crates/low/specs/Numbers.antt", 12, "put_back"),
    ("comment", "crates/low/specs/Numbers.antt", 12, "put_back"),
    ("tell", "README.md", 3, "tells"),
    ("hang", "README.md", 3, "hangs"),
    ("behind", "README.md", 4, "behind"),
]


class Wording(unittest.TestCase):
    def setUp(self) -> None:
        folder = tempfile.TemporaryDirectory()
        self.addCleanup(folder.cleanup)
        self.root = Path(folder.name)
        write_files(self.root, FILES)
        self.lists = Lists(wording.DATA.read_text(encoding="utf-8"))

    def hits(self) -> list[Hit]:
        return list(find(self.root, self.lists))

    def test_hits(self) -> None:
        found = [(hit.kind, str(hit.path.relative_to(self.root)), hit.line, hit.word) for hit in self.hits()]
        self.assertEqual(sorted(found), sorted(EXPECTED))

    def test_participles(self) -> None:
        for name in ("hung_on", "moved_to", "kept", "Applied", "told_of", "put_back_behind"):
            self.assertTrue(self.lists.is_participle(name), name)
        for name in ("links_cleared", "joined_numbers", "speed", "IsKept", "split_of", "initial_view"):
            self.assertFalse(self.lists.is_participle(name), name)

    def test_counts(self) -> None:
        """A class that grew is a fault; counts are lowered, and never raised."""
        allowed = self.root / "allowed"
        with mock.patch.object(words_cli, "ALLOWED", allowed):
            self.assertEqual(words_cli.lower(self.hits()), 0)
            self.assertIn("behind 3\n", allowed.read_text())
            self.assertEqual(self.check(), (0, ""))
            (self.root / "crates/low/src/bare.rt").write_text("//! Bare.\nfn ahead_of() {}\nfn behind() {}\n")
            status, told = self.check()
            self.assertEqual(status, 1)
            self.assertIn("behind: 4, where 3 are allowed", told)
            words_cli.lower(self.hits())
            self.assertIn("behind 3\n", allowed.read_text())
            self.assertIn("header 0\n", allowed.read_text())
            allowed.write_text("behind many\n")
            self.assertRaises(ToolFault, words_cli.check, self.hits())

    def check(self) -> tuple[int, str]:
        with contextlib.redirect_stderr(io.StringIO()) as told:
            return words_cli.check(self.hits()), told.getvalue()


if __name__ == "__main__":
    unittest.main()
