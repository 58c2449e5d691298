"""The list of ports, over a small repository that is written for the test."""

import tempfile
import unittest
from pathlib import Path

from support import write_files  # (it puts the tools on the path too)

from sources.where import ports, unmarked
from sources.where_cli import document

FILES = {
    "crates.txt": "low:\nhigh: low\n",
    "crates/low/src/lib.rt": "//! Numbers of this project, which rustybuzz has not.\npub fn own() {}\n",
    "crates/low/src/lists.rt": """//! Lists (rustybuzz: hb/buffer.rs, `reverse`,
//! `gone`; hb/other.rs, `moved`).

/// A list.
pub struct List;

impl List {
    /// Turns it round.
    pub fn reverse(&mut self) {
        let fn_inside = 1;
    }

    fn hidden(&self) {}

    /// Moves it (rustybuzz: hb/third.rs, `move_it`).
    #[tactic(auto)]
    fn shift(&self) {}
}

fn moved() {}

/// A law.
pub fn law_of_lists()
{
}
""",
    "crates/high/src/lib.rt": "//! Puts a circle, insert_circle (rustybuzz: hb/shape.rs).\n\nfn insert_circle() {}\n",
    "crates/high/src/bare.rt": "//! No mark.\n\npub fn bare() {}\n",
}


class Where(unittest.TestCase):
    def setUp(self) -> None:
        folder = tempfile.TemporaryDirectory()
        self.addCleanup(folder.cleanup)
        self.root = Path(folder.name)
        write_files(self.root, FILES)

    def test_ports_are_public_items_and_named_ones(self) -> None:
        found = [(port.file, port.name, port.here, port.path.name, port.line) for port in ports(self.root)]
        self.assertEqual(
            found,
            [
                ("hb/buffer.rs", "List", "List", "lists.rt", 5),
                ("hb/buffer.rs", "reverse", "reverse", "lists.rt", 9),
                ("hb/third.rs", "move_it", "shift", "lists.rt", 17),
                ("hb/other.rs", "moved", "moved", "lists.rt", 20),
                ("hb/buffer.rs", "gone", "", "lists.rt", 1),
                ("hb/shape.rs", "insert_circle", "insert_circle", "lib.rt", 3),
            ],
        )

    def test_files_without_a_mark_are_listed(self) -> None:
        self.assertEqual([item.name for _, item in unmarked(self.root)], ["bare"])

    def test_document_lists_by_their_files(self) -> None:
        made = document(self.root)
        self.assertIn("## hb/buffer.rs\n\n- [low/src/lists.rt](../crates/low/src/lists.rt): `List` 5, `reverse` 9, `gone`\n", made)
        self.assertIn("`move_it` as `shift` 17", made)


if __name__ == "__main__":
    unittest.main()
