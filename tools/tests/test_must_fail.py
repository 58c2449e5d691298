"""The edits that the gate leaves out, over a stand-in for rt."""

import contextlib
import io
import os
import tempfile
import unittest
from pathlib import Path
from unittest import mock

from support import TOOLS  # noqa: F401  (it puts the tools on the path)

from common.faults import ToolFault
from edits import cli

# What rt sees of a crate's edits; the prover lets through the one named passes.
STAND_IN = """#!/bin/bash
[ "$1" = must-fail ] || exit 2
ls "crates/$2/must-fail" >> seen
[ ! -f "crates/$2/must-fail/passes.edit" ]
"""


class MustFail(unittest.TestCase):
    """What the tool tries, and what it leaves."""

    def setUp(self) -> None:
        self.folder = Path(self.enterContext(tempfile.TemporaryDirectory()))
        for crate in ("low", "high"):
            (self.folder / "crates" / crate).mkdir(parents=True)
        self.write("edits/low/wrong_side.edit")
        self.write("edits/high/lost.edit")
        self.write("crates/low/must-fail/boundary.edit")
        stand_in = self.folder / "rt"
        stand_in.write_text(STAND_IN, encoding="utf-8")
        stand_in.chmod(0o755)
        self.enterContext(mock.patch.object(cli, "ROOT", self.folder))
        self.enterContext(mock.patch.dict(os.environ, {"PATH": f"{self.folder}:{os.environ['PATH']}"}))

    def write(self, name: str) -> None:
        path = self.folder / name
        path.parent.mkdir(parents=True, exist_ok=True)
        path.write_text("file: src/lib.rt\nold: a\nnew: b\n", encoding="utf-8")

    def seen(self) -> list[str]:
        return (self.folder / "seen").read_text(encoding="utf-8").split()

    def test_tries_all_and_leaves_what_was_there(self) -> None:
        """Each crate's edits are tried beside its own, and only its own stay."""
        self.assertEqual(cli.main([]), 0)
        self.assertEqual(self.seen(), ["lost.edit", "boundary.edit", "wrong_side.edit"])
        self.assertFalse((self.folder / "crates/high/must-fail").exists())
        self.assertEqual([path.name for path in (self.folder / "crates/low/must-fail").iterdir()], ["boundary.edit"])

    def test_tells_that_one_passed(self) -> None:
        """An edit that is not refused gives status 1, and the others are tried."""
        self.write("edits/high/passes.edit")
        self.assertEqual(cli.main([]), 1)
        self.assertIn("wrong_side.edit", self.seen())

    def test_tries_the_named_crates(self) -> None:
        """A crate's name chooses."""
        self.assertEqual(cli.main(["high"]), 0)
        self.assertEqual(self.seen(), ["lost.edit"])

    def test_lists(self) -> None:
        """Each edit stands on a line, and none is tried."""
        out = io.StringIO()
        with contextlib.redirect_stdout(out):
            self.assertEqual(cli.main(["--list"]), 0)
        self.assertEqual(out.getvalue(), "edits/high/lost.edit\nedits/low/wrong_side.edit\n")
        self.assertFalse((self.folder / "seen").exists())

    def test_refuses_what_is_not_there(self) -> None:
        """A crate without edits, or an edit that stands in both folders."""
        with self.assertRaises(ToolFault):
            cli.main(["middle"])
        self.write("crates/high/must-fail/lost.edit")
        with self.assertRaises(ToolFault):
            cli.main(["high"])


class Standing(unittest.TestCase):
    """The edits of this repository that the gate leaves out."""

    def test_can_be_applied(self) -> None:
        """What an edit changes stands once in its file. (Of the gate's own edits rt says so.)"""
        for edits in cli.chosen_edits([]).values():
            for edit in edits:
                text = ""
                for line in edit.read_text(encoding="utf-8").splitlines():
                    key, _, what = line.partition(": ")
                    if key == "file":
                        text = (cli.ROOT / "crates" / edit.parent.name / what).read_text(encoding="utf-8")
                    elif key == "old":
                        self.assertEqual(text.count(what), 1, f"{edit.name}: {what}")


if __name__ == "__main__":
    unittest.main()
