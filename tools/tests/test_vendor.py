"""Vendoring: what is laid into another repository, what is left and what is refused there, and a crate over it."""

import contextlib
import io
import os
import shutil
import subprocess
import tempfile
import unittest
from pathlib import Path
from unittest import mock

from support import write_files

from common.faults import ToolFault
from sources.crates import ROOT, all_needs, read_crates
from vendoring import cli
from vendoring.copies import SUMS

CRATES = """low: std_thing
left: low # beside right
kuspveli: left low
beside: low
"""
OTHER = "# Mine.\nown: kuspveli\n"
LONG = os.environ.get("KUSPVELI_LONG")
# A crate over the library.
CLIENT = """//! Names the library.
#![tactic(auto)]

use caret_model::Caret;
use kuspveli::Direction;
use line_pieces::Widths;

/// The direction of a line of Hebrew.
pub fn direction() -> Direction {
    Direction::RightToLeft
}

/// Lines of one width.
pub fn same_widths(width: i64) -> Widths {
    Widths {
        first: width,
        rest: width,
    }
}

/// The caret of a text without characters.
pub fn first_caret() -> Caret {
    Caret {
        byte: 0,
        position: 0,
    }
}
"""


class Vendored(unittest.TestCase):
    """Over a small repository and another one."""

    def setUp(self) -> None:
        folder = tempfile.TemporaryDirectory()
        self.addCleanup(folder.cleanup)
        self.root, self.other = Path(folder.name) / "from", Path(folder.name) / "to"
        write_files(self.root, {"crates.txt": CRATES, "LICENSE": "MIT\n"})
        for crate in ("low", "left", "kuspveli", "beside"):
            files = (
                "src/lib.rt",
                "src/part/deep.rt",
                "specs/Lib.antt",
                "proofs/Lib.antt",
                "must-fail/a.edit",
                "out/log",
            )
            write_files(self.root / "crates" / crate, {file: f"{crate} {file}\n" for file in files})
        write_files(self.other, {"crates.txt": OTHER, "crates/own/src/lib.rt": "own\n"})
        patch = mock.patch.object(cli, "ROOT", self.root)
        patch.start()
        self.addCleanup(patch.stop)

    def vendor(self, *options: str) -> str:
        with contextlib.redirect_stdout(io.StringIO()) as shown:
            self.assertEqual(cli.main([*options, str(self.other)]), 0)
        return shown.getvalue()

    def state(self) -> dict[str, str]:
        """All files of the other repository."""
        return {str(path): path.read_text() for path in self.other.rglob("*") if path.is_file()}

    def refused(self) -> str:
        """What is told; nothing is changed then."""
        before = self.state()
        with self.assertRaises(ToolFault) as caught:
            cli.main([str(self.other)])
        self.assertEqual(self.state(), before)
        return str(caught.exception)

    def test_laid(self) -> None:
        """Code, specs and proofs of the crates that are needed, the licence, and their lines as they stand."""
        self.assertIn("3 crates", self.vendor())
        laid = {str(path.relative_to(self.other)) for path in (self.other / "crates").rglob("*") if path.is_file()}
        parts = ("src/lib.rt", "src/part/deep.rt", "specs/Lib.antt", "proofs/Lib.antt")
        wanted = {f"crates/{crate}/{part}" for crate in ("low", "left", "kuspveli") for part in parts}
        self.assertEqual(laid, {"crates/own/src/lib.rt", "crates/kuspveli/LICENSE", str(SUMS), *wanted})
        lines = (self.other / "crates.txt").read_text().splitlines()
        self.assertEqual(lines[:2], OTHER.splitlines())
        self.assertEqual(lines[4:-1], ["low: std_thing", "left: low # beside right", "kuspveli: left low"])
        self.assertEqual(all_needs("own", read_crates(self.other)), ["low", "left", "kuspveli", "own"])
        self.assertTrue(
            subprocess.run(["sha256sum", "-c", "--quiet", SUMS], cwd=self.other, check=False).returncode == 0
        )

    def test_again(self) -> None:
        """What is the same is not written again; what changed is, what went away is removed; own lines stay."""
        self.vendor()
        kept = self.other / "crates/low/src/lib.rt"
        time = kept.stat().st_mtime_ns
        self.assertIn(" 0 files", self.vendor())
        write_files(self.root, {"crates.txt": CRATES.replace("left: low", "left:"), "crates/left/src/lib.rt": "new\n"})
        shutil.rmtree(self.root / "crates/left/src/part")
        write_files(self.other, {"crates.txt": (self.other / "crates.txt").read_text() + "more: left\n"})
        write_files(self.other, {"crates/left/out/rlib/made": "by rt"})
        self.assertIn(" 2 files", self.vendor())
        self.assertEqual(kept.stat().st_mtime_ns, time)
        self.assertEqual((self.other / "crates/left/src/lib.rt").read_text(), "new\n")
        self.assertFalse((self.other / "crates/left/src/part").exists())
        self.assertTrue((self.other / "crates/left/out/rlib/made").exists())
        lines = (self.other / "crates.txt").read_text().splitlines()
        self.assertIn("left: # beside right", lines)
        self.assertEqual([lines[1], lines[-1]], ["own: kuspveli", "more: left"])

    def test_dropped_crate(self) -> None:
        """A crate that is no longer needed is removed, with its line."""
        self.vendor()
        write_files(self.root, {"crates.txt": CRATES.replace("left low", "low")})
        self.vendor()
        self.assertFalse((self.other / "crates/left").exists())
        self.assertNotIn("left:", (self.other / "crates.txt").read_text())

    def test_clients(self) -> None:
        """Crates that are named are laid too, with what they stand on; a run without them removes them."""
        before = self.state()
        write_files(self.root, {"crates.txt": CRATES + "client: kuspveli beside\nprogram: kuspveli\n"})
        write_files(self.root / "crates/client", {"src/lib.rt": "client\n", "specs/Lib.antt": ""})
        write_files(self.root / "crates/program", {"src/main.rt": "program\n"})
        for name in ("none", "program", "client,own"):
            with self.assertRaisesRegex(ToolFault, "is no library of crates.txt"):
                cli.main(["--with", name, str(self.other)])
        self.assertEqual(self.state(), before)
        self.assertIn("5 crates", self.vendor("--with", "client,beside"))
        self.assertEqual((self.other / "crates/client/src/lib.rt").read_text(), "client\n")
        self.assertIn("client: kuspveli beside", (self.other / "crates.txt").read_text().splitlines())
        self.assertIn(" 0 files", self.vendor("--with", "client"))
        self.assertIn("3 crates", self.vendor())
        self.assertFalse((self.other / "crates/client").exists() or (self.other / "crates/beside").exists())

    def test_cut_short(self) -> None:
        """A run that was ended before its list was written is done again."""
        self.vendor()
        (self.other / SUMS).unlink()
        (self.other / "crates/low/src/lib.rt").unlink()
        write_files(self.other, {"crates.txt": OTHER})
        self.assertIn(" 1 files", self.vendor())

    def test_strangers(self) -> None:
        """A crate of its own, one that was edited, a file that was added or removed, and a link are refused by name."""
        write_files(self.other, {"crates/left/src/lib.rt": "mine\n"})
        self.assertIn("crates/left was not written by vendor", self.refused())
        shutil.rmtree(self.other / "crates/left")
        os.symlink(self.root / "crates/left", self.other / "crates/left")
        self.assertIn("crates/left: a link stands in the way", self.refused())
        (self.other / "crates/left").unlink()
        self.vendor()
        for name, text in (("low/src/lib.rt", "edited\n"), ("low/src/mine.rt", "added\n")):
            write_files(self.other / "crates", {name: text})
            self.assertIn("crates/low was edited since vendor wrote it", self.refused())
            shutil.copy(self.root / "crates/low/src/lib.rt", self.other / "crates/low/src/lib.rt")
        (self.other / "crates/low/src/mine.rt").unlink()
        (self.other / "crates/low/specs/Lib.antt").unlink()
        self.assertIn("low/specs/Lib.antt is gone", self.refused())

    def test_lines(self) -> None:
        """A line of one of the names, a stranger among the lines that were written, and a mark that is missing."""
        write_files(self.other, {"crates.txt": OTHER + "left: own\n"})
        self.assertIn("left is there already", self.refused())
        write_files(self.other, {"crates.txt": OTHER})
        self.vendor()
        text = (self.other / "crates.txt").read_text()
        write_files(self.other, {"crates.txt": text.replace("low: std", "mine:\nlow: std")})
        self.assertIn("mine stands among", self.refused())
        write_files(self.other, {"crates.txt": text.replace("# Kuspveli ends.\n", "")})
        self.assertIn("not there once each", self.refused())

    def test_folders(self) -> None:
        """No folder, one without crates.txt, the repository itself, and a list that is damaged."""
        self.vendor()
        (self.other / SUMS).write_text("x\n")
        self.assertIn("line 1 is no sum", self.refused())
        (self.other / "crates.txt").unlink()
        self.assertIn("no crates.txt", self.refused())
        for folder, told in ((self.other / "none", "no such folder"), (self.root, "copied from")):
            with self.assertRaisesRegex(ToolFault, told):
                cli.main([str(folder)])


class Whole(unittest.TestCase):
    def test_repository(self) -> None:
        """The library's own crates: each that a line names stands there or comes with the kit."""
        with tempfile.TemporaryDirectory() as folder:
            write_files(Path(folder), {"crates.txt": ""})
            with contextlib.redirect_stdout(io.StringIO()):
                cli.main([folder])
            crates = read_crates(Path(folder))
            self.assertEqual(set(crates), set(all_needs("kuspveli", read_crates(ROOT))))
            for crate in crates:
                self.assertTrue((Path(folder) / "crates" / crate / "src" / "lib.rt").is_file(), crate)
            with contextlib.redirect_stdout(io.StringIO()):
                cli.main(["--with", cli.CLIENTS, folder])
            self.assertEqual(set(read_crates(Path(folder))) - set(crates), {*cli.CLIENTS.split(","), "font_carets"})

    @unittest.skipUnless(LONG and shutil.which("rt"), "minutes, or an hour's proofs: KUSPVELI_LONG=1 runs it")
    def test_client(self) -> None:
        """rt check proves a crate over what is laid, with the crates for lines and carets. It takes the libraries that a checkout on this machine has built of the
        same text, as after rt ci or tools/build: then this is a minute or two. It proves those that none has, one after
        another, all of them in an hour and more."""
        with tempfile.TemporaryDirectory() as folder:
            client = {"src/lib.rt": CLIENT, "specs/Lib.antt": ""}
            write_files(Path(folder) / "crates" / "client", client)
            write_files(Path(folder), {"crates.txt": "client: line_pieces caret_model kuspveli\n"})
            (Path(folder) / ".git").mkdir()
            with contextlib.redirect_stdout(io.StringIO()):
                cli.main(["--with", cli.CLIENTS, folder])
            client = Path(folder) / "crates" / "client"
            ran = subprocess.run(["rt", "check"], cwd=client, capture_output=True, text=True, check=False)
            self.assertEqual(ran.returncode, 0, ran.stdout[-2000:] + ran.stderr[-2000:])


if __name__ == "__main__":
    unittest.main()
