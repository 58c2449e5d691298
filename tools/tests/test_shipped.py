"""The tables that come with the tools: made anew they are the same, they follow the format, and shape takes them."""

import contextlib
import io
import json
import os
import tempfile
import unittest
from pathlib import Path
from unittest import mock

from support import TOOLS, run, write_stand_in

from formats.rules import tables_faults
from shaping import cli, converting
from shaping.cache import part_of
from unicodejson.cli import DEBIAN, MAKERS

TABLES = TOOLS.parent / "data" / "tables.json"
# What a stand-in for the program prints.
LINE = "3=0+5\n"
FONT = '{"upem":1000,"cmap":[[97,3]],"h":[[3,5]]}'


def debian_version() -> str:
    """The version of Debian's unicode-data; empty where that is not there."""
    path = DEBIAN / "DerivedAge.txt"
    return path.read_text(encoding="utf-8").split("-", 1)[1].split(".txt")[0] if path.is_file() else ""


class Shipped(unittest.TestCase):
    def test_format(self) -> None:
        """Every key is there, with rows of the format, and before them its name and the version, which documents name."""
        value = json.loads(TABLES.read_text())
        self.assertEqual(list(value), ["format", "unicode", *MAKERS])
        self.assertEqual(list(tables_faults(value)), [])
        version = value["unicode"]["version"]
        for document in ("README.md", "data/LICENSE.txt", "docs/TOOLS.md"):
            shown = version.removesuffix(".0")
            self.assertIn(shown, (TOOLS.parent / document).read_text(encoding="utf-8"), document)

    def test_made_anew(self) -> None:
        version = part_of(TABLES, "unicode", {})["version"]
        if debian_version() != version:
            self.skipTest(f"needs Debian's unicode-data {version}, and finds {debian_version() or 'none'}")
        made = run("unicode_to_json", "--quiet")
        self.assertEqual(made.returncode, 0, made.stderr)
        self.assertTrue(made.stdout == TABLES.read_bytes(), "tools/unicode_to_json > data/tables.json makes it anew")


class Without(unittest.TestCase):
    """shape where Debian's unicode-data is not there."""

    def setUp(self) -> None:
        folder = tempfile.TemporaryDirectory()
        self.addCleanup(folder.cleanup)
        self.folder = Path(folder.name)
        body = f'printf "%s\\n" "$@" > {self.folder}/words; printf "{LINE}"'
        stand_in = write_stand_in(self.folder / "hb_shape", body.replace("\n", "\\n"))
        (self.folder / "font.json").write_text(FONT)
        for patch in (
            mock.patch.object(cli, "ready_program", lambda name: Path(stand_in)),
            mock.patch.object(cli, "is_read_by_program", lambda given: False),
            mock.patch.object(converting, "TABLES_READ", []),
            mock.patch.dict(os.environ, {"XDG_CACHE_HOME": folder.name}),
        ):
            patch.start()
            self.addCleanup(patch.stop)

    def shape(self, *words: str) -> tuple[int, str, str]:
        with contextlib.redirect_stderr(io.StringIO()) as told, contextlib.redirect_stdout(io.StringIO()) as shown:
            status = cli.main([str(self.folder / "font.json"), "a", *words])
        return status, shown.getvalue(), told.getvalue()

    def test_tables(self) -> None:
        """The program is given the tables that come with the tools, which --verbose says."""
        self.assertEqual(self.shape("--no-glyph-names"), (0, LINE, ""))
        self.assertEqual(
            (self.folder / "words").read_text().splitlines()[1:3], [str(TABLES), str(self.folder / "font.json")]
        )
        told = self.shape("--verbose")[2]
        self.assertIn(f"shape: tables: {TABLES}, of Unicode 15.0.0, which come with the tools", told)

    def test_missing(self) -> None:
        """A file that is not there either is a fault with its name."""
        with mock.patch.object(converting, "SHIPPED", self.folder / "none.json"):
            with self.assertRaises(FileNotFoundError) as caught:
                self.shape()
        self.assertIn("none.json", str(caught.exception))


if __name__ == "__main__":
    unittest.main()
