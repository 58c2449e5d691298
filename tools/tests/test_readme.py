"""The README: its size, its sentence, its commands, and its programs as they stand there."""

import contextlib
import io
import os
import re
import shutil
import subprocess
import tempfile
import unittest
from pathlib import Path

from support import write_files

from building.places import KUSPVELI, LIBRARY, standing
from sources.crates import ROOT, read_crates
from vendoring import cli as vendor

TEXT = (ROOT / "README.md").read_text(encoding="utf-8")
LINES, COLUMNS = 120, 80
SENTENCE = (
    "**For all texts, parsed fonts and lawful tables, an unrefused `shape` gives the glyphs and places of one plain "
    "reading that knows no clusters; equivalent texts under the universal or Myanmar shaper give the same ones; and at "
    "the monotone levels, for every shaper but the Indic, the glyph runs' slices join to the whole text, no coarser than "
    "the reading's joins and deletions.**"
)
# The font of the commands and of the programs, of the package fonts-dejavu-core.
FONT = Path("/usr/share/fonts/truetype/dejavu/DejaVuSans.ttf")
# Of "office", by hb-shape 6.0: numbers and advances of o, the ligature of f, f and i, c and e; and the line with names.
SHAPED = "82+1253\n5044+1980\n70+1126\n72+1260\n"
LINE = "o+1253|uniFB03+1980|c+1126|e+1260\n"
LONG = os.environ.get("KUSPVELI_LONG")
HAS_LIBRARY = standing(LIBRARY).is_current()


def program(language: str) -> str:
    """The program that the README has in a language."""
    [found] = re.findall(rf"^```{language}\n(.*?)^```$", TEXT, re.MULTILINE | re.DOTALL)
    return found


def printed(words: list[str | Path], folder: Path, **more: str) -> str:
    """What a command prints in a folder; it has to succeed."""
    environment = {**os.environ, **more}
    ran = subprocess.run(words, cwd=folder, env=environment, capture_output=True, text=True, check=False)
    if ran.returncode:
        raise AssertionError(f"{words}: status {ran.returncode}: {ran.stderr[-2000:]}{ran.stdout[-2000:]}")
    return ran.stdout


class Page(unittest.TestCase):
    def test_size(self) -> None:
        self.assertLess(len(TEXT.splitlines()), LINES)
        self.assertEqual([line for line in TEXT.splitlines() if len(line) > COLUMNS], [])

    def test_sentence(self) -> None:
        """The theorem stands word for word, in the README and where its premises are."""
        for path in ("README.md", "docs/THEOREM.md"):
            self.assertIn(SENTENCE, " ".join((ROOT / path).read_text(encoding="utf-8").split()), path)

    def test_files(self) -> None:
        """Each file that is linked is there, and so is each tool that is named."""
        named = re.findall(r"\]\(([^)#:]+)\)", TEXT) + re.findall(r"\b(?:tools|bench)/\w+", TEXT)
        self.assertEqual([name for name in named if not (ROOT / name).exists()], [])

    def test_functions(self) -> None:
        """Each function, module, trait or crate that the tables of clauses name is there."""
        code = "".join(path.read_text(encoding="utf-8") for path in (ROOT / "crates").glob("*/src/**/*.rt"))
        declared = set(re.findall(r"\b(?:fn|mod|trait|struct) (\w+)", code)) | set(read_crates())
        for document, column in (("README.md", 3), ("docs/THEOREM.md", 2)):
            rows = re.findall(r"^\| .*`.* \|$", (ROOT / document).read_text(encoding="utf-8"), re.MULTILINE)
            names = {
                part
                for row in rows
                for path in re.findall(r"`([\w:]+)`", row.split("|")[column])
                for part in path.split("::")
            }
            self.assertGreater(len(names), 8, document)
            self.assertEqual(names - declared, set(), document)

    @unittest.skipUnless(standing(KUSPVELI).is_current() and FONT.is_file(), f"needs the program (tools/build) and {FONT}")
    def test_command(self) -> None:
        """The first command prints what the README says."""
        found = re.search(r"^    (tools/kuspveli .*)\n    (.*)$", TEXT, re.MULTILINE)
        assert found is not None
        self.assertEqual(printed(found[1].split(), ROOT), f"{found[2]}\n")


@unittest.skipUnless(HAS_LIBRARY and FONT.is_file(), f"needs the library (tools/build_library, or with --unproved) and {FONT}")
class Programs(unittest.TestCase):
    def setUp(self) -> None:
        folder = tempfile.TemporaryDirectory()
        self.addCleanup(folder.cleanup)
        self.folder = Path(folder.name)
        self.built = standing(LIBRARY).folder

    @unittest.skipUnless(shutil.which("gcc"), "needs gcc")
    def test_c(self) -> None:
        """By the command that stands in the program, as in a clone where the library is built with its proofs or without."""
        text = program("c")
        [command] = re.findall(r"// (gcc .*)", text)
        for out in ("out", "out/unproved"):
            root = self.folder / out.replace("/", "_")
            write_files(root, {"examples/own.c": text})
            (root / "include").symlink_to(ROOT / "include")
            (root / out).parent.mkdir(parents=True, exist_ok=True)
            (root / out).symlink_to(self.built)
            printed([*command.split(), "-Wall", "-Werror", "-o", "own"], root / "examples")
            self.assertEqual(printed([root / "examples" / "own"], ROOT), SHAPED)

    def test_python(self) -> None:
        source = self.folder / "own.py"
        source.write_text(program("python"), encoding="utf-8")
        found = {
            "PYTHONPATH": str(ROOT / "bindings" / "python"),
            "KUSPVELI_LIBRARY": str(self.built / "libkuspveli.so"),
        }
        self.assertEqual(printed(["/usr/bin/python3", source], ROOT, **found), SHAPED)

    @unittest.skipUnless(shutil.which("cargo"), "needs cargo")
    def test_rust(self) -> None:
        text = program("rust")
        [path] = re.findall(r'path = "../(.*?)"', text)
        package = f'[package]\nname = "own"\nversion = "0.1.0"\nedition = "2021"\n'
        named = f'[dependencies]\nkuspveli = {{ path = "{ROOT / path}" }}\n'
        write_files(self.folder, {"Cargo.toml": package + named, "src/main.rs": text})
        found = {"KUSPVELI_OUT": str(self.built)}
        printed(["cargo", "build", "--quiet", "--offline"], self.folder, **found)
        self.assertEqual(printed([self.folder / "target" / "debug" / "own"], ROOT), SHAPED)


class Rattle(unittest.TestCase):
    @unittest.skipUnless(LONG and shutil.which("rt") and FONT.is_file(), f"some minutes, rt and {FONT}: KUSPVELI_LONG=1 runs it")
    def test_program(self) -> None:
        """As a crate of a repository into which the library was copied, before any proof."""
        with tempfile.TemporaryDirectory() as folder:
            root = Path(folder)
            write_files(root, {"crates.txt": "own: kuspveli\n"})
            (root / ".git").mkdir()
            with contextlib.redirect_stdout(io.StringIO()):
                vendor.main([folder])
            write_files(root / "crates" / "own", {"src/main.rt": program("rattle"), "specs/Lib.antt": ""})
            shown = printed(["rt", "try"], root / "crates" / "own")
        self.assertIn(LINE, shown)


if __name__ == "__main__":
    unittest.main()
