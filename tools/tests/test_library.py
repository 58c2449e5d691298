"""The texts of the library's test, and how the library is built and linked; the test itself is tools/test_library."""

import contextlib
import io
import os
import re
import shutil
import struct
import subprocess
import sys
import tempfile
import unittest
from pathlib import Path
from unittest import mock

from support import write_files

from building import library
from building.kit import Kit
from building.linking import link_library
from building.places import LIBRARY, Place
from common.faults import ToolFault
from library_tests import cli, drivers, times
from library_tests.cases import SETTINGS, WORDS, Words, scripts, turns
from library_tests.drivers import Beside, Tested
from sources.crates import ROOT

COMMANDS = ("gcc", "ld", "objcopy", "ar", "nm")
CRATES = """low:
left: low
right: low std_thing
kuspveli_c staticlib: left right core
beside: low
"""
BELOW = ("low", "left", "right")
# Notes its calls.
RT = """#!/bin/sh
case "$1" in
    version) echo kit 1; exit ;;
    doc) echo "$LIBRARY_TEST/kit/START-HERE.md"; exit ;;
    help) echo "rt ci [--anew]"; exit ;;
esac
echo "rt $*" >> "$LIBRARY_TEST/called"
for name in low left right; do
    echo "rt: $name proved"
done
echo "rt: kuspveli_c proved"
"""
# Its last word is the archive's name. It prints and ends with what lies ready.
RATTLE = """#!/bin/sh
echo "rattle $*" >> "$LIBRARY_TEST/called"
[ -e "$LIBRARY_TEST/status" ] && { echo refused; exit "$(cat "$LIBRARY_TEST/status")"; }
for last; do :; done
echo "an archive" > "$last"
"""
# What rattle makes, and the kit's calls of the heap.
MADE = """#include <stdlib.h>
void *rattle_alloc (size_t);
int kus_shape (void) { return rattle_alloc (1) != NULL; }
void inner (void) {}
"""
HEAP = "#include <stdlib.h>\nvoid *rattle_alloc (size_t n) { return malloc (n); }\n"


def has_fonts() -> bool:
    with contextlib.suppress(ToolFault):
        return bool(scripts() and turns())
    return False


needs_their_fonts = unittest.skipUnless(has_fonts(), "needs the fonts of test_library (docs/TOOLS_FOR_DEVELOPERS.md)")


@needs_their_fonts
class Cases(unittest.TestCase):
    def test_count(self) -> None:
        """There are texts enough, and each kind of setting occurs in several scripts."""
        found = [(script.name, case.settings) for script in scripts() for case in script.cases]
        self.assertGreaterEqual(len(found), 200)
        self.assertGreaterEqual(len({name for name, _ in found}), 12)
        for settings in SETTINGS:
            self.assertGreaterEqual(len({name for name, own in found if own == settings}), 3, settings)

    def test_lines(self) -> None:
        """A case is a line of seven words, the last of which is the text's bytes."""
        for script in scripts():
            for case in script.cases:
                self.assertTrue(case.line().endswith("\n"))
                *_, text = words = case.line().split()
                self.assertEqual(len(words), 7)
                self.assertEqual(b"" if text == "-" else bytes.fromhex(text), case.text.encode())
        self.assertIn("Devanagari", WORDS.read_text(encoding="utf-8"))


class Drawn(unittest.TestCase):
    def test_all(self) -> None:
        """The driver of drawn calls makes each call of the header: those of one name with _over or _alone by one that stands
        for both, a text's by its fields."""
        header = (drivers.INCLUDE / "kuspveli.h").read_text(encoding="utf-8")
        driver = (drivers.SOURCES / "calls.c").read_text(encoding="utf-8")
        names = set(re.findall(r"\b(kus_\w+) \(", header))
        inside = {"kus_font_create_from_bytes_over", "kus_font_create_from_bytes_alone", "kus_tag_from_string", "kus_glyphs_reserve"}
        texts = {"kus_text", "kus_text_utf16", "kus_text_utf32", "kus_text_characters"}
        missing = {name for name in names if not re.search(rf"\b{name} \(", driver)}
        self.assertEqual(missing - inside - texts, set())


class Collections(unittest.TestCase):
    def test_offsets(self) -> None:
        """Each font of a collection has its tables where its own directory says, and begins at a multiple of four."""
        fonts = [(ROOT / "crates" / name / "data" / "font.ttf").read_bytes() for name in ("paragraph_example", "kuspveli_example")]
        made = drivers.collection_of(fonts)
        kind, version, count, *starts = struct.unpack_from(">4sIIII", made)
        self.assertEqual((kind, version, count), (b"ttcf", 0x10000, 2))
        for start, font in zip(starts, fonts, strict=True):
            self.assertEqual(start % 4, 0)
            self.assertEqual(tables_at(made, start), tables_at(font, 0))


def tables_at(file: bytes, start: int) -> dict[bytes, bytes]:
    """The tables of the font whose directory begins at an offset (OpenType, chapter 4)."""
    [count] = struct.unpack_from(">H", file, start + 4)
    rows = struct.iter_unpack(">4sIII", file[start + 12 : start + 12 + 16 * count])
    return {name: file[offset : offset + length] for name, _, offset, length in rows}


@needs_their_fonts
class Timed(unittest.TestCase):
    def test_judged(self) -> None:
        """Of each word the least of three runs counts, of both sides; each that costs twice as much is a fault."""
        some, several = scripts()[:2], turns()[:1]
        # Just below twice as much, exactly twice, and twice by one run alone.
        taken = {0: (1.99, 1.0), 1: (4.0, 2.0), 2: (1.0, 1.0)}
        asked = []

        def measured(_: Tested, files: tuple[Path, Path], words: Words) -> Beside:
            asked.append(words.words)
            own, theirs = taken[(len(asked) - 1) % 3]
            busy = 5 if len(asked) <= 3 else 1
            return Beside(own * busy, theirs, is_same=len(asked) != 6)

        document = self.document()
        patches = (
            mock.patch.object(drivers, "times", measured),
            mock.patch.object(drivers, "instructions", lambda *_: Beside(9000, 6000, is_same=True)),
            mock.patch.object(times, "turns", lambda: several),
            mock.patch.object(times, "font_value", lambda *_: Path()),
            mock.patch.object(drivers, "harfbuzz", lambda _: ["9.0"]),
            contextlib.redirect_stdout(io.StringIO()),
        )
        with contextlib.ExitStack() as stack:
            *_, shown = map(stack.enter_context, patches)
            slow = cli.tell_times(Tested(Place(LIBRARY, False), Path(), Path()), Path(), some, document)
        self.assertEqual(slow, 1)
        self.assertEqual(asked, [*([script.cases[0].text] for script in some), several[0].words] * times.RUNS)
        counts = "9,000 instructions, HarfBuzz 6,000 (1.50)"
        ends = [f"1.99 µs, HarfBuzz 1.00 µs (1.99); {counts}", f"4.00 µs, HarfBuzz 2.00 µs (2.00); {counts}, too much"]
        ends += [f"1.00 µs, HarfBuzz 1.00 µs (1.00); {counts}, other glyphs"]
        for line, end in zip(shown.getvalue().splitlines(), ends, strict=True):
            self.assertTrue(line.endswith(f": {end}"), line)
        self.check_table(document.read_text(encoding="utf-8"))

    def document(self) -> Path:
        """A document with a table that is to be replaced."""
        folder = tempfile.TemporaryDirectory()
        self.addCleanup(folder.cleanup)
        path = Path(folder.name) / "SPEED.md"
        path.write_text(f"# Speed\n\n{cli.BEGIN}\n| old |\n{cli.END}\n\nMore.\n", encoding="utf-8")
        return path

    def check_table(self, text: str) -> None:
        """The table says how it was taken, and that the library is unproved."""
        self.assertTrue(text.startswith(f"# Speed\n\n{cli.BEGIN}\n\nBy `tools/test_library --table docs/SPEED.md` of "))
        self.assertTrue(text.endswith(f"\n\n{cli.END}\n\nMore.\n"))
        self.assertIn("of the unproved library", " ".join(text.split()))
        self.assertIn("beside libharfbuzz 9.0 in the same run", " ".join(text.split()))
        *_, last = [line for line in text.splitlines() if line.startswith("|")]
        self.assertEqual(last, "| words of Latin (other glyphs) | 1.00 | 1.00 | 1.00 | 9,000 | 6,000 | 1.50 |")
        self.assertNotIn("old", text)

    def test_turns(self) -> None:
        """Words of five to nine characters of four scripts; and texts of one, two and three scripts, each with numerals."""
        words, texts = turns()[:4], turns()[4:]
        for row in words:
            self.assertTrue(all(5 <= len(word) <= 9 for word in row.words), row.name)
        for row in texts:
            self.assertTrue(any(word.isnumeric() for word in row.words), row.name)
        self.assertEqual(len({row.name for row in turns()}), 8)


class Built(unittest.TestCase):
    """Over a small repository, and stand-ins for rt and rattle."""

    def setUp(self) -> None:
        folder = tempfile.TemporaryDirectory()
        self.addCleanup(folder.cleanup)
        self.notes = Path(folder.name)
        self.root = self.notes / "work"
        self.place = Place(LIBRARY, True, self.root)
        for crate in (*BELOW, "kuspveli_c", "beside"):
            write_files(self.root, {f"crates/{crate}/src/lib.rt": "fn f() {}\n"})
        write_files(self.root, {"crates.txt": CRATES, "HANDLES": "Handles allowed: none.\n"})
        write_files(self.notes, {"bin/rt": RT, "kit/bin/rattle": RATTLE})
        for name in ("bin/rt", "kit/bin/rattle"):
            (self.notes / name).chmod(0o755)
        path = f"{self.notes}/bin:{os.environ['PATH']}"
        for patch in (
            mock.patch.object(library, "link_library", self.link),
            mock.patch.object(library, "need_commands"),
            mock.patch.object(tempfile, "tempdir", folder.name),
            mock.patch.dict(os.environ, {"LIBRARY_TEST": folder.name, "PATH": path}),
        ):
            patch.start()
            self.addCleanup(patch.stop)

    def link(self, kit: Kit, made: Path, room: Path) -> list[Path]:
        return [shutil.copy(made, room / name) for name in LIBRARY.files]

    def build(self) -> tuple[int, str]:
        """The status, and what was told. No tree is left."""
        with contextlib.redirect_stderr(io.StringIO()) as told, contextlib.redirect_stdout(io.StringIO()) as shown:
            status = library.main([], self.root)
        self.assertEqual(list(Path(tempfile.gettempdir()).glob(f"{LIBRARY.crate}-build-*")), [])
        return status, re.sub(r"\d+:\d\d", "0:00", told.getvalue()) + shown.getvalue()

    def called(self) -> list[str]:
        """With what rt and rattle were called since the last question."""
        path = self.notes / "called"
        calls = path.read_text().splitlines() if path.exists() else []
        path.unlink(missing_ok=True)
        return calls

    def test_built(self) -> None:
        """All crates are proved by the gate, and the archive is built over the libraries that it left."""
        status, told = self.build()
        self.assertEqual(status, 0, told)
        gate, call = self.called()
        self.assertEqual(gate, "rt ci")
        kit, crates = self.notes / "kit", Path(re.search(r"left=(\S+)/left/out", call)[1])
        own = [f"--extern {name}={crates / name}/out/rlib/{name}.rlib" for name in ("left", "right")]
        wanted = [f"--extern {name}={kit}/rlibs/{name}.rlib" for name in ("std", "core")] + own
        wanted += [f"-L dependency={folder}" for folder in (kit / "rlibs", *(crates / it / "out/rlib" for it in BELOW))]
        for words in (*wanted, f"--logic-built {kit}/logic_built", "--crate-type staticlib"):
            self.assertIn(f" {words} ", call)
        self.assertEqual([path.read_text() for path in self.place.files], ["an archive\n"] * 2)
        self.assertTrue(told.endswith("built out/libkuspveli.a\nbuilt out/libkuspveli.so\n"), told)
        self.assertTrue(self.place.is_current())
        self.assertEqual(self.build()[0], 0)
        self.assertEqual(self.called(), [])

    def test_again(self) -> None:
        """A changed source, a file that is gone and one that was copied in are built anew."""
        self.build()
        self.called()
        changes = (
            lambda: write_files(self.root, {"crates/low/src/lib.rt": "fn g() {}\n"}),
            lambda: self.place.files[1].unlink(),
            lambda: self.place.files[0].write_text("another\n"),
        )
        for number, change in enumerate(changes):
            change()
            self.assertEqual(self.build()[0], 0)
            self.assertEqual(len(self.called()), 2, number)

    def test_refused(self) -> None:
        """A crate that isn't proved is told with what rattle printed; what was there stays."""
        self.build()
        self.called()
        (self.notes / "status").write_text("1")
        write_files(self.root, {"crates/kuspveli_c/src/lib.rt": "fn g() {}\n"})
        status, told = self.build()
        self.assertEqual(status, 1)
        said = "refused\nbuild_library: kuspveli_c did not pass, so nothing was built: see out/libkuspveli.log\n"
        self.assertTrue(told.endswith(said), told)
        self.assertEqual([call.split()[0] for call in self.called()], ["rt", "rattle"])
        self.assertTrue(self.place.file.exists())
        self.assertFalse(self.place.is_current())


@unittest.skipUnless(all(map(shutil.which, COMMANDS)), "needs gcc and binutils")
class Linked(unittest.TestCase):
    def test_symbols(self) -> None:
        """Of both files only the library's calls can be seen."""
        with tempfile.TemporaryDirectory() as name:
            room, kit = Path(name), Kit(Path(name) / "kit", "kit 1")
            made = archive(room, "made", MADE)
            kit.heap.parent.mkdir(parents=True)
            shutil.copy(archive(room, "heap", HEAP), kit.heap)
            built, shared = link_library(kit, made, room)
            self.assertEqual(seen(built), {"kus_shape"})
            self.assertEqual(seen(shared, "-D"), {"kus_shape"})

    def test_other_version(self) -> None:
        """The binding for Python says which tool builds a library that lacks a call."""
        with tempfile.TemporaryDirectory() as name:
            made = Path(name) / "libkuspveli.so"
            words = ["gcc", "-shared", "-fPIC", "-x", "c", "-o", made, "-"]
            subprocess.run(words, input="int kus_shape (void) { return 0; }", text=True, check=True)
            ran = subprocess.run(
                [sys.executable, "-c", "import kuspveli"],
                capture_output=True,
                text=True,
                check=False,
                env={**os.environ, "KUSPVELI_LIBRARY": str(made), "PYTHONPATH": str(ROOT / "bindings" / "python")},
            )
        self.assertEqual(ran.returncode, 1)
        self.assertIn("it is of another version: tools/build_library proves and builds it", ran.stderr)

    def test_header(self) -> None:
        """The header is C99 by itself."""
        words = ["gcc", "-std=c99", "-pedantic-errors", "-Wall", "-Werror", "-fsyntax-only", "-x", "c", "-"]
        given = '#include "kuspveli.h"\n'
        ran = subprocess.run(
            [*words, f"-I{ROOT / 'include'}"], input=given, capture_output=True, text=True, check=False
        )
        self.assertEqual((ran.returncode, ran.stderr), (0, ""))


def archive(folder: Path, name: str, source: str) -> Path:
    """An archive with one object."""
    (folder / f"{name}.c").write_text(source)
    made = folder / f"lib{name}.a"
    subprocess.run(["gcc", "-fPIC", "-c", f"{name}.c"], cwd=folder, check=True)
    subprocess.run(["ar", "rcs", made, f"{name}.o"], cwd=folder, check=True)
    return made


def seen(path: Path, *words: str) -> set[str]:
    """The symbols that a file gives to others."""
    ran = subprocess.run(["nm", "-g", "--defined-only", *words, path], capture_output=True, text=True, check=True)
    return {line.split()[2] for line in ran.stdout.splitlines() if len(line.split()) == 3}


if __name__ == "__main__":
    unittest.main()
