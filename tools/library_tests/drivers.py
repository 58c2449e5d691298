"""The programs over the library, in C, Rust and Python."""

import os
import re
import shutil
import struct
import subprocess
import sys
from dataclasses import dataclass, field
from pathlib import Path

from building.places import Place
from common.faults import DATA, ToolFault
from common.files import write_over
from library_tests.cases import SETTINGS, Case, Script, Words
from sources.crates import ROOT

SOURCES = Path(__file__).parent / "c"
INCLUDE = ROOT / "include"
BINDINGS = ROOT / "bindings"
WARNINGS = ("-Wall", "-Wextra", "-Werror")
VALGRIND = ("valgrind", "-q", "--leak-check=full", "--show-leak-kinds=all", "--errors-for-leak-kinds=all", "--error-exitcode=9")
WRAPPED = ("malloc", "realloc", "aligned_alloc", "free")
# In the place of a file of tables: the font is a font file, and the tables are those inside the library.
OWN_TABLES = Path("-")
# How many damaged font files are read, and how many of them under valgrind.
DAMAGED, DAMAGED_SLOWLY = 2000, 20
COUNTED = ("valgrind", "-q", "--tool=callgrind", "--instr-atstart=no")
# How many calls a round of the driver beside HarfBuzz has, and the line of a count in callgrind's file.
CALLS = 60
TOTAL = re.compile(r"^totals: (\d+)$", re.MULTILINE)


@dataclass(frozen=True)
class Tested:
    """The library, the folder of the fonts' values, and one for what is made."""

    library: Place
    values: Path
    work: Path


@dataclass(frozen=True)
class Driver:
    """A program that prints the line of each case that it reads."""

    name: str
    command: list[str | Path]
    environment: dict[str, str] = field(default_factory=dict)

    def lines(self, tables: Path, font: Path, room: int, cases: list[Case]) -> list[str]:
        words = [*self.command, tables, font, str(room)]
        return call(words, "".join(case.line() for case in cases), self.environment).splitlines()


def call(words: list[str | Path], given: str = "", environment: dict[str, str] | None = None) -> str:
    """What a command prints; it has to succeed, and to print no error."""
    ran = subprocess.run(
        words,
        input=given,
        capture_output=True,
        encoding="utf-8",
        errors="replace",
        check=False,
        env={**os.environ, **(environment or {})},
    )
    if ran.returncode:
        raise ToolFault(DATA, f"{Path(words[0]).name} {words[-1]}: status {ran.returncode}: {ran.stderr[-2000:]}")
    return ran.stdout


def check_header(work: Path) -> None:
    """The header by itself in each language, and beside HarfBuzz's."""
    alone = work / "alone.c"
    write_over(alone, '#include "kuspveli.h"\n')
    for words in (["gcc", "-std=c99"], ["gcc", "-std=c11"], ["g++", "-std=c++11", "-x", "c++"]):
        call([*words, "-pedantic-errors", *WARNINGS, f"-I{INCLUDE}", "-fsyntax-only", alone])
    call(["gcc", "-std=c11", *WARNINGS, f"-I{INCLUDE}", *harfbuzz("--cflags"), "-fsyntax-only", SOURCES / "layouts.c"])


def harfbuzz(what: str) -> list[str]:
    return call(["pkg-config", what, "harfbuzz"]).split()


def build(work: Path, library: Place) -> list[Driver]:
    """The drivers of each language: C by the archive, under valgrind, and by the shared library."""
    archive, shared = library.files
    made = [
        Driver("C, under valgrind", [*VALGRIND, compiled(work, "lines", [archive])]),
        Driver("C, shared", [compiled(work, "lines", [shared])], {"LD_LIBRARY_PATH": str(library.folder)}),
        Driver("Python", [sys.executable, SOURCES.parent / "lines.py"], {"KUSPVELI_LIBRARY": str(shared)}),
    ]
    return made if shutil.which("cargo") is None else [*made, rust_driver(work, library)]


def compiled(work: Path, name: str, given: list[str | Path]) -> Path:
    """A driver in C."""
    program = work / f"{name}{len(list(work.iterdir()))}"
    call(["gcc", "-std=gnu11", "-O2", *WARNINGS, f"-I{INCLUDE}", "-o", program, SOURCES / f"{name}.c", *given])
    return program


def rust_driver(work: Path, library: Place) -> Driver:
    """The driver over the wrapper, which is built without any registry."""
    words = ["cargo", "build", "--quiet", "--offline", "--release", "--examples", "--target-dir", work / "rust"]
    given = {"KUSPVELI_OUT": str(library.folder)}
    call([*words, "--manifest-path", BINDINGS / "rust" / "Cargo.toml"], environment=given)
    return Driver("Rust", [work / "rust" / "release" / "examples" / "lines"])


def count_calls(work: Path, library: Place, files: tuple[Path, Path], calls: int, words: list[str]) -> str:
    """Calls on four threads, with the allocations counted."""
    wraps = [f"-Wl,--wrap={name}" for name in WRAPPED]
    program = compiled(work, "many", [library.file, "-pthread", *wraps])
    return call([program, *files, str(calls), *words]).strip()


def random_calls(work: Path, library: Place, fonts: list[bytes], seed: int, calls: int) -> str:
    """Calls of every kind with arguments drawn by a seed, under valgrind: over font files and a font of JSON."""
    given = [work / f"drawn{at}.ttf" for at in range(len(fonts))]
    for path, font in zip(given, fonts, strict=True):
        write_over(path, font)
    words = [compiled(work, "calls", [library.file]), str(seed), str(calls), *given, ROOT / "examples" / "ligature_font.json"]
    return call([*VALGRIND, *words]).strip()


def try_fonts(work: Path, library: Place, tables: Path, font: Path, text: str) -> str:
    """What the calls for font files answer of a font file, a collection of it, and damaged files."""
    program, collection = compiled(work, "fonts", [library.file]), work / "collection"
    write_over(collection, collection_of([font.read_bytes()] * 3))
    words = [tables, font, collection, "3"]
    call([*VALGRIND, program, *words, str(DAMAGED_SLOWLY), text])
    return call([program, *words, str(DAMAGED), text]).strip()


def try_settings(work: Path, library: Place, script: Script) -> str:
    """What a client sets in a font, beside HarfBuzz: its advances, its scale, and the metrics of lines."""
    program, texts = work / "settings", work / "settings.txt"
    if not program.exists():
        flags = [*harfbuzz("--cflags"), SOURCES / "settings.c", library.file, *harfbuzz("--libs")]
        call(["gcc", "-std=gnu11", "-O2", *WARNINGS, f"-I{INCLUDE}", "-o", program, *flags])
    write_over(texts, "".join(f"{case.text}\n" for case in script.cases if case.settings == SETTINGS[0] and case.text))
    return call([program, script.font, texts]).strip()


def collection_of(fonts: list[bytes]) -> bytes:
    """The collection (OpenType, chapter 4) of font files of one font: each with its offsets from where the collection
    begins."""
    at = 12 + 4 * len(fonts)
    offsets, made = [], b""
    for font in fonts:
        offsets.append(at + len(made))
        font += bytes(-len(font) % 4)
        [count] = struct.unpack_from(">H", font, 4)
        rows = struct.iter_unpack(">4sIII", font[12 : 12 + 16 * count])
        moved = [struct.pack(">4sIII", name, total, offset + offsets[-1], length) for name, total, offset, length in rows]
        made += font[:12] + b"".join(moved) + font[12 + 16 * count :]
    return struct.pack(f">4sII{len(fonts)}I", b"ttcf", 0x10000, len(fonts), *offsets) + made


def stack_taken(work: Path, library: Place, given: list[Path]) -> tuple[list[str], int, int]:
    """The statuses of the calls on threads with stacks as small as the header says, and what calls that read and others
    took of them, in bytes. Tables, a font, a text and a font file are given."""
    program = work / "stack"
    if not program.exists():
        call(["gcc", "-std=gnu11", "-O2", *WARNINGS, f"-I{INCLUDE}", "-o", program, SOURCES / "stack.c", library.file, "-pthread"])
    *statuses, bytes_ = call([program, *given]).strip().split(", ")
    reading, other = map(int, bytes_.split())
    return statuses, reading, other


@dataclass(frozen=True)
class Beside:
    """What a call and HarfBuzz's take for some words, and whether the glyphs are the same."""

    own: float
    theirs: float
    is_same: bool

    @property
    def ratio(self) -> float:
        return self.own / self.theirs

    def least(self, other: "Beside") -> "Beside":
        return Beside(min(self.own, other.own), min(self.theirs, other.theirs), self.is_same and other.is_same)


def times(tested: Tested, files: tuple[Path, Path], words: Words) -> Beside:
    """The microseconds of processor time of a call in one run, whose words come in turn."""
    own, theirs, glyphs = call([beside_driver(tested), *files, words.font, *words.words]).split()
    return Beside(float(own), float(theirs), glyphs == "same")


def instructions(tested: Tested, files: tuple[Path, Path], words: Words) -> Beside:
    """The instructions of a call, as callgrind counts them: each side's round is a file of its own."""
    kept = tested.work / "counted"
    driver = [beside_driver(tested), *files, words.font, *words.words]
    *_, glyphs = call([*COUNTED, f"--callgrind-out-file={kept}", *driver]).split()
    own, theirs = (counted(kept.with_suffix(f".{part}")) / CALLS for part in (1, 2))
    return Beside(own, theirs, glyphs == "same")


def counted(path: Path) -> int:
    """The instructions of a file of callgrind's."""
    found = TOTAL.search(path.read_text(encoding="utf-8"))
    if found is None:
        raise ToolFault(DATA, f"{path.name}: callgrind wrote no total")
    return int(found[1])


def beside_driver(tested: Tested) -> Path:
    """The driver beside HarfBuzz, which is compiled once."""
    program = tested.work / "beside"
    if not program.exists():
        flags = [*harfbuzz("--cflags"), SOURCES / "beside.c", tested.library.file, *harfbuzz("--libs")]
        call(["gcc", "-std=gnu11", "-O2", *WARNINGS, f"-DCALLS={CALLS}", f"-I{INCLUDE}", "-o", program, *flags])
    return program
