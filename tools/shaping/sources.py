"""What a text is shaped by: a font file by the program kuspveli, or a font's value and tables as JSON by hb_shape."""

import json
import subprocess
import tempfile
from dataclasses import dataclass
from functools import cached_property
from pathlib import Path
from typing import Any, Container, Protocol

from common.faults import DATA, one_line
from common.files import faults_of
from formats.sfnt import FontTables, explained
from shaping.cache import part_of

HB_SHAPE, KUSPVELI, OF_TEXT = "hb_shape: ", "kuspveli: ", "text: "
JSON_FONT = ".json"
# The key of a kept value with what is left out of its font; readers of the format pass over it.
TOLD = "told"


@dataclass(frozen=True)
class Ran:
    """What a run printed, its status, and its fault."""

    printed: str
    status: int
    fault: str


class Source(Protocol):
    """A font that texts are shaped in."""

    @property
    def characters(self) -> Container[int]:
        """The characters that it has a glyph for."""

    @property
    def left_out(self) -> list[str]:
        """What of it is left out though it changes glyphs or positions."""

    @property
    def names(self) -> dict[int, str] | None:
        """The names of its glyphs by their numbers; None where the program prints them itself."""

    @property
    def tables_note(self) -> str:
        """Which tables of characters it is shaped by."""

    def run(self, text: bytes, options: list[str]) -> Ran:
        """Runs the program on a text."""

    def told(self, status: int, fault: str, where: str) -> str:
        """A fault with where it is: of the font, or of the text that stands there."""


@dataclass(frozen=True)
class FontFile:
    """A font of a font file, shaped by kuspveli."""

    program: Path
    font: Path
    index: int
    names: None = None

    @cached_property
    def tables(self) -> FontTables:
        return FontTables(self.font, self.index)

    @property
    def characters(self) -> Container[int]:
        return self.tables.characters

    @property
    def left_out(self) -> list[str]:
        return [f"table {tag}" for tag in self.tables.that_change]

    @property
    def tables_note(self) -> str:
        return "tables: those of the program, of Unicode 15.0"

    def run(self, text: bytes, options: list[str]) -> Ran:
        index = [f"--face={self.index}"] if self.index else []
        words = [self.program.name, *options, *index, "--", self.font]
        return ran(KUSPVELI, self.program, words, text)

    def told(self, status: int, fault: str, where: str) -> str:
        if status != DATA:
            return f"{where}: {fault.removeprefix(OF_TEXT)}"
        font, mark, said = fault.rpartition(": ")
        return f"{font}{mark}{explained(said)}"


@dataclass(frozen=True)
class Converted:
    """A font's value and tables as files of JSON, shaped by hb_shape."""

    program: Path
    tables: Path
    font: Path
    whence: str = ""

    @cached_property
    def characters(self) -> Container[int]:
        return {row[0] for row in self.rows_of("cmap")}

    @property
    def left_out(self) -> list[str]:
        told_lines = self.key_of(TOLD, [])
        return [line for line in told_lines if isinstance(line, str)] if isinstance(told_lines, list) else []

    @cached_property
    def names(self) -> dict[int, str]:
        return dict(self.rows_of("names"))

    @property
    def tables_note(self) -> str:
        version = part_of(self.tables, "unicode", {}).get("version", "?")
        return f"tables: {self.tables}, of Unicode {version}, {self.whence}"

    def run(self, text: bytes, options: list[str]) -> Ran:
        with tempfile.NamedTemporaryFile() as file:
            with faults_of(file.name):
                file.write(text)
                file.flush()
            # It refuses words that are no UTF-8, among them its own name, which is that of a folder somewhere.
            return ran(HB_SHAPE, self.program, [self.program.name, *options, self.tables, self.font, file.name], b"")

    def told(self, status: int, fault: str, where: str) -> str:
        if status != DATA:
            return f"{where}: {fault}"
        from formats.where import font_fault, tables_fault  # it takes a while to read in, and few runs need it

        # The program reads the tables first.
        for path, find in ((self.tables, tables_fault), (self.font, font_fault)):
            found = find(path)
            if found is not None:
                return f"{path}: {fault}: {found}"
        return f"{self.tables} or {self.font}: {fault}"

    def rows_of(self, key: str) -> list[Any]:
        """The rows of a key; none where the file, which the program refuses, has something else there."""
        rows = self.key_of(key, [])
        return rows if isinstance(rows, list) and all(isinstance(row, list) and len(row) >= 2 for row in rows) else []

    def key_of(self, key: str, usual: Any) -> Any:
        return key_of(self.font, key, usual)


def ran(own: str, program: Path, words: list[Any], text: bytes) -> Ran:
    """Runs a program with a text on its standard input."""
    done = subprocess.run(words, executable=program, input=text, capture_output=True, check=False)
    fault = one_line(done.stderr.decode("utf-8", "replace")).removeprefix(own)
    status = done.returncode if done.returncode >= 0 else 128 - done.returncode
    return Ran(done.stdout.decode("utf-8", "replace"), status, fault)


def is_json(font: Path) -> bool:
    return font.suffix == JSON_FONT


def key_of(font: Path, key: str, usual: Any) -> Any:
    """A key of a font's file; what is usual where it has none, or can't be read."""
    try:
        return json.loads(font.read_bytes()).get(key, usual) if is_json(font) else part_of(font, key, usual)
    except (AttributeError, RecursionError, TypeError, ValueError):
        return usual
