"""One font's texts by the program, or by the library for C, and by hb-shape."""

import hashlib
import json
import os
import subprocess
import tempfile
from dataclasses import dataclass
from pathlib import Path
from typing import Any, Iterator

from beside.differences import difference
from beside.fonts_found import KERNED, Found, Unlike
from beside.fonts_texts import texts_of
from common.faults import ToolFault
from common.files import faults_of
from common.notes import Notes
from fontjson.cli import read_font
from fontjson.keep import KEYS, Kept
from fontjson.program import reader
from formats.sfnt import FontTables
from shaping.cache import cached, fingerprint, font_name
from shaping.context import shape_in_context
from shaping.options import Given
from shaping.program import Line, run_all
from shaping.sources import Converted
from shaping.texts import Text, script_of

THEIRS = "hb-shape"
CIRCLE = 0x25CC
HEBREW = frozenset((*range(0x590, 0x600), *range(0xFB1D, 0xFB50)))
# What a line across depends on: glyphs by their numbers, and boxes only where GPOS doesn't place the marks.
SHAPED = Kept(tuple(key for key in KEYS if key not in ("v", "origins", "extents", "names")))
WITH_BOXES = Kept((*SHAPED.keys, "extents"))


@dataclass(frozen=True)
class Trial:
    """What fonts are tried by: tables, the program (None is the library for C), the folder of converted fonts, and a
    stamp of all that an answer depends on but the font."""

    tables: Path
    program: Path | None
    values: Path
    stamp: str

    def stamp_of(self, font: Path) -> str:
        status = font.stat()
        of = (self.stamp, str(font.resolve()), status.st_size, status.st_mtime_ns)
        return hashlib.sha256(repr(of).encode()).hexdigest()


def trial(tables: Path, program: Path | None, library: Path | None, values: Path) -> Trial:
    of = [hashlib.sha256(path.read_bytes()).hexdigest() for path in (tables, library or program, reader()) if path is not None]
    theirs = subprocess.run([THEIRS, "--version"], capture_output=True, text=True, check=True).stdout
    return Trial(tables, program, values, fingerprint(*of, theirs, WITH_BOXES))


def try_font(font: Path, by: Trial) -> Found:
    """What is found of a font."""
    stamp = by.stamp_of(font)
    try:
        value = converted(font, by.values, stamp)
    except ToolFault as fault:
        return Found(str(font), stamp, refused=str(fault))
    made = json.loads(value.read_bytes())
    characters = [row[0] for row in made.get("cmap", [])]
    texts = texts_of(frozenset(characters), font.name)
    theirs = lines_of(font, texts) if texts else []
    if theirs is None:
        return Found(str(font), stamp, refused=f"{font}: {THEIRS} refuses it")
    own = lines_by(by, value, [Text(text.encode(), font.name) for text in texts])
    return Found(
        str(font),
        stamp,
        len(texts),
        unlike=tuple(unlike_lines(texts, own, theirs)),
        told=tuple(told_of(FontTables(font))),
        scripts=tuple(row[0] for row in made.get("gsub", {}).get("scripts", [])),
        features=tuple(sorted({row[0] for row in made.get("gsub", {}).get("features", [])})),
        circle=dict(made.get("cmap", [])).get(CIRCLE, 0),
        of_texts=tuple(dict.fromkeys(map(script_of, texts))),
    )


def told_of(tables: FontTables) -> Iterator[str]:
    """What a cause is seen by of a font's tables."""
    yield from (f"table {tag}" for tag in tables.that_change)
    if "kern" in tables.places and "GPOS" not in tables.places:
        yield KERNED


def converted(font: Path, values: Path, stamp: str) -> Path:
    """The font's value as a file, made where it is not there."""
    return cached(values / font_name(font, 0), stamp, lambda: read_shaped(str(font)))


def read_shaped(font: str) -> dict[str, Any]:
    """The keys of a font that its lines depend on."""
    made = read_font(font, 0, SHAPED, Notes())
    return read_font(font, 0, WITH_BOXES, Notes()) if needs_boxes(made) else made


def needs_boxes(made: dict[str, Any]) -> bool:
    """Whether marks are positioned by their boxes: without GPOS, and those of Hebrew where GPOS has no Hebrew."""
    if "gpos" not in made:
        return True
    has_rules = any(row[0] == "hebr" for row in made["gpos"]["scripts"])
    return not has_rules and any(row[0] in HEBREW for row in made.get("cmap", []))


def unlike_lines(texts: list[str], own: list[Line], theirs: list[str]) -> Iterator[Unlike]:
    for text, mine, other in zip(texts, own, theirs, strict=True):
        if mine.fault or difference(mine.glyphs, other) is not None:
            yield Unlike(text, mine.glyphs.strip(), other.strip(), mine.fault)


def lines_by(by: Trial, value: Path, texts: list[Text]) -> list[Line]:
    """The lines of texts by the program, or by the library in this process."""
    if by.program is None:
        return shape_in_context(by.tables, value, texts, Given(value, None), {})
    return run_all(Converted(by.program, by.tables, value), texts, ["--no-glyph-names"])


def lines_of(font: Path, texts: list[str]) -> list[str] | None:
    """What hb-shape prints of each text; None where it refuses the font."""
    with tempfile.NamedTemporaryFile() as file:
        with faults_of(file.name):
            file.write("".join(f"{text}\n" for text in texts).encode())
            file.flush()
        words = ["--shapers=ot", "--utf8-clusters", "--no-glyph-names", f"--text-file={file.name}", str(font)]
        ran = subprocess.run([THEIRS, *words], capture_output=True, text=True, check=False, env=environment())
    lines = [line.strip("[]") + "\n" for line in ran.stdout.splitlines()]
    return lines if not ran.returncode and len(lines) == len(texts) else None


def environment() -> dict[str, str]:
    """That of this process without a language of the user's."""
    return {**os.environ, "LC_ALL": "C.UTF-8"}
