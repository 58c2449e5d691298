"""FONT of a font file as the program kuspveli prints it. Of an instance of a variable font and of a packed file (WOFF)
fontTools makes a plain font first."""

import contextlib
import functools
import signal
import subprocess
import tempfile
from pathlib import Path
from typing import Iterator

from building.places import KUSPVELI
from building.ready import ready_program
from common.faults import DATA, ToolFault, one_line
from common.notes import Notes, Progress
from fontjson.check_packed import check_packed, is_packed
from fontjson.limits import OutOfTime, reading
from fontjson.variations import Place
from formats.sfnt import FontTables, check_file, explained

NAME = "font_to_json"
# The program's name for the file that it is given open, so that a file may have any name.
INPUT = "/dev/stdin"
FAULT, OUT_OF_MEMORY = f"{KUSPVELI.name}: ", "OutOfMemory"
SUFFIX = ".ttf"


@functools.cache
def reader() -> Path:
    """The program of the sources that stand here; that it is unproved is told once."""
    return ready_program(NAME, target=KUSPVELI)


def font_text(
    path: str, index: int, notes: Notes, is_limited: bool = True, place: Place | None = None, program: Path | None = None
) -> bytes:
    """FONT of a font of a file, of a variable font at a place, as the program prints it, in one line."""
    check_file(path, index)
    program, progress = program or reader(), Progress(NAME)
    try:
        with reading(path, is_limited, progress), plain_font(path, index, progress, place) as (plain, at):
            note_tables(FontTables(plain, at), notes)
            progress.step(program.name)
            return printed(program, path, plain, at)
    finally:
        progress.end()


@contextlib.contextmanager
def plain_font(path: str, index: int, progress: Progress, place: Place | None) -> Iterator[tuple[Path, int]]:
    """The file and the index of a font that the program reads: those that are given, or what fontTools makes of them."""
    check_packed(path)
    if place is None and not is_packed(path):
        yield Path(path), index
        return
    from fontjson.source import write_plain  # few fonts need fontTools

    with tempfile.NamedTemporaryFile(suffix=SUFFIX) as file:
        write_plain(file, path, index, progress, place)
        yield Path(file.name), 0


def printed(program: Path, path: str, plain: Path, index: int) -> bytes:
    """What the program prints of a font of a plain file; a fault names the file that was given."""
    words = [program.name, f"--face={index}", "--json", "--", INPUT]
    with open(plain, "rb") as file:
        ran = subprocess.run(words, executable=program, stdin=file, capture_output=True, check=False)
    if ran.returncode == 0:
        return ran.stdout
    if ran.returncode == -signal.SIGXCPU:
        raise OutOfTime
    said = one_line(ran.stderr.decode("utf-8", "replace")).removeprefix(FAULT).removeprefix(f"{INPUT}: ")
    if said == OUT_OF_MEMORY:
        raise MemoryError
    status = ran.returncode if ran.returncode > 0 else 128 - ran.returncode
    raise ToolFault(status, f"{path}: {explained(said) if status == DATA else said or f'status {status}'}")


def note_tables(tables: FontTables, notes: Notes) -> None:
    """Notes the tables of a font that the format has no word for."""
    for tag in tables.that_change:
        notes.changed(f"table {tag}")
    for tag in tables.left_out:
        notes.left_out(f"table {tag.strip()}")
    notes.left_out("axes of variations, at their default", tables.axis_count)
