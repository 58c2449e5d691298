"""What opening a font file and shaping a first word in it takes, by both libraries."""

from pathlib import Path

from beside.pages import words_of
from beside.programs import Files, counts_of_rounds, printed_by
from beside.sets import Set
from beside.table import millions
from common.documents import table_lines
from common.files import write_over

# The driver's kinds: all of the font, and without boxes and names.
KINDS = ("file", "bare")
# The tables that are inside the library.
OWN_TABLES = Path("-")
MIB = 1 << 20


def opening_lines(sets: list[Set], driver: Path, rounds: int, is_counted: bool, folder: Path) -> list[str]:
    """A table in Markdown: millions of instructions, or milliseconds of processor time."""
    unit = "millions of instructions" if is_counted else "ms"
    head = ["Font", "MB", unit, "without boxes and names", "HarfBuzz"]
    return table_lines([head, *(row_of(chosen, driver, rounds, is_counted, folder) for chosen in sets)])


def row_of(chosen: Set, driver: Path, rounds: int, is_counted: bool, folder: Path) -> list[str]:
    text = folder / "word.txt"
    write_over(text, f"{words_of(chosen)[0]}\n")
    files, works = Files(chosen, driver, OWN_TABLES, chosen.font, driver), [f"{kind}={text}" for kind in KINDS]
    if is_counted:
        taken = counts_of_rounds(files.rounds(1, works), len(works), folder / "callgrind")
    else:
        taken = [tuple(map(int, line.split())) for line in printed_by(files.rounds(rounds, works))]
    cells = [millions(number) for number in (*(own for own, _ in taken), min(theirs for _, theirs in taken))]
    return [chosen.font_name, f"{chosen.font.stat().st_size / MIB:.2f}", *cells]
