"""A run's numbers, kept in a file: what was measured with what, and of each set what was taken and the ratios."""

import json
from dataclasses import asdict, dataclass
from datetime import date
from pathlib import Path
from typing import Any

from beside.programs import THEIRS, printed_by
from beside.table import MARKS, ONCE, Pair, Row
from building.places import MEASURED, UNPROVED
from common.documents import wrapped
from common.faults import DATA, ToolFault
from common.files import write_file
from common.host import first_line, host
from sources.crates import ROOT

COLUMNS = (*MARKS, *ONCE, "memory")
KEYS = ("command", "unit", "harfbuzz", "library", "kit", "host", "date", "commit")
INSTRUCTIONS, NANOSECONDS = "instructions", "nanoseconds"


@dataclass(frozen=True)
class Kept:
    """A run: the command, the unit, HarfBuzz's version, the library (proved or not), the kit, the host, the date and
    the commit; and each set's row."""

    run: dict[str, str]
    rows: list[Row]

    @property
    def is_counted(self) -> bool:
        return self.run["unit"] == INSTRUCTIONS

    def told(self) -> list[str]:
        """What was measured, in lines of a document."""
        return told_run(self.run, "the program and the library", f"{self.run['harfbuzz']} and its library")


def told_run(run: dict[str, str], own: str, theirs: str) -> list[str]:
    """What a run measured of both sides, in lines of a document."""
    is_proved = run["library"] != UNPROVED
    by = f"proved with {run['kit']}" if is_proved else f"not proved (made by {run['kit']}, with no proof checked)"
    counted = "in instructions, which callgrind counts and no other load of the machine changes"
    unit = counted if run["unit"] == INSTRUCTIONS else "in processor time"
    return wrapped(
        f"By `{run['command']}` of {run['date']} at commit {run['commit']}, of {own} {by}, "
        f"beside {theirs}, {unit}, on {run['host']}."
    )


def run_of(command: str, unit: str, built: Path) -> dict[str, str]:
    """What is kept of a run beside its rows, of what was built."""
    return {
        "command": command,
        "unit": unit,
        "harfbuzz": printed_by([THEIRS, "--version"])[0],
        "library": UNPROVED if built.parent.name in (UNPROVED, MEASURED) else "proved",
        "kit": first_line("rt", "version"),
        "host": host(),
        "date": date.today().isoformat(),
        "commit": first_line("git", "-C", str(ROOT), "rev-parse", "--short", "HEAD"),
    }


def write_kept(path: Path, kept: Kept) -> None:
    value = {"run": kept.run, "sets": [set_of(row) for row in kept.rows]}
    write_file(path, json.dumps(value, indent=1, ensure_ascii=False) + "\n")


def set_of(row: Row) -> dict[str, Any]:
    taken = {what: value_of(row.pairs[what]) for what in COLUMNS if what in row.pairs}
    return {"set": row.name, "font": row.font, "glyphs": row.glyphs, "taken": taken}


def value_of(pair: Pair) -> dict[str, float | None]:
    rounded = {key: round(number, 1) for key, number in asdict(pair).items()}
    return {**rounded, "ratio": None if pair.ratio is None else round(pair.ratio, 2)}


def read_kept(path: Path) -> Kept:
    """A run that was kept; a file of another form is a fault."""
    try:
        value = json.loads(path.read_text(encoding="utf-8"))
        run = {key: str(value["run"][key]) for key in KEYS}
        return Kept(run, [row_of(each) for each in value["sets"]])
    except (AttributeError, KeyError, TypeError, ValueError) as error:
        raise ToolFault(DATA, f"{path}: not what --keep writes: {error!r}") from error


def row_of(value: dict[str, Any]) -> Row:
    pairs = {str(what): Pair(float(pair["theirs"]), float(pair["own"])) for what, pair in value["taken"].items()}
    return Row(str(value["set"]), str(value["font"]), pairs, str(value["glyphs"]))
