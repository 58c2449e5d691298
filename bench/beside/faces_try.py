"""A font by the program, which prints FONT of the file's bytes, and by the converter: whether both are the same."""

import json
import os
import shutil
import subprocess
import time
from dataclasses import asdict, dataclass
from functools import cache
from itertools import zip_longest
from pathlib import Path
from typing import Any, Iterator

from common.faults import one_line

THEIRS, CONVERTER = "hb-shape", "font_to_json"
# How a font ends: one value by both, two, refused by the program alone, by the converter alone, or by both; without a
# converter read or refused.
SAME, DIFFERS, REFUSED, UNCONVERTED, BOTH = "same", "differs", "refused", "not converted", "refused by both"
READ = "read"
COLLECTION = b"ttcf"
# Characters for a font without a table of characters that fontTools reads.
USUAL = "Aa1\u0627\u0905\u0e01\u4e00"
TRIED = 12
# What stands before the rows of FONT, and the keys of rows that may be missing where there is no row.
ABOUT = ("format", "source")
ROWS = ("cmap", "variants", "h", "v", "origins", "extents", "names")
SHOWN = 60


@dataclass(frozen=True)
class Compared:
    """What came of a font: how it ended, the faults of the program and of the converter or where the values differ, the
    seconds that the program and the converter took, and of a refused font what hb-shape makes of its characters."""

    font: str
    index: int
    size: int
    end: str
    fault: str = ""
    unconverted: str = ""
    where: str = ""
    theirs: str = ""
    read: float = 0.0
    converted: float = 0.0

    def row(self) -> str:
        return json.dumps(asdict(self)) + "\n"


@dataclass(frozen=True)
class Printed:
    """FONT that the program prints of a font file, or its fault, and the seconds that it took."""

    value: Any
    fault: str
    seconds: float


def printed(program: Path, path: Path, index: int, is_wanted: bool = True) -> Printed:
    """What the program reads of a font by its bytes; where its value isn't wanted, an empty one."""
    start = time.monotonic()
    words = [program, f"--face={index}", "--json", path]
    out = subprocess.PIPE if is_wanted else subprocess.DEVNULL
    ran = subprocess.run(words, stdin=subprocess.DEVNULL, stdout=out, stderr=subprocess.PIPE, check=False)
    seconds = time.monotonic() - start
    if ran.returncode == 0:
        return Printed(json.loads(ran.stdout) if is_wanted else {}, "", seconds)
    said = one_line(ran.stderr.decode(errors="replace")) or f"status {ran.returncode}"
    return Printed(None, said, seconds)


def converted(converter: Path, path: Path, index: int) -> tuple[Any, str, float]:
    """What the converter makes of a font, or its fault, and the seconds of processor time that it took."""
    start = os.times()
    ran = subprocess.run([converter, "--quiet", f"--index={index}", path], capture_output=True, check=False)
    end = os.times()
    seconds = end.children_user + end.children_system - start.children_user - start.children_system
    if ran.returncode == 0:
        return json.loads(ran.stdout), "", seconds
    said = one_line(ran.stderr.decode(errors="replace")).removeprefix(f"{CONVERTER}: ").removeprefix(f"{path}: ")
    return None, said or f"status {ran.returncode}", seconds


# ---- what a value means


def meaning(value: dict[str, Any]) -> dict[str, Any]:
    """FONT without what is written in several ways: keys without rows, flags of 0, coverages in another order."""
    found = {key: [] for key in ROWS} | {key: part for key, part in value.items() if key not in ABOUT}
    found["gdef"] = {"attach": [], "sets": []} | found.get("gdef", {})
    for key in ("gsub", "gpos"):
        for lookup in found.get(key, {}).get("lookups", []):
            lookup.setdefault("flags", 0)
            for subtable in lookup["subtables"]:
                order_coverages(lookup["type"], subtable)
    return found


def order_coverages(kind: str, subtable: Any) -> None:
    """Puts the glyphs of the coverages of a context or of a reverse lookup in order."""
    if kind == "reverse":
        subtable[:2] = [[sorted(set(each)) for each in part] for part in subtable[:2]]
    elif kind in ("context", "chain") and subtable["format"] == "coverage":
        for rule in subtable["rules"]:
            rule[:3] = [[sorted(set(each)) for each in part] for part in rule[:3]]
    elif kind in ("context", "chain") and subtable["format"] == "classes":
        subtable["first"] = sorted(set(subtable["first"]))


def indices(path: Path) -> range:
    """The indices of a file's fonts."""
    with open(path, "rb") as file:
        head = file.read(12)
    return range(int.from_bytes(head[8:12], "big") if head[:4] == COLLECTION else 1)


def compare(program: Path, converter: Path, path: Path, index: int) -> Compared:
    """Reads a font by both, and compares."""
    own = printed(program, path, index)
    theirs, unconverted, seconds = converted(converter, path, index)
    where = ""
    if own.value is not None and theirs is not None:
        where = next(differences(meaning(own.value), meaning(theirs)), "")
        end = DIFFERS if where else SAME
    else:
        end = BOTH if own.value is theirs else UNCONVERTED if theirs is None else REFUSED
    shown = shaped(path, index) if own.value is None else ""
    size = path.stat().st_size
    times = round(own.seconds, 4), round(seconds, 3)
    return Compared(str(path), index, size, end, own.fault, unconverted, where, shown, *times)


def read_alone(program: Path, path: Path, index: int) -> Compared:
    """Reads a font by the program."""
    own = printed(program, path, index, False)
    end, shown = (READ, "") if own.value is not None else (REFUSED, shaped(path, index))
    return Compared(str(path), index, path.stat().st_size, end, own.fault, theirs=shown, read=round(own.seconds, 4))


def differences(own: Any, theirs: Any, where: str = "") -> Iterator[str]:
    """Where two values differ, key by key and row by row."""
    if own == theirs:
        return
    if isinstance(own, dict) and isinstance(theirs, dict):
        for key in [*own, *(key for key in theirs if key not in own)]:
            yield from differences(own.get(key), theirs.get(key), f"{where} {key}".strip())
    elif isinstance(own, list) and isinstance(theirs, list):
        for at, (left, right) in enumerate(zip_longest(own, theirs)):
            yield from differences(left, right, f"{where}[{at}]")
    else:
        yield f"{where}: {own!r:.{SHOWN}} where the converter has {theirs!r:.{SHOWN}}"


# ---- refused fonts


@cache
def has_theirs() -> bool:
    return shutil.which(THEIRS) is not None


def shaped(path: Path, index: int) -> str:
    """How many glyphs of the font's first characters hb-shape has that aren't glyph 0, by OpenType's rules."""
    if not has_theirs():
        return ""
    numbers = ",".join(f"{ord(each):x}" for each in characters(path, index))
    words = [THEIRS, "--shapers=ot", f"--face-index={index}", "--no-glyph-names", "--no-positions", "--no-clusters"]
    ran = subprocess.run([*words, f"--unicodes={numbers}", path], capture_output=True, text=True, check=False)
    glyphs = ran.stdout.strip().strip("[]").split("|") if ran.returncode == 0 else []
    return f"{sum(glyph not in ('', '0') for glyph in glyphs)} of {len(glyphs)} glyphs"


def characters(path: Path, index: int) -> Iterator[str]:
    from fontTools.ttLib import TTFont

    try:
        found = TTFont(path, fontNumber=index, lazy=True).getBestCmap() or {}
    except Exception:  # pylint: disable=broad-exception-caught
        found = {}
    numbers = [number for number in sorted(found) if not chr(number).isspace()][:TRIED]
    yield from map(chr, numbers or map(ord, USUAL))
