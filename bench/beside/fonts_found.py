"""What was found of each font, and a file of it, from which a later run continues."""

import json
from dataclasses import asdict, dataclass
from pathlib import Path
from typing import Iterator

from common.files import faults_of


# What of a font's tables a cause is seen by, beside those that change glyphs or positions.
KERNED = "table kern without GPOS"


@dataclass(frozen=True)
class Unlike:
    """A text whose line differs: that of the program, or its fault, and that of hb-shape."""

    text: str
    own: str
    theirs: str
    fault: str = ""


@dataclass(frozen=True)
class Found:
    """What was found of a font: how many lines, which of them differ, and what a cause is seen by: what was left out
    of the font, scripts and features of its GSUB, the number of its dotted circle. `of_texts` are the texts' scripts."""

    font: str
    stamp: str
    lines: int = 0
    refused: str = ""
    unlike: tuple[Unlike, ...] = ()
    told: tuple[str, ...] = ()
    scripts: tuple[str, ...] = ()
    features: tuple[str, ...] = ()
    circle: int = 0
    of_texts: tuple[str, ...] = ()


def read_found(path: Path) -> dict[str, Found]:
    """What a file has of each font; a line that was cut is passed over, and of two the later counts."""
    if not path.is_file():
        return {}
    with open(path, encoding="utf-8") as file:
        return {found.font: found for line in file for found in from_line(line)}


def from_line(line: str) -> Iterator[Found]:
    try:
        row = json.loads(line)
        unlike = tuple(Unlike(**each) for each in row.pop("unlike"))
        yield Found(unlike=unlike, **{key: tuple(v) if isinstance(v, list) else v for key, v in row.items()})
    except (AttributeError, KeyError, TypeError, ValueError):
        return


def add_found(path: Path, found: Found) -> None:
    with faults_of(path), open(path, "a", encoding="utf-8") as file:
        file.write(json.dumps(asdict(found)) + "\n")
