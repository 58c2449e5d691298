"""The glyphs of a printed line, and the same as JSON."""

import re
from dataclasses import dataclass

from common.faults import DATA, ToolFault
from common.printing import clean, clean_name
from common.writing import json_text
from shaping.options import Given

GLYPH = re.compile(
    r"(?P<name>[^|\n]*?)(?:=(?P<cluster>\d+))?(?:@(?P<dx>-?\d+),(?P<dy>-?\d+))?(?:\+(?P<ax>-?\d+)(?:,(?P<ay>-?\d+))?)?"
    r"(?:#(?P<flags>[0-9a-f]+))?(?:<(?P<box>-?\d+,-?\d+,-?\d+,-?\d+)>)?"
)
DIGITS = "0123456789"


@dataclass(frozen=True)
class Glyph:
    """A glyph as the program prints it, by its number or its name; what is not printed is 0, or None where it may be left
    out."""

    number: int
    cluster: int
    x_offset: int
    y_offset: int
    x_advance: int
    y_advance: int
    flags: int
    box: tuple[int, ...] | None
    name: str | None = None


def read_line(line: str) -> list[Glyph]:
    """The glyphs of a line. Those that have a name there have the number 0; the line is to have no name of digits alone,
    or with a mark that divides fields."""
    found = []
    for part in line.rstrip("\n").split("|") if line.strip() else []:
        glyph = GLYPH.fullmatch(part)
        if glyph is None:
            raise ToolFault(DATA, f"the program printed what is no glyph: {part!r}")
        numbers = [int(glyph[name] or 0) for name in ("cluster", "dx", "dy", "ax", "ay")]
        box = tuple(map(int, glyph["box"].split(","))) if glyph["box"] else None
        is_number = glyph["name"].isdecimal()
        number, name = (int(glyph["name"]), None) if is_number else (0, glyph["name"])
        found.append(Glyph(number, *numbers, int(glyph["flags"] or "0", 16), box, name))
    return found


def with_names(lines: str, names: dict[int, str], has_clusters: bool = True) -> str:
    """Lines of glyph numbers with the font's names in their place, each of which stays one field."""
    # A line feed is a field of its own here.
    fields = lines.replace("\n", "|\n|").split("|")
    return "|".join(map(Named(names, has_clusters).__getitem__, fields)).replace("|\n|", "\n")


def clean_lines(lines: str) -> str:
    """Lines with names as the program printed them, without characters that a terminal takes for more than a text."""
    return lines if lines.replace("\n", "").isprintable() else "".join(clean(line) + "\n" for line in lines.split("\n")[:-1])


class Named(dict[str, str]):
    """Fields of glyph numbers, with names in their place. Many lines have the same ones, so each is made once."""

    def __init__(self, names: dict[int, str], has_clusters: bool) -> None:
        self.names, self.has_clusters = names, has_clusters

    def __missing__(self, field: str) -> str:
        rest = field.lstrip(DIGITS)
        number = field[: len(field) - len(rest)]
        name = self.names.get(int(number), f"gid{number}") if number else ""
        made = self[field] = clean_name(name, self.has_clusters) + rest
        return made


def text_of(glyphs: list[Glyph], given: Given) -> str:
    """A line of glyphs by their numbers as the program prints it, with the fields that are asked for."""
    parts = []
    x = y = 0
    for glyph in glyphs:
        parts.append(field_of(glyph, x, y, given))
        # Without advances each offset is from the line's start on.
        if given.has("no-advances"):
            x, y = x + glyph.x_advance, y + glyph.y_advance
    return "|".join(parts) + "\n"


def field_of(glyph: Glyph, x: int, y: int, given: Given) -> str:
    """A glyph's fields, its offset from a point on."""
    said = str(glyph.number)
    if not given.has("no-clusters"):
        said += f"={glyph.cluster}"
    if not given.has("no-positions"):
        x, y = x + glyph.x_offset, y + glyph.y_offset
        if x or y:
            said += f"@{x},{y}"
        if not given.has("no-advances"):
            said += f"+{glyph.x_advance}" + (f",{glyph.y_advance}" if glyph.y_advance else "")
    if given.has("show-flags") and glyph.flags:
        said += f"#{glyph.flags:x}"
    if given.has("show-extents") and glyph.box is not None:
        said += f"<{','.join(map(str, glyph.box))}>"
    return said


def as_json(glyphs: list[Glyph], names: dict[int, str], given: Given) -> str:
    """A line of JSON as hb-shape prints it: glyph, cluster, offsets, advances, and flags and boxes where asked for."""
    return json_text([entry(glyph, names, given) for glyph in glyphs])


def shown_name(glyph: Glyph, names: dict[int, str], given: Given) -> int | str:
    if glyph.name is not None:
        return glyph.name
    return glyph.number if given.has("no-glyph-names") else names.get(glyph.number, f"gid{glyph.number}")


def entry(glyph: Glyph, names: dict[int, str], given: Given) -> dict[str, int | str]:
    made: dict[str, int | str] = {"g": shown_name(glyph, names, given)}
    if not given.has("no-clusters"):
        made["cl"] = glyph.cluster
    if not given.has("no-positions"):
        made |= {"dx": glyph.x_offset, "dy": glyph.y_offset}
        if not given.has("no-advances"):
            made |= {"ax": glyph.x_advance, "ay": glyph.y_advance}
    if given.has("show-flags") and glyph.flags:
        made["fl"] = glyph.flags
    if glyph.box is not None:
        made |= dict(zip(("xb", "yb", "w", "h"), glyph.box))
    return made
