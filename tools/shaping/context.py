"""Texts with what stands before and after them, shaped by the library for C, since the program has no words for it."""

import importlib
import re
import sys
from pathlib import Path
from typing import Any

from common.faults import DATA, FILES, SHAPING, WORDS, ToolFault
from shaping.glyphs import Glyph, text_of
from shaping.options import Given
from shaping.program import Line
from shaping.texts import Text

BINDINGS = Path(__file__).parent.parent.parent / "bindings" / "python"
DIRECTIONS = {"l": "ltr", "r": "rtl", "t": "ttb", "b": "btt"}
FLAGS = {
    "bot": 1, "eot": 2, "preserve-default-ignorables": 4, "remove-default-ignorables": 8, "no-dotted-circle": 16,
    "unsafe-to-concat": 64, "safe-to-insert-tatweel": 128, "safe-breaks": 256,
}  # fmt: skip
FEATURE = re.compile(
    r"""\s*(?P<sign>[+-]?)\s*(?P<quote>["']?)(?P<tag>\w{1,4})(?P=quote)\s*"""
    r"""(?:\[\s*(?P<start>\d*)\s*(?:(?P<colon>[:;])\s*(?P<end>\d*))?\s*\])?\s*=?\s*(?P<value>\d+|on|off)?\s*""",
    re.ASCII,
)


def shape_in_context(tables: Path, font: Path, texts: list[Text], given: Given, boxes: dict[int, Any]) -> list[Line]:
    """The lines of texts between the texts of --text-before and --text-after."""
    bindings = load()
    try:
        opened = bindings.Font(tables.read_bytes(), font.read_bytes())
    except bindings.Fault as fault:
        return [Line(text, "", DATA, str(fault)) for text in texts]
    wanted = settings(bindings, given)
    return [line_of(bindings, opened, text, wanted, given, boxes) for text in texts]


def load() -> Any:
    """The bindings for Python over the library that is built, installed or named by KUSPVELI_LIBRARY."""
    # Its own, also where another one is installed.
    sys.path.insert(0, str(BINDINGS))
    try:
        return importlib.import_module("kuspveli")
    except (AttributeError, ImportError) as missing:
        raise ToolFault(FILES, f"--text-before and --text-after take the library: {missing}") from missing


def line_of(bindings: Any, font: Any, text: Text, wanted: dict[str, Any], given: Given, boxes: dict[int, Any]) -> Line:
    try:
        shaped = font.shape(text.bytes, **wanted)
    except bindings.Fault as fault:
        return Line(text, "", SHAPING, str(fault))
    is_boxed = given.has("show-extents")
    glyphs = [
        Glyph(
            each.number, each.cluster, each.x_offset, each.y_offset, each.x_advance, each.y_advance, each.flags,
            boxes.get(each.number, (0, 0, 0, 0)) if is_boxed else None,
        )
        for each in shaped
    ]  # fmt: skip
    return Line(text, text_of(glyphs, given), 0, "")


def settings(bindings: Any, given: Given) -> dict[str, Any]:
    """The words of the command line as the library takes them."""
    features = [word.partition("=")[2] for word in given.program if word.startswith("--features=")]
    direction, level = given.value("direction"), given.value("cluster-level")
    return {
        "before": given.own.get("text-before", ""),
        "after": given.own.get("text-after", ""),
        "features": [feature(bindings, part) for text in features for part in text.split(",")],
        "direction": DIRECTIONS[direction[0].lower()] if direction else "",
        "script": (given.value("script") or "").title(),
        "language": given.value("language") or "",
        "flags": sum(bit for name, bit in FLAGS.items() if given.has(name)),
        "cluster_level": int(level or 0),
    }


def feature(bindings: Any, text: str) -> Any:
    """A request for a feature, as kern, -liga, ss01=2 or kern[3:5]=0."""
    found = FEATURE.fullmatch(text)
    if found is None:
        raise ToolFault(WORDS, f"--features: no feature: {text!r}")
    value = {"on": 1, "off": 0, None: int(found["sign"] != "-")}.get(found["value"])
    start = int(found["start"] or 0)
    end = bindings.GLOBAL_END
    if found["end"]:
        end = int(found["end"])
    elif found["start"] and not found["colon"]:
        end = start + 1
    return bindings.Feature(found["tag"], int(found["value"]) if value is None else value, start, end)
