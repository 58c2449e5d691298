"""lines.py TABLES FONT ROOM < cases: the line of each case, from Python. FONT is JSON, or where TABLES is - a font file. The
room is the wrapper's own."""

import sys
from pathlib import Path
from typing import Any

sys.path.insert(0, str(Path(__file__).parent.parent.parent / "bindings" / "python"))

import kuspveli  # noqa: E402

DIRECTIONS = {number: name for name, number in kuspveli.DIRECTIONS.items()}
NO, NO_SLICES = "-", "NoSlices"


def main() -> None:
    with font_of(*sys.argv[1:3]) as font:
        for line in sys.stdin:
            text, settings = case_of(line.split())
            try:
                print(f"{line_of(font.shape(text, **settings))};{slices_of(font, text, settings)}")
            except kuspveli.Fault as fault:
                print(fault)


def font_of(tables: str, font: str) -> kuspveli.Font:
    if tables == NO:
        return kuspveli.Font.open(font)
    with kuspveli.Tables(Path(tables).read_bytes()) as shared:
        return kuspveli.Font(shared, Path(font).read_bytes())


def slices_of(font: kuspveli.Font, text: bytes, settings: dict[str, Any]) -> str:
    try:
        slices = font.shape_slices(text, **settings)
    except kuspveli.Fault as fault:
        if str(fault) != NO_SLICES:
            raise
        return "no slices"
    return ",".join(f"{found.start} {found.end}" for found in slices) or "no slices"


def case_of(words: list[str]) -> tuple[bytes, dict[str, Any]]:
    direction, script, flags, level, language, features, text = words
    return b"" if text == NO else bytes.fromhex(text), dict(
        features=[feature_of(part) for part in features.split(",") if part != NO],
        direction=DIRECTIONS[int(direction)],
        script=tag_text(int(script)),
        language="" if language == NO else language,
        flags=int(flags),
        cluster_level=int(level),
    )


def feature_of(part: str) -> kuspveli.Feature:
    tag, *numbers = (int(number) for number in part.split(":"))
    return kuspveli.Feature(tag_text(tag), *numbers)


def tag_text(number: int) -> str:
    return number.to_bytes(4, "big").decode("ascii") if number else ""


def line_of(glyphs: list[kuspveli.Glyph]) -> str:
    return "|".join(map(glyph_text, glyphs))


def glyph_text(glyph: kuspveli.Glyph) -> str:
    offsets = f"@{glyph.x_offset},{glyph.y_offset}" if glyph.x_offset or glyph.y_offset else ""
    downwards = f",{glyph.y_advance}" if glyph.y_advance else ""
    flags = f"#{glyph.flags:x}" if glyph.flags else ""
    return f"{glyph.number}={glyph.cluster}{offsets}+{glyph.x_advance}{downwards}{flags}"


if __name__ == "__main__":
    main()
