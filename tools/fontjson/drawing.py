"""The outlines of a font's glyphs, those of CFF drawn within the limits."""

from functools import partial
from typing import Any

from fontTools.misc.psCharStrings import T2OutlineExtractor
from fontTools.pens.boundsPen import ControlBoundsPen

from fontjson.limits import (
    MOST_CALLS,
    MOST_DEPTH,
    MOST_FONT_DICTS,
    MOST_RUN,
    MOST_RUN_FOR_BYTE,
    MOST_SUBROUTINES,
    refuse,
)

CFF = ("CFF ", "CFF2")


def drawn_glyphs(font: Any) -> Any:
    """A glyph set of fontTools, or one like it."""
    if "glyf" in font:
        return font.getGlyphSet()
    for tag in CFF:
        if tag in font:
            return CffGlyphs(font, tag)
    raise refuse("the font has no outlines")


def sizes_of_cff(font: Any) -> dict[str, tuple[int, int]]:
    """What CFF has of what is limited where all glyphs are drawn, each with its limit; nothing for other fonts."""
    if "glyf" in font or not any(tag in font for tag in CFF):
        return {}
    glyphs = drawn_glyphs(font)
    for name in font.getGlyphOrder():
        glyphs[name].draw(ControlBoundsPen(glyphs))
    dicts, subroutines = glyphs.shared
    return {
        "CFF: font DICTs": (dicts, MOST_FONT_DICTS),
        "CFF: subroutines": (subroutines, MOST_SUBROUTINES),
        "CFF: levels of subroutines": (glyphs.levels, MOST_CALLS),
        "CFF: bytes that run": (glyphs.run, glyphs.most),
    }


class CffGlyphs:
    """The glyphs of CFF by their names. What runs to draw them all grows with the table like a straight line."""

    def __init__(self, font: Any, tag: str) -> None:
        length = len(font.reader[tag])
        self.shared = check_subroutines(font[tag].cff.topDictIndex[0], length)
        self.glyphs = font.getGlyphSet()
        self.most = MOST_RUN + MOST_RUN_FOR_BYTE * length
        self.run = 0
        self.levels = 0
        self.depth = 0

    def __contains__(self, name: str) -> bool:
        return name in self.glyphs

    def __getitem__(self, name: str) -> "CffGlyph":
        return CffGlyph(self, name)

    def count(self, length: int) -> None:
        """Counts what is run: a charstring's or a subroutine's bytes."""
        self.run += length
        if self.run > self.most:
            raise refuse(f"table CFF: more than {self.most:,} bytes of charstrings to run")


class CffGlyph:
    """A glyph, which may draw others as its parts."""

    def __init__(self, whole: CffGlyphs, name: str) -> None:
        self.whole = whole
        self.name = name

    def draw(self, pen: Any) -> None:
        whole = self.whole
        if whole.depth > MOST_DEPTH:
            raise refuse(f"table CFF: accented glyphs nested more than {MOST_DEPTH} deep")
        whole.glyphs.charStrings[self.name].outlineExtractor = partial(Counted, whole)
        whole.depth += 1
        try:
            whole.glyphs[self.name].draw(pen)
        finally:
            whole.depth -= 1


class Counted(T2OutlineExtractor):
    """Draws a charstring, and counts what it runs."""

    def __init__(self, whole: CffGlyphs, *given: Any) -> None:
        super().__init__(*given)
        self.whole = whole

    def execute(self, charString: Any) -> None:
        self.whole.levels = max(self.whole.levels, len(self.callingStack))
        if len(self.callingStack) > MOST_CALLS:
            raise refuse(f"table CFF: subroutines nested more than {MOST_CALLS} deep")
        self.whole.count(1 + len(charString.bytecode or charString.program))
        super().execute(charString)


def check_subroutines(top: Any, length: int) -> tuple[int, int]:
    """The number of font DICTs, and that of their subroutines.

    Refuses font DICTs that share much, since each reads its private DICT and the list of its subroutines anew.
    """
    dicts = top.FDArray if "FDArray" in top.rawDict else [top]
    if len(dicts) > MOST_FONT_DICTS:
        raise refuse(f"table CFF: more than {MOST_FONT_DICTS} font DICTs")
    sizes = [each.rawDict.get("Private", (0, 0))[0] for each in dicts]
    if sum(sizes) > length:
        raise refuse("table CFF: private DICTs overlap")
    subroutines = sum(subroutine_count(each.Private) for each, size in zip(dicts, sizes) if size)
    if subroutines > MOST_SUBROUTINES:
        raise refuse(f"table CFF: more than {MOST_SUBROUTINES:,} subroutines")
    return len(dicts), subroutines


def subroutine_count(private: Any) -> int:
    """The number at the beginning of the list of a private DICT's subroutines."""
    place = private.rawDict.get("Subrs")
    if place is None:
        return 0
    private.file.seek(private.offset + place)
    return int.from_bytes(private.file.read(2 if not private._isCFF2 else 4), "big")
