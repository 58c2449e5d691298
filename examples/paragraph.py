"""paragraph.py LATIN ARABIC DEVANAGARI PNG: sets a paragraph of three scripts in lines, draws it by cairo, and prints its
lines.

The fonts are the files of DejaVu Sans, Noto Naskh Arabic and Noto Sans Devanagari, which cairo finds by their names. Glyphs
have the advances to which FreeType hints them. Each part of the paragraph is of one script, and goes on in the line of the
part before it. A line may end after a space (UAX 14 has more). Where a line is not the part's own it is shaped again. Carets
are drawn as small strokes below the line: in words of Latin also between the letters of a ligature."""

import ctypes
import sys
from dataclasses import dataclass, field
from pathlib import Path

import cairo

sys.path.insert(0, str(Path(__file__).resolve().parent.parent / "bindings" / "python"))
from kuspveli import Caret, Flags, Font, Glyph, Line, Tables  # noqa: E402

SIZE, WIDTH, MARGIN, LEADING = 30, 640, 24, 54
FAMILIES = ("DejaVu Sans", "Noto Naskh Arabic", "Noto Sans Devanagari")
# Each part of the paragraph: its font's number, and its text.
PARTS = (
    (0, "Kuspveli sets the words of an office, "),
    (1, "السلام عليكم ورحمة الله وبركاته،"),
    (0, " and between them "),
    (2, "हिन्दी में नमस्ते और स्त्री शक्ति, "),
    (0, "in lines that end where a break is safe."),
)


FREETYPE = ctypes.CDLL("libfreetype.so.6")


def freetype(name: str, *words: object) -> None:
    if getattr(FREETYPE, name)(*words):
        sys.exit(f"paragraph.py: {name} failed")


def hinted_font(name: str, tables: Tables) -> Font:
    """A font whose glyphs have the advances in whole pixels to which FreeType hints them at this size."""
    font, library, hinted = Font.open(name, tables=tables), ctypes.c_void_p(), ctypes.c_void_p()
    freetype("FT_Init_FreeType", ctypes.byref(library))
    freetype("FT_New_Face", library, name.encode(), ctypes.c_long(0), ctypes.byref(hinted))
    freetype("FT_Set_Pixel_Sizes", hinted, ctypes.c_uint(0), ctypes.c_uint(SIZE))
    upem, pixels = font.upem(), ctypes.c_long()  # 16.16

    def advance(glyph: int) -> int:
        freetype("FT_Get_Advance", hinted, ctypes.c_uint(glyph), ctypes.c_int32(0), ctypes.byref(pixels))
        return (pixels.value * upem + SIZE * 32768) // (SIZE * 65536)

    font.set_advance_function(advance)
    return font


class Part:
    """A part that is shaped as a whole, with its lines, of which the first is to fit what is left of a line, and its carets."""

    def __init__(self, family: int, text: str, font: Font, left: float) -> None:
        self.family, self.text, self.font = family, text, font
        self.scale = SIZE / font.upem()
        self.glyphs = font.shape(text, flags=Flags.PRODUCE_SAFE_BREAKS, clusters="characters")
        self.direction, self.script = font.direction(), font.script()
        breaks = [at for at in range(1, len(text) + 1) if text[at - 1] == " "]
        # Each letter of Latin is a grapheme (UAX 29).
        stops = range(1, len(text) + 1) if self.script == "Latn" else ()
        width = int((WIDTH - 2 * MARGIN) / self.scale)
        self.lines = font.cut_lines(breaks, width, first_width=int(left / self.scale))
        self.carets = font.carets(stops)

    def glyphs_of(self, line: Line) -> list[Glyph]:
        """The line's own glyphs, or what shaping it again gives between what is before it and after it."""
        if line.glyphs is not None:
            return self.glyphs[line.glyphs.start : line.glyphs.stop]
        around = {"before": self.text[: line.start], "after": self.text[line.end :]}
        settings = {"direction": self.direction, "script": self.script, "clusters": "characters"}
        return self.font.shape(self.text[line.start : line.end], **around, **settings)

    def carets_of(self, line: Line) -> list[Caret]:
        """The carets of a line of its own, from its left end on."""
        found = [caret for caret in self.carets if line.start <= caret.index <= line.end and line.glyphs is not None]
        left = min((caret.position for caret in found), default=0)
        return [Caret(caret.index, caret.position - left) for caret in found]


@dataclass
class Pen:
    """Where the next glyph is drawn, and all that is drawn, each with the number of its line."""

    x: float = MARGIN
    line: int = 0
    runs: list[tuple[int, list[cairo.Glyph]]] = field(default_factory=list)
    strokes: list[tuple[float, int]] = field(default_factory=list)

    def end_line(self) -> None:
        self.x, self.line = MARGIN, self.line + 1

    def draw(self, part: Part, line: Line) -> None:
        self.strokes += [(self.x + caret.position * part.scale, self.line) for caret in part.carets_of(line)]
        placed, y = [], LEADING * (self.line + 1) - 8
        for glyph in part.glyphs_of(line):
            placed.append(cairo.Glyph(glyph.number, self.x + glyph.x_offset * part.scale, y - glyph.y_offset * part.scale))
            self.x += glyph.x_advance * part.scale
        self.runs.append((part.family, placed))


def set_part(pen: Pen, family: int, text: str, font: Font) -> None:
    """Sets a part after those before it, in a new line where not even its first piece fits the one that is open."""
    left = WIDTH - MARGIN - pen.x
    part = Part(family, text, font, left)
    if part.lines and pen.x > MARGIN and part.lines[0].width * part.scale > left:
        pen.end_line()
        # No line begins with a space.
        part = Part(family, text.removeprefix(" "), font, WIDTH - 2 * MARGIN)
    for at, line in enumerate(part.lines):
        if at:
            pen.end_line()
        again = ", shaped again" if line.glyphs is None else ""
        print(f"{pen.line}: {line.start} to {line.end}, {line.width} units{again}")
        pen.draw(part, line)


def main(words: list[str]) -> None:
    if len(words) != 4:
        sys.exit("paragraph.py LATIN ARABIC DEVANAGARI PNG")
    tables = Tables()
    fonts = [hinted_font(name, tables) for name in words[:3]]
    pen = Pen()
    for family, text in PARTS:
        set_part(pen, family, text, fonts[family])
    surface = cairo.ImageSurface(cairo.FORMAT_RGB24, WIDTH, MARGIN + LEADING * (pen.line + 1))
    context = cairo.Context(surface)
    context.set_source_rgb(1, 1, 1)
    context.paint()
    context.set_source_rgb(0.8, 0, 0)
    context.set_line_width(1)
    for x, line in pen.strokes:
        context.move_to(x, LEADING * (line + 1) - 2)
        context.line_to(x, LEADING * (line + 1) + 3)
    context.stroke()
    context.set_source_rgb(0, 0, 0)
    context.set_font_size(SIZE)
    for family, placed in pen.runs:
        context.select_font_face(FAMILIES[family])
        context.show_glyphs(placed)
    surface.write_to_png(words[3])


if __name__ == "__main__":
    main(sys.argv[1:])
