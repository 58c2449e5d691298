"""Paragraphs of ten scripts, and the files in which programs are given them."""

from dataclasses import dataclass
from html import escape
from pathlib import Path
from textwrap import wrap

from beside.pages import text_of
from beside.sets import SETS, Set
from common.faults import FILES, ToolFault
from common.files import write_over

TITLES = (
    "Latin, NotoSans", "Vietnamese, decomposed, NotoSans", "Hebrew, NotoSansHebrew", "Arabic, NotoNaskhArabic",
    "Devanagari, NotoSansDevanagari", "Bengali, NotoSansBengali", "Thai, NotoSansThai", "Khmer, NotoSansKhmer",
    "Myanmar, NotoSansMyanmar", "Hangul, NanumGothic",
)  # fmt: skip
# Characters of a paragraph, and of one that takes time.
CHARACTERS, LONG = 400, 8000
# Characters of a line, where a program doesn't break lines itself.
WIDTH = 48
# Lines of each of the 26 sets, in which advances are hinted.
HINTED = 66


@dataclass(frozen=True)
class Paragraph:
    """A text in a font."""

    name: str
    font: Path
    family: str
    language: str
    is_backward: bool
    text: str

    @property
    def lines(self) -> list[str]:
        """The text in lines, also where words have no spaces between them."""
        return wrap(self.text, WIDTH, break_on_hyphens=False)


def paragraphs(characters: int = CHARACTERS) -> list[Paragraph]:
    chosen = {each.title: each for each in SETS}
    return [paragraph_of(chosen[title], characters) for title in TITLES]


def hinted_paragraphs() -> list[Paragraph]:
    """A paragraph of more than `HINTED` lines for each set."""
    return [paragraph_of(chosen, 2 * HINTED * WIDTH) for chosen in SETS]


def paragraph_of(chosen: Set, characters: int = CHARACTERS) -> Paragraph:
    if not chosen.font.is_file():
        raise ToolFault(FILES, f"{chosen.font}: no such font ({chosen.package} has it)")
    is_backward = chosen.language in ("he", "ar")
    return Paragraph(
        chosen.name.partition(",")[0], chosen.font, family_of(chosen), chosen.language, is_backward,
        text_of(chosen, characters),
    )  # fmt: skip


def family_of(chosen: Set) -> str:
    """The family's name of a set's font."""
    from fontTools.ttLib import TTFont

    with TTFont(chosen.font, lazy=True) as font:
        return str(font["name"].getBestFamilyName())


# ---- files


def write_text(path: Path, lines: list[str]) -> Path:
    write_over(path, "".join(f"{line}\n" for line in lines))
    return path


def html_of(texts: list[Paragraph]) -> str:
    """A page; each paragraph has its language, direction and font."""
    rows = [
        f'<p lang="{each.language}" dir="{"rtl" if each.is_backward else "ltr"}" style="font-family: {escape(repr(each.family))}">'
        f"{escape(each.text)}</p>"
        for each in texts
    ]
    return "\n".join(["<!DOCTYPE html>", '<html><head><meta charset="utf-8"/></head><body>', *rows, "</body></html>", ""])


def svg_of(texts: list[Paragraph]) -> str:
    """A picture of the first lines of each paragraph."""
    rows, size, height = [], 20, 34
    lines = [(each, line) for each in texts for line in each.lines[:3]]
    for number, (each, line) in enumerate(lines, 1):
        side = 'direction="rtl" x="880"' if each.is_backward else 'x="20"'
        rows.append(
            f'<text {side} y="{number * height}" xml:lang="{each.language}" font-family="{escape(each.family)}" '
            f'font-size="{size}">{escape(line)}</text>'
        )
    frame = f'<svg xmlns="http://www.w3.org/2000/svg" width="900" height="{(len(lines) + 1) * height}">'
    return "\n".join([frame, '<rect width="100%" height="100%" fill="white"/>', *rows, "</svg>", ""])


def subtitles_of(texts: list[Paragraph]) -> str:
    """Subtitles of the first line of each paragraph, one a second."""
    styles = [
        f"Style: {each.name},{each.family},40,&H00000000,&H00000000,&H00FFFFFF,&H00FFFFFF,0,0,0,0,100,100,0,0,1,0,0,5,10,"
        "10,10,1"
        for each in texts
    ]
    events = [
        f"Dialogue: 0,0:00:{at:02}.00,0:00:{at + 1:02}.00,{each.name},,0,0,0,,{each.lines[0]}"
        for at, each in enumerate(texts)
    ]
    return "\n".join([
        "[Script Info]", "ScriptType: v4.00+", "PlayResX: 1280", "PlayResY: 200", "", "[V4+ Styles]",
        "Format: Name, Fontname, Fontsize, PrimaryColour, SecondaryColour, OutlineColour, BackColour, Bold, Italic, Underline,"
        " StrikeOut, ScaleX, ScaleY, Spacing, Angle, BorderStyle, Outline, Shadow, Alignment, MarginL, MarginR, MarginV,"
        " Encoding",
        *styles, "", "[Events]", "Format: Layer, Start, End, Style, Name, MarginL, MarginR, MarginV, Effect, Text", *events, "",
    ])  # fmt: skip


def tex_of(texts: list[Paragraph]) -> str:
    """A document for plain XeTeX, in the lines in which the paragraphs stand."""
    rows = []
    for number, each in enumerate(texts):
        name = f"\\face{chr(ord('a') + number)}"
        begin, end = ("\\beginR ", "\\endR") if each.is_backward else ("", "")
        rows.append(f'\\font{name}="[{each.font}]" at 12pt {name}')
        rows += [f"\\noindent {begin}{line}{end}\\par" for line in each.lines]
    return "\n".join(["\\TeXXeTstate=1", "\\nopagenumbers", *rows, "\\bye", ""])


def fodt_of(texts: list[Paragraph]) -> str:
    """A text document of LibreOffice in one file."""
    spaces = "office style text fo svg".split()
    names = " ".join(
        f'xmlns:{each}="urn:oasis:names:tc:opendocument:xmlns:{where}:1.0"'
        for each, where in zip(spaces, ("office", "style", "text", "xsl-fo-compatible", "svg-compatible"))
    )
    styles = [
        f'<style:style style:name="P{number}" style:family="paragraph"><style:paragraph-properties '
        f'style:writing-mode="{"rl-tb" if each.is_backward else "lr-tb"}"/><style:text-properties '
        f'style:font-name="{escape(each.family)}" style:font-name-asian="{escape(each.family)}" '
        f'style:font-name-complex="{escape(each.family)}"/>'
        "</style:style>"
        for number, each in enumerate(texts)
    ]
    faces = [
        f'<style:font-face style:name="{escape(family)}" svg:font-family="{escape(repr(family))}"/>'
        for family in dict.fromkeys(each.family for each in texts)
    ]
    rows = [f'<text:p text:style-name="P{number}">{escape(each.text)}</text:p>' for number, each in enumerate(texts)]
    return "\n".join([
        '<?xml version="1.0" encoding="UTF-8"?>',
        f'<office:document {names} office:version="1.2" office:mimetype="application/vnd.oasis.opendocument.text">',
        "<office:font-face-decls>", *faces, "</office:font-face-decls>", "<office:automatic-styles>", *styles,
        "</office:automatic-styles>", "<office:body><office:text>", *rows, "</office:text></office:body>",
        "</office:document>", "",
    ])  # fmt: skip
