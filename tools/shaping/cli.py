"""The command line of shape."""

import sys
from dataclasses import replace
from pathlib import Path
from typing import Callable

from building.places import KUSPVELI, PROGRAM
from building.ready import ready_program
from common.faults import DATA, SHAPING, WORDS, ToolFault
from common.files import check_regular, write_file
from common.printing import emit, emit_bytes, naming, tell
from fontjson.variations import Place
from formats.sfnt import is_font_file
from shaping.glyphs import as_json, clean_lines, read_line, with_names
from shaping.locales import locale_language
from shaping.options import NAME, VERSION_WORDS, Given, read_words, usage
from shaping.program import Line, Shaped, shape_texts, told
from shaping.program_words import is_text
from shaping.sources import Converted, FontFile, Source, is_json
from shaping.texts import Text, Texts, lack_notes, read_texts, unshown

NUMBERS = "--no-glyph-names"
PICTURES = ("svg", "png")
CONTEXT = ("text-before", "text-after")
# What hides fields that a picture needs.
HIDING = ("--no-clusters", "--no-positions", "--no-advances")
STANDARD_INPUT = STANDARD_OUTPUT = "-"


def main(words: list[str]) -> int:
    """Shapes; its status is the program's, of several texts that of the first fault."""
    asked = words[: words.index("--")] if "--" in words else words
    if "-h" in asked or "--help" in asked:
        emit(usage() + "\n")
        return 0
    if any(word in VERSION_WORDS for word in asked):
        emit(own_version())
        return 0
    given = read_words(words)
    check_words(given)
    check_regular(given.font, "font")
    take_locale(given)
    if given.own.get("text-file") == STANDARD_INPUT and sys.stdin.isatty():
        tell(NAME, "reading texts from standard input, one a line")
    texts = read_texts(given)
    if is_read_by_program(given):
        file = FontFile(ready_program(NAME, target=KUSPVELI), given.font, given.font_index)
        return shape_and_show(file, texts, given)
    return shape_converted(texts, given)


def own_version() -> str:
    """The version, and the programs by which font files are shaped, and fonts that are JSON."""
    from shaping.command import told_version  # few runs need it

    return "".join(f"{line}\n" for line in told_version(KUSPVELI, PROGRAM))


def shape_converted(texts: Texts, given: Given) -> int:
    """Shapes in a font that is converted, with tables that are made or come with the tools."""
    from shaping import converting  # it takes longer to read in than a word to shape

    with converting.cache_folder() as folder:
        place = converting.tell_place(given)
        font = converting.font_file(folder, given, place)
        tables = converting.tables_file(folder)
        source = Converted(ready_program(NAME), tables, font, converting.whence(tables))

        def healed() -> Source | None:
            # What was read of a file that was made anew isn't its.
            return replace(source) if converting.heal(folder, given, place, source) else None

        return shape_and_show(source, texts, given, place, healed)


def is_read_by_program(given: Given) -> bool:
    """Whether the program kuspveli reads the font file itself: not an instance of a variable font, a compressed font or
    a value, not a file whose name is no UTF-8, which it refuses, and not where the library is needed, or limits are
    lifted, which the program doesn't have."""
    is_other = given.instance or "no-limits" in given.own or any(option in given.own for option in CONTEXT)
    return not (is_other or is_json(given.font)) and is_text(str(given.font)) and is_font_file(given.font)


def shape_and_show(
    source: Source,
    texts: Texts,
    given: Given,
    place: Place | None = None,
    healed: Callable[[], Source | None] = lambda: None,
) -> int:
    """Shapes, draws and prints; kept files that the program refuses are made anew once."""
    if "verbose" in given.own:
        tell(NAME, source.tables_note)
    shaped = shape(source, texts, given)
    if shaped.status == DATA and (anew := healed()) is not None:
        source, shaped = anew, shape(anew, texts, given)
    if "verify" in given.own:
        verify(source, shaped.lines, given)
    if pictures_of(given):
        draw(whole_lines(source, shaped, texts, given), given, place)
    return show(shaped, source, texts, given)


def check_words(given: Given) -> None:
    """Refuses pictures without outlines, two things on one output, and instances of a font that is JSON."""
    for option in (*PICTURES, "variations", "named-instance"):
        if option in given.own and is_json(given.font):
            raise ToolFault(WORDS, f"--{option}: {given.font} has no outlines and no variations: it takes a font file")
    shown = [f"--{kind}=-" for kind in PICTURES if given.own.get(kind) == STANDARD_OUTPUT]
    if shown and (given.is_json or len(shown) > 1):
        raise ToolFault(WORDS, f"{' and '.join(shown)}: standard output takes one picture, or JSON")


def take_locale(given: Given) -> None:
    """Takes the locale's language where none is given."""
    language = locale_language()
    if given.value("language") is None and language is not None:
        given.program.append(f"--language={language}")


def shape(source: Source, texts: Texts, given: Given, is_numbered: bool = False) -> Shaped:
    """The lines of all texts, with glyphs by their numbers unless the program prints their names."""
    if isinstance(source, Converted) and any(option in given.own for option in CONTEXT):
        from shaping.context import shape_in_context

        boxes = {glyph: tuple(box) for glyph, *box in source.rows_of("extents")} if given.has("show-extents") else {}
        lines = shape_in_context(source.tables, source.font, texts.each(), given, boxes)
        status = next((line.status for line in lines if line.status), 0)
        return Shaped("".join(line.glyphs for line in lines), status, lambda: lines)
    is_numbered = (is_numbered or source.names is not None) and NUMBERS not in given.program
    return shape_texts(source, texts, [*given.program, NUMBERS] if is_numbered else given.program)


def verify(source: Source, lines: list[Line], given: Given) -> None:
    """Tests the promises on each text that was shaped; the first that is broken is a fault."""
    from shaping.verify import Promises

    for line in lines:
        if not line.status:
            for broken in Promises(source, line.text, given).broken():
                raise ToolFault(SHAPING, f"{line.text.where}: a promise is broken: {broken}")


def show(shaped: Shaped, source: Source, texts: Texts, given: Given) -> int:
    """Prints each text's line, or tells its fault; the status of the first fault, else 0."""
    for what in source.left_out:
        tell(NAME, f"{given.font}: left out, and it changes glyphs or positions: {what}")
    hidden = unshown(texts.characters(), source.characters)
    names = {} if given.has("no-glyph-names") and not given.is_json else source.names
    if not (shaped.status or hidden or "show-text" in given.own):
        # Nothing is told or printed between the lines.
        print_lines(shaped.printed, names, given)
        return 0
    for line in shaped.lines:
        if line.status:
            tell(NAME, told(line, source))
            continue
        for note in lack_notes(line.text, source.characters) if hidden else ():
            tell(NAME, note)
        print_lines(line.glyphs, names, given, line.text)
    return shaped.status


def print_lines(glyphs: str, names: dict[int, str] | None, given: Given, text: Text | None = None) -> None:
    """Prints what standard output has of lines of glyphs, or of one and its text, unless it has a picture."""
    if STANDARD_OUTPUT not in pictures_of(given):
        before = f"({text.characters})\n" if text is not None and "show-text" in given.own else ""
        emit(before + printed(glyphs, names, given))


def printed(glyphs: str, names: dict[int, str] | None, given: Given) -> str:
    """What standard output has of lines of glyphs, which have names where none are given."""
    if given.is_json:
        return "".join(as_json(read_line(line), names or {}, given) + "\n" for line in glyphs.split("\n")[:-1])
    if given.has("no-glyph-names"):
        return glyphs
    if names is None:
        return clean_lines(glyphs)
    return with_names(glyphs, names, not given.has("no-clusters"))


# ---- pictures


def pictures_of(given: Given) -> list[str]:
    """The files of the pictures."""
    return [given.own[kind] for kind in PICTURES if kind in given.own]


def whole_lines(source: Source, shaped: Shaped, texts: Texts, given: Given) -> list[Line]:
    """The lines of the texts that were shaped with all that a picture needs, whatever is printed."""
    if source.names is None or any(word in HIDING for word in given.program):
        whole = replace(given, program=[word for word in given.program if word not in HIDING])
        shaped = shape(source, texts, whole, True)
    return [line for line in shaped.lines if not line.status]


def draw(lines: list[Line], given: Given, place: Place | None) -> None:
    """Writes the pictures of the texts that were shaped."""
    from shaping.picture import picture  # it needs fontTools
    from shaping.png import png
    from shaping.svg import svg

    if not lines:
        return
    texts = [(line.text.characters, read_line(line.glyphs)) for line in lines]
    is_vertical = (given.value("direction") or "l")[0].lower() in "tb"
    drawn = picture(given.font, given.font_index, texts, is_vertical, place, not given.has("no-limits"))
    if "svg" in given.own:
        write(given.own["svg"], svg(drawn).encode())
    if "png" in given.own:
        write(given.own["png"], png(drawn))


def write(path: str, content: bytes) -> None:
    """Writes a picture into a file, or to standard output."""
    if path == STANDARD_OUTPUT:
        emit_bytes(content)
        return
    with naming(path):
        write_file(Path(path), content)
