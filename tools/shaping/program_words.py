"""The words of the programs hb_shape and kuspveli: what they are, and which of them is wrong where one refuses them."""

import difflib
from dataclasses import dataclass

from shaping.options import OPTIONS, REPEATED, Option


def face(text: str) -> str:
    """The index of a font, as the program reads one."""
    if not (text.isascii() and text.isdigit() and int(text) <= 65539):
        raise ValueError("an index of a font is a number, from 0 on")
    return text


FILES = ("TABLES", "FONT", "TEXT")
USAGE = "hb_shape [options] TABLES FONT TEXT"
# The options that shape has too, and those of the program alone.
PROGRAM_OPTIONS = (
    *(option for option in OPTIONS if not option.is_own),
    Option("slices", "print also which bytes of the text each run of glyphs of one cluster comes from"),
    Option("lines", "shape each line of TEXT by itself, and print a line for each"),
    Option("keep-going", "with --lines: a line that is refused is named in its place, and the others are printed"),
)
FACE = Option("face", "the font of a collection, from 0 on", "N", face)
JSON = Option("json", "print the font as JSON, and shape nothing")


@dataclass(frozen=True)
class Command:
    """A program by its words: what they are, its files (and text), how many of these may be missing, and its options."""

    name: str
    usage: str
    files: tuple[str, ...]
    too_many: str
    options: dict[str, Option]
    may_miss: int = 0


HB_SHAPE = Command("hb_shape", USAGE, FILES, "a fourth file", {option.name: option for option in PROGRAM_OPTIONS})
KUSPVELI = Command(
    "kuspveli",
    "kuspveli [options] FONT [TEXT]",
    ("FONT", "TEXT"),
    "a text after TEXT",
    {option.name: option for option in (FACE, JSON, *PROGRAM_OPTIONS)},
    may_miss=1,
)
EXAMPLES = """examples:
  tools/hb_shape tables.json font.json text.txt
  tools/hb_shape --features=-liga,kern=2 --no-glyph-names tables.json font.json text.txt
  tools/hb_shape --direction=rtl --script=Arab --language=ur-PK tables.json font.json text.txt
  tools/hb_shape --lines --keep-going tables.json font.json - <words.txt"""


def usage() -> str:
    """The help: what the words are, and each option."""
    rows = [
        (f"--{option.name}={option.value}" if option.value else f"--{option.name}", option)
        for option in PROGRAM_OPTIONS
    ]
    listed = "".join(f"  {shown:<31}{option.about}\n" for shown, option in rows)
    return f"""usage: {USAGE}

Shapes a text, and prints its glyphs as hb-shape does: glyph=cluster@x,y+advance, with | between them. TABLES and FONT
are JSON files, as unicode_to_json and font_to_json write them; TEXT is a file in UTF-8, - for standard input, of which
one line feed at the end is dropped.

{EXAMPLES}

options:
{listed}  {"--version":<31}print the version, and which program is built
  {"--help":<31}print this

A fault is one line on standard error and a status, 2 the words, 3 the tables or the font, 4 the text, 5 what can't be
shaped, 6 files; a line after it says which word or file it is, and why. docs/TOOLS.md says more."""


def word_fault(words: list[str], command: Command = HB_SHAPE) -> str | None:
    """The first word that is wrong, with what is meant; None where none is found."""
    try:
        files_of(words, command)
    except ValueError as error:
        return str(error)
    return None


def files_of(words: list[str], command: Command = HB_SHAPE) -> list[str]:
    """The files that the words name, and the text of kuspveli, read as the program does; ValueError names the first word
    that is wrong."""
    files: list[str] = []
    met: set[str] = set()
    rest = list(words)
    while rest:
        word = rest.pop(0)
        if not is_text(word):
            raise ValueError(f"{word!r}: no UTF-8")
        if word == "--":
            files += rest
            break
        if word.startswith("-") and word != "-":
            take_option(word, rest, met, command)
        else:
            files.append(word)
    if len(files) < len(command.files) - command.may_miss:
        raise ValueError(f"{command.files[len(files)]} is missing: {command.usage}")
    if len(files) > len(command.files):
        raise ValueError(f"{files[len(command.files)]!r}: {command.too_many}: {command.usage}")
    if {"lines", "slices"} <= met:
        raise ValueError("--slices: with --lines there are none")
    if "json" in met and len(files) > 1:
        raise ValueError(f"--json: it prints the font, and takes no text: {files[1]!r}")
    if "keep-going" in met and "lines" not in met:
        raise ValueError("--keep-going: it takes --lines too")
    return files


def is_text(word: str) -> bool:
    """Whether a word is UTF-8: bytes that are not are surrogates in it."""
    return not any("\ud800" <= character <= "\udfff" for character in word)


def take_option(word: str, rest: list[str], met: set[str], command: Command) -> None:
    """Reads an option, with its value where that is a word of its own."""
    name, mark, value = word.removeprefix("--").partition("=")
    option = command.options.get(name) if word.startswith("--") else None
    if option is None:
        near = difflib.get_close_matches(name.lstrip("-"), command.options, 1)
        meant = f"; is --{near[0]} meant?" if near else ""
        raise ValueError(f"{word}: no such option{meant} (tools/{command.name} --help)")
    if name in met and name not in REPEATED:
        raise ValueError(f"--{name}: given twice")
    met.add(name)
    if mark and not option.value:
        raise ValueError(f"--{name}: it takes no value: {value!r}")
    if option.value and not mark:
        # The program takes no value that begins with a hyphen, unless it stands after the equals sign.
        if not rest or rest[0].startswith("-"):
            raise ValueError(f"--{name}: its value is missing: --{name}={option.value}")
        value = rest.pop(0)
    try:
        meant = option.read(value)
    except ValueError as error:
        raise ValueError(f"--{name}: {error}: {value!r}") from error
    if meant != value:
        raise ValueError(f"--{name}: {value!r}: here {meant!r} is meant")
