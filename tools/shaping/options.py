"""The words of the command line of shape: a font, a text, options of its own and those of hb_shape."""

import difflib
import re
from dataclasses import dataclass, field
from pathlib import Path
from typing import Callable

from common.faults import WORDS, ToolFault
from fontjson.variations import Wanted, read_variations

NAME = "shape"
HEXADECIMAL = r"(?<![0-9A-Fa-f])0[xX]"
UNICODE_SEPARATORS = r"[<+>{},;&#\\xXuUnNiI\n\t\v\f\r ]+"
HELP = """usage: shape FONT TEXT [options]
       shape FONT --text-file FILE [options]
       shape FONT [options] < FILE

Shapes a text in a font, and prints its glyphs as hb-shape does: glyph=cluster@x,y+advance, with | between them.
FONT is a .ttf, .otf, .ttc, .otc, .woff or .woff2 file, or a .json file as font_to_json writes it. Clusters and the
ranges of features are bytes of the text in UTF-8, as those of hb-shape --utf8-clusters. Distances are units of the em.

examples:
  tools/shape DejaVuSans.ttf office
  tools/shape DejaVuSans.ttf office --features=-liga,kern=2 --no-glyph-names
  tools/shape NotoNaskhArabic-Regular.ttf سلام --direction=rtl --script=Arab --language=ur-PK
  tools/shape NotoSansCJK.ttc 骨 --font-index=2 --language=zh-Hant
  tools/shape DejaVuSans.ttf --text-file=words.txt          a line of glyphs for each line of the file
  tools/shape DejaVuSans.ttf office --json                  the glyphs as HarfBuzz prints them in JSON
  tools/shape DejaVuSans.ttf office --svg=office.svg        a picture: glyphs in their positions, clusters below
  tools/shape Inter.var.ttf office --variations=wght=700    an instance of a variable font
  tools/shape DejaVuSans.ttf --unicodes=U+0061,U+0301       a text by its characters' numbers

"""
AFTER = """
Where no proved program is built (tools/build), one is made without proofs, in minutes, and that is told. The font is
converted once, and kept with the tables in $XDG_CACHE_HOME/kuspveli (~/.cache/kuspveli). Needs fontTools: Debian's
python3-fonttools, under /usr/bin/python3.
Tables are made of Debian's unicode-data, or come with the tools where that is not there. Without --language that of the
locale is taken. docs/TOOLS.md says more.

--verify shapes the text again with other options, and tells which promise is broken (status 5): the four cluster levels
give the same glyphs at the same positions; flags that are asked for change nothing else; each cluster is a byte at
which a character begins, and its glyphs have the same flags; at levels 0 and 1 the slices of the clusters join to the
text, but for Indic scripts. Whether a text may be broken where no flag forbids it is not tested.

A fault is one line on standard error that says where it is, and a status: 2 the words, 3 the font or the tables, 4 the
text, 5 what can't be shaped, 6 files. Characters that the font lacks are named there too, and are no fault; so is what
of the font is left out though it changes glyphs or positions."""


def any_text(text: str) -> str:
    return text


def direction(text: str) -> str:
    if text[:1].lower() not in ("l", "r", "t", "b"):
        raise ValueError("a direction begins with l, r, t or b (ltr, rtl, ttb, btt)")
    return text


def script(text: str) -> str:
    if not re.fullmatch(r"[A-Za-z]{4}", text):
        raise ValueError("a script is a tag of four letters, as Latn or Arab (ISO 15924)")
    return text


def language(text: str) -> str:
    """A tag of BCP 47; the underscores of system languages are hyphens there."""
    tag = text.split(".")[0].replace("_", "-")
    if not re.fullmatch(r"[A-Za-z0-9]{1,8}(-[A-Za-z0-9]{1,8})*", tag):
        raise ValueError("a language is a tag as en, zh-Hant or ur-PK (BCP 47)")
    return tag


def level(text: str) -> str:
    if text not in ("0", "1", "2", "3"):
        raise ValueError("a cluster level is 0, 1, 2 or 3")
    return text


# A sign, a tag, a range of clusters, a value.
FEATURE = re.compile(
    r"""\s*[+-]?\s*(?:\w{1,4}|"\w{1,4}"|'\w{1,4}')\s*(?:\[(?P<range>[\d:;+-]*)\])?\s*"""
    r"""(?:=?\s*(?:(?P<value>\d+)|on|off))?\s*""",
    re.ASCII | re.IGNORECASE,
)
BOUND = re.compile(r"[+-]?\d+", re.ASCII)
# A feature's value is a number of 32 bits, a bound of its range one with a sign.
MOST_VALUE, LEAST_BOUND, MOST_BOUND = 0xFFFF_FFFF, -0x8000_0000, 0x7FFF_FFFF
# HarfBuzz reads numbers of 64 bits with a sign, and takes their lowest 32 bits.
MOST_OF_HARFBUZZ = 0x7FFF_FFFF_FFFF_FFFF


def features(text: str) -> str:
    for part in text.split(","):
        found = FEATURE.fullmatch(part)
        if not found:
            raise ValueError(f"no feature: {part!r}; features are as -liga, kern=2 or ss01[3:5], with commas")
        for bound in map(int, BOUND.findall(found["range"] or "")):
            if not LEAST_BOUND <= bound <= MOST_BOUND:
                raise ValueError(f"{part!r}: a bound is from {LEAST_BOUND} to {MOST_BOUND}{taken_by_harfbuzz(bound)}")
        value = int(found["value"] or 0)
        if value > MOST_VALUE:
            raise ValueError(f"{part!r}: a value is at most {MOST_VALUE}{taken_by_harfbuzz(value)}")
    return text


def taken_by_harfbuzz(number: int) -> str:
    """What HarfBuzz makes of a number that is refused here, where it takes one."""
    return f" (HarfBuzz takes {number & MOST_VALUE} here)" if abs(number) <= MOST_OF_HARFBUZZ else ""


def variations(text: str) -> str:
    read_variations(text)
    return text


def unicodes(text: str) -> str:
    """The text of a list of hexadecimal numbers; between them may stand what hb-shape takes there."""
    numbers = [number for number in re.split(UNICODE_SEPARATORS, re.sub(HEXADECIMAL, " ", text)) if number]
    try:
        return "".join(map(character, numbers))
    except ValueError as error:
        raise ValueError("a list of characters is hexadecimal numbers, as U+0061,U+0301 or 61,301") from error


def character(number: str) -> str:
    found = chr(int(number, 16))
    if "\ud800" <= found <= "\udfff":
        raise ValueError(number)
    return found


def output_format(text: str) -> str:
    if text not in ("text", "json"):
        raise ValueError("a format is text or json")
    return text


def index(text: str) -> str:
    if not (text.isascii() and text.isdigit()):
        raise ValueError("an index is a number, from 0 on")
    return text


@dataclass(frozen=True)
class Option:
    """An option with a value, which `read` checks, or without one."""

    name: str
    about: str
    value: str = ""
    read: Callable[[str], str] = any_text
    is_own: bool = False


OPTIONS = (
    Option("text-file", "shape each line of a file (- is standard input)", "FILE", any_text, True),
    Option("text", "the text, also where it begins with --", "TEXT", any_text, True),
    Option("unicodes", "the text by numbers, as U+0061,U+0301 (-u)", "LIST", unicodes, True),
    Option("text-before", "what stands before the text, and shapes it without being shaped", "TEXT", any_text, True),
    Option("text-after", "what stands after it (both need tools/build_library)", "TEXT", any_text, True),
    Option("font-index", "the font of a collection, from 0 on (--face-index, --index)", "N", index, True),
    Option("variations", "of a variable font, as wght=700,wdth=80", "V", variations, True),
    Option(
        "named-instance", "an instance of a variable font by its name, or its number from 0 on", "NAME", any_text, True
    ),
    Option("json", "print JSON, as hb-shape --output-format=json does", is_own=True),
    Option("output-format", "text or json (-O)", "FORMAT", output_format, True),
    Option("show-text", "print each text in brackets before its glyphs", is_own=True),
    Option("verify", "test promises on the text (below)", is_own=True),
    Option("svg", "draw the glyphs and their clusters into a file", "FILE", any_text, True),
    Option("png", "the same as pixels (needs python3-cairo)", "FILE", any_text, True),
    Option("no-limits", "lift the limits of memory and time on reading the font", is_own=True),
    Option("verbose", "say on standard error which tables are used", is_own=True),
    Option("direction", "ltr, rtl, ttb or btt; guessed from the text", "D", direction),
    Option("script", "an ISO 15924 tag; guessed from the text", "S", script),
    Option("language", "a BCP 47 tag, as ro or de-CH", "L", language),
    Option("features", "features with commas, as -liga,kern=2; may be given again", "F", features),
    Option(
        "cluster-level",
        "0: graphemes share a cluster; 1: characters merge; 2: clusters never merge; 3: graphemes alone",
        "N",
        level,
    ),
    Option("bot", "the text begins a paragraph"),
    Option("eot", "the text ends a paragraph"),
    Option("preserve-default-ignorables", "show characters that are to be invisible"),
    Option("remove-default-ignorables", "remove their glyphs"),
    Option("no-dotted-circle", "put no dotted circle before a lone mark"),
    Option("unsafe-to-concat", "mark where texts may not be put together"),
    Option("safe-to-insert-tatweel", "mark where a tatweel may stand"),
    Option("safe-breaks", "mark each glyph before which a text may not be cut"),
    Option("no-glyph-names", "print glyph numbers"),
    Option("utf8-clusters", "as always: clusters are bytes", is_own=True),
    Option("no-clusters", "print no clusters"),
    Option("no-positions", "print no positions"),
    Option("no-advances", "print no advances"),
    Option("show-extents", "print the box of each glyph"),
    Option("show-flags", "print glyph flags"),
)
VERSION = Option("version", "print the version, and which programs are built that shape texts (-V)")
OTHER_NAMES = {"index": "font-index", "face-index": "font-index"}
VERSION_WORDS = ("--version", "-V")
# Short names, with a value as a word of its own or right after them.
SHORT_NAMES = {"-u": "unicodes", "-O": "output-format"}
REPEATED = ("features",)
# What hb-shape has and this has not, with what is meant.
OTHERS_WORDS = {
    "font-size": "glyphs are placed in units of the em, as hb-shape does by itself; multiply by size / units of the em",
    "font-ppem": "no sizes in pixels: device tables and hints are not read",
    "font-ptem": "no sizes in points: tracking is not read",
    "output-file": "the lines go to standard output: > FILE",
    "shapers": "there is one shaper, by OpenType's rules",
    "show-unicode": "--show-text shows the text, --json the clusters",
    "font-file": "the font is the first word",
    "single-par": "each line is a text; --text takes one with line feeds",
}
BY_NAME = {option.name: option for option in OPTIONS}


@dataclass
class Given:
    """What the words ask for: a font, a text or a file of texts, and options."""

    font: Path
    text: str | None
    own: dict[str, str] = field(default_factory=dict)
    program: list[str] = field(default_factory=list)

    def has(self, switch: str) -> bool:
        return switch in self.own or f"--{switch}" in self.program

    def value(self, option: str) -> str | None:
        """The value of one of the program's options."""
        words = (word.partition("=") for word in self.program)
        return next((value for name, _, value in words if name == f"--{option}"), None)

    @property
    def font_index(self) -> int:
        """The index of the font in its file."""
        return int(self.own.get("font-index", "0"))

    @property
    def is_json(self) -> bool:
        """Whether glyphs are printed as JSON."""
        return "json" in self.own or self.own.get("output-format") == "json"

    @property
    def instance(self) -> Wanted:
        """The instance of a variable font."""
        named, text = self.own.get("named-instance"), self.own.get("variations")
        return Wanted(named, read_variations(text) if text is not None else ())


def usage() -> str:
    """The help: what the words are, examples, and each option."""
    lines = []
    for option in (*OPTIONS, VERSION):
        shown = f"--{option.name}={option.value}" if option.value else f"--{option.name}"
        lines.append(f"  {shown:<31}{option.about}\n")
    return f"{HELP}options:\n{''.join(lines)}{AFTER}"


def read_words(words: list[str]) -> Given:
    """Reads all words before anything is made; a fault names the word."""
    files: list[str] = []
    own: dict[str, str] = {}
    program: list[str] = []
    rest = list(words)
    while rest:
        word = rest.pop(0)
        if word == "--":
            files += rest
            break
        short = SHORT_NAMES.get(word[:2])
        if short is not None:
            word = f"--{short}={word[2:]}" if word[2:] else f"--{short}"
        if not word.startswith("--"):
            files.append(word)
            continue
        name, mark, value = word.removeprefix("--").partition("=")
        option = option_of(name)
        if option.value and not mark:
            if not rest:
                raise ToolFault(WORDS, f"--{name}: its value is missing: --{name}={option.value}")
            value = rest.pop(0)
        elif mark and not option.value:
            raise ToolFault(WORDS, f"--{name}: it takes no value: {value!r}")
        try:
            value = option.read(value)
        except ValueError as error:
            raise ToolFault(WORDS, f"--{name}: {error}: {value!r}") from error
        note_option(option, value, own, program)
    return with_text(files, own, program)


def note_option(option: Option, value: str, own: dict[str, str], program: list[str]) -> None:
    said = f"--{option.name}"
    given = option.name in own or any(word.split("=")[0] == said for word in program)
    if given and option.name not in REPEATED:
        raise ToolFault(WORDS, f"{said}: given twice")
    if option.is_own:
        own[option.name] = value
    else:
        program.append(f"{said}={value}" if option.value else said)


def option_of(name: str) -> Option:
    """The option of a name, also under its other names."""
    found = BY_NAME.get(OTHER_NAMES.get(name, name))
    if name in OTHERS_WORDS:
        raise ToolFault(WORDS, f"--{name}: {OTHERS_WORDS[name]}")
    if found is None:
        near = difflib.get_close_matches(name, [*BY_NAME, *OTHER_NAMES], 1)
        meant = f"; is --{near[0]} meant?" if near else ""
        raise ToolFault(WORDS, f"--{name}: no such option{meant} (shape --help lists them)")
    return found


def with_text(files: list[str], own: dict[str, str], program: list[str]) -> Given:
    """The font, and the one text or file of texts."""
    if not files:
        raise ToolFault(WORDS, "the font is missing: shape FONT TEXT [options] (shape --help has examples)")
    texts = [*files[1:], *(own[name] for name in ("text", "unicodes") if name in own)]
    if len(texts) + ("text-file" in own) > 1:
        found = f"more than one text is given: {', '.join(map(repr, texts))}"
        raise ToolFault(WORDS, f"{found}: shape FONT TEXT, or shape FONT --text-file=FILE")
    if not texts:
        own.setdefault("text-file", "-")
    return Given(Path(files[0]), texts[0] if texts else None, own, program)
