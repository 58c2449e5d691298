"""The texts to shape, and the characters of them that a font lacks."""

import os
import sys
import unicodedata
from dataclasses import dataclass
from typing import Container, Iterator

from common.faults import FILES, TEXT, ToolFault
from common.printing import INPUT, naming
from shaping.options import Given

# Characters without a glyph of their own are hidden, as HarfBuzz has them.
IGNORABLE = (
    (0xAD, 0xAD), (0x34F, 0x34F), (0x61C, 0x61C), (0x17B4, 0x17B5), (0x180B, 0x180F), (0x200B, 0x200F),
    (0x202A, 0x202E), (0x2060, 0x206F), (0xFE00, 0xFE0F), (0xFEFF, 0xFEFF), (0xFFF0, 0xFFF8), (0x1D173, 0x1D17A), (0xE0000, 0xE0FFF),
)  # fmt: skip
SPACES = {0xA0, *range(0x2000, 0x200B), 0x202F, 0x205F, 0x3000}
# The hyphen stands for the one that does not break.
OTHERS = {0x2011: 0x2010}
SHOWN = 5
# Bytes of a file of texts.
MOST_TEXT = 1 << 26


@dataclass(frozen=True)
class Text:
    """A text, and where it comes from: the line of a file, or the command line."""

    bytes: bytes
    where: str

    @property
    def characters(self) -> str:
        return self.bytes.decode("utf-8")


@dataclass(frozen=True)
class Texts:
    """The text of the command line, or the lines of a file, each made when it is asked for: there may be a million."""

    bytes: bytes
    where: str
    is_file: bool

    def each(self) -> list[Text]:
        if not self.is_file:
            return [Text(self.bytes, self.where)]
        lines = self.bytes.split(b"\n")
        if not lines[-1]:
            lines.pop()
        return [Text(line, f"{self.where}: line {number}") for number, line in enumerate(lines, 1)]

    def characters(self) -> set[str]:
        """The characters of all texts."""
        met = set(self.bytes.decode("utf-8"))
        return met - {"\n"} if self.is_file else met


def read_texts(given: Given) -> Texts:
    """The text of the command line, or the lines of the file; each has to be UTF-8."""
    if given.text is not None:
        texts = Texts(os.fsencode(given.text), "the text", False)
    else:
        name = given.own["text-file"]
        texts = Texts(read_whole(name), name, True)
    try:
        texts.bytes.decode("utf-8")
    except UnicodeDecodeError:
        for text in texts.each():
            check_utf8(text)
    return texts


def read_whole(name: str) -> bytes:
    """The bytes of a file of texts, or of standard input."""
    with naming(INPUT if name == "-" else name):
        if name == "-":
            whole = sys.stdin.buffer.read(MOST_TEXT + 1)
        else:
            with open(name, "rb") as file:
                whole = file.read(MOST_TEXT + 1)
    if len(whole) > MOST_TEXT:
        raise ToolFault(FILES, f"{name}: more than {MOST_TEXT:,} bytes of text")
    return whole


def check_utf8(text: Text) -> None:
    """Refuses a text that is no UTF-8: the fault says at which byte, and after which character."""
    try:
        text.bytes.decode("utf-8")
    except UnicodeDecodeError as error:
        before = text.bytes[: error.start].decode("utf-8")
        after = f", after {len(before)} characters, the last {name_of(before[-1])}" if before else ""
        what = f"byte {error.start} (0x{text.bytes[error.start]:02X}){after}"
        raise ToolFault(TEXT, f"{text.where} is no UTF-8 at {what}: {error.reason}") from error


def name_of(character: str) -> str:
    return f"U+{ord(character):04X} {unicodedata.name(character, '')}".strip()


def script_of(text: str) -> str:
    """The first script of a text, as a shaper guesses it; Zyyy where it has none of its own."""
    from fontTools import unicodedata as scripts

    found = (scripts.script(character) for character in text)
    return next((script for script in found if script not in ("Zyyy", "Zinh", "Zzzz")), "Zyyy")


def unshown(characters: set[str], has: Container[int]) -> set[str]:
    """Those of some characters for which the font has nothing to show by themselves."""
    return {character for character in characters if not is_shown(ord(character), has)}


def lacking(text: str, has: Container[int]) -> Iterator[tuple[int, str]]:
    """Each character, with its index, for which the font has nothing to show."""
    for at, character in enumerate(text):
        if not (is_shown(ord(character), has) or is_composed(text, at, has)):
            yield at, character


def is_shown(character: int, has: Container[int]) -> bool:
    """Whether the font has the character, its pieces, or what stands for it; or nothing is to be shown."""
    if character in has or any(first <= character <= last for first, last in IGNORABLE):
        return True
    if character in SPACES:
        return 0x20 in has
    if OTHERS.get(character) in has:
        return True
    pieces = unicodedata.normalize("NFD", chr(character))
    return len(pieces) > 1 and all(ord(piece) in has for piece in pieces)


def is_composed(text: str, at: int, has: Container[int]) -> bool:
    """Whether a mark becomes one character that the font has, with what stands before it."""
    start = at
    while start > 0 and unicodedata.combining(text[start]):
        start -= 1
    whole = unicodedata.normalize("NFC", text[start : at + 1])
    return start < at and len(whole) < at + 1 - start and all(ord(one) in has for one in whole)


def lack_notes(text: Text, has: Container[int]) -> Iterator[str]:
    """What the font lacks of a text, with the byte and character where each first stands."""
    met: dict[str, int] = {}
    for at, character in lacking(text.characters, has):
        met.setdefault(character, at)
    for character, at in list(met.items())[:SHOWN]:
        byte = len(text.characters[:at].encode("utf-8"))
        yield f"{text.where}: the font lacks {name_of(character)} (byte {byte}, character {at + 1})"
    if len(met) > SHOWN:
        yield f"{text.where}: the font lacks {len(met) - SHOWN} characters more"
