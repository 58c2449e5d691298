"""The stream of cases that shape_trials reads: blocks of one alphabet and its tables, each with fonts, settings and texts.

A block is drawn by its number, and all have as many cases, so a case is found again by its own number."""

from dataclasses import dataclass
from functools import cached_property
from random import Random
from typing import Any

from fuzzing.alphabets import Alphabet, draw_alphabet
from fuzzing.cases import as_json
from fuzzing.fonts import FontDraw
from fuzzing.tables import draw_tables
from fuzzing.words import draw_line, draw_settings

FONTS, SETTINGS, TEXTS = 8, 8, 32
CASES = FONTS * SETTINGS * TEXTS

# In so many fonts no context leads back to itself: where one does, a text may cost a hundred times as much.
TAME = 0.95


@dataclass(frozen=True)
class TrialCase:
    """A case by its number: the number of its font, and what it is shaped by."""

    number: int
    font: int
    tables: bytes
    count: int
    face: bytes
    words: list[str]
    text: str

    def stream(self) -> bytes:
        """The case alone."""
        return b"".join((tables_line(self.tables), font_line(self.count, self.face), words_line(self.words), text_line(self.text)))


def tables_line(tables: bytes) -> bytes:
    return b"tables " + tables + b"\n"


def font_line(count: int, face: bytes) -> bytes:
    return b"font %d %s\n" % (count, face)


def words_line(words: list[str]) -> bytes:
    """The program's words, with names for its three files, which are not read."""
    return " ".join(("words hb_shape", *words, "tables font text\n")).encode()


def text_line(text: str) -> bytes:
    return f"text {text}\n".encode()


def cut_cycles(font: dict[str, Any]) -> None:
    """Leaves a context only those of its nested lookups that follow it."""
    for table in ("gsub", "gpos"):
        for at, lookup in enumerate(font.get(table, {}).get("lookups", [])):
            if lookup["type"] in ("context", "chain"):
                for rule in (rule for subtable in lookup["subtables"] for rule in subtable["rules"]):
                    rule[3] = [record for record in rule[3] if record[1] > at]


class Block:
    """The cases of a number: one alphabet, and its tables."""

    def __init__(self, seed: int, number: int) -> None:
        self.seed = seed
        self.number = number
        draw = self.draw("tables")
        self.alphabet = draw_alphabet(draw)
        self.tables = as_json(draw_tables(draw, self.alphabet, 1.0)[0])

    def draw(self, *of: object) -> Random:
        return Random("/".join(map(str, (self.seed, self.number, *of))))

    def font(self, at: int) -> tuple[int, bytes]:
        """The number of glyphs of a font of the block, and its JSON."""
        draw = self.draw("font", at)
        drawn = FontDraw(draw, self.alphabet)
        value = drawn.font()
        if draw.random() < TAME:
            cut_cycles(value)
        return max(drawn.glyphs) + 1, as_json(value)

    def settings(self, font: int, at: int) -> list[str]:
        return draw_settings(self.draw("words", font, at), self.alphabet)

    @cached_property
    def characters(self) -> list[str]:
        return [chr(each) for each in self.alphabet.characters]

    def texts(self, font: int, at: int) -> list[str]:
        draw = self.draw("texts", font, at)
        return [draw_line(draw, self.characters) for _ in range(TEXTS)]

    def stream(self) -> bytes:
        """The block's lines."""
        lines = [tables_line(self.tables)]
        for font in range(FONTS):
            lines.append(font_line(*self.font(font)))
            for at in range(SETTINGS):
                lines.append(words_line(self.settings(font, at)))
                lines += map(text_line, self.texts(font, at))
        return b"".join(lines)

    def case(self, at: int) -> TrialCase:
        """A case of the block."""
        font, rest = divmod(at, SETTINGS * TEXTS)
        settings, text = divmod(rest, TEXTS)
        count, face = self.font(font)
        return TrialCase(
            self.number * CASES + at,
            self.number * FONTS + font,
            self.tables,
            count,
            face,
            self.settings(font, settings),
            self.texts(font, settings)[text],
        )


def case_of(seed: int, number: int) -> TrialCase:
    """The case of a number."""
    block, at = divmod(number, CASES)
    return Block(seed, block).case(at)
