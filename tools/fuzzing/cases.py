"""The cases of a seed, each by its number: words, three files, and the answers that are right for them."""

import json
from dataclasses import dataclass
from enum import Enum
from pathlib import Path
from random import Random
from typing import Any, Callable

from common.files import write_over
from formats.rules import font_faults, tables_faults
from formats.where import fault_of
from fuzzing.alphabets import Alphabet, draw_alphabet
from fuzzing.damage import damage_bytes, damage_value
from fuzzing.fonts import draw_font
from fuzzing.tables import draw_tables
from fuzzing.words import draw_text, draw_words

# Cases of one group have the font and the tables in common: most of the time is spent in drawing them.
GROUP = 16
FILES = ("tables.json", "font.json", "text.txt")
FORMAT = {"J1 NotJson", "J2 WrongShape", "J3 FloatNumber", "J4 UnknownName", "U1 OutOfOrder", "U2 OutOfRange"}
DEPTH = {"U3 SplitDepth"}
LAWS = {"Unlawful"}
# A machine of TABLES has kinds of the format alone, so no text meets an unknown one.
SHAPED = {"ok", "S2 TooLong", "S3 StretchRange"}


class State(Enum):
    """What is known of a file."""

    GOOD = 1
    # It follows the format; of tables, they may break a law.
    VALID = 2
    FAULTY = 3
    UNKNOWN = 4


@dataclass(frozen=True)
class File:
    """A file's bytes, and what is known of them."""

    bytes: bytes
    state: State


@dataclass(frozen=True)
class Group:
    """What the cases of a group have in common."""

    alphabet: Alphabet
    tables: File
    font: File


@dataclass(frozen=True)
class Case:
    """Options, the three files in the order of the command line, and the names of the answers that are right."""

    number: int
    options: tuple[str, ...]
    files: tuple[bytes, bytes, bytes]
    missing: int | None
    answers: frozenset[str]

    def size(self) -> int:
        return sum(map(len, self.files)) + sum(map(len, self.options))


def as_json(value: Any) -> bytes:
    return json.dumps(value, separators=(",", ":"), ensure_ascii=False).encode("utf-8", "surrogatepass")


class Cases:
    """The cases of a seed. A folder is needed for files that are read by the rules of the format."""

    def __init__(self, seed: int, folder: Path) -> None:
        self.seed = seed
        self.folder = folder
        self.held: tuple[int, Group] | None = None

    def case(self, number: int) -> Case:
        """The case of a number, the same each time."""
        group = self.group(number // GROUP)
        draw = Random(f"{self.seed}/case/{number}")
        options, are_words = draw_words(draw, group.alphabet)
        text, is_text = draw_text(draw, group.alphabet)
        tables, font = self.hurt(draw, group.tables), self.hurt(draw, group.font)
        missing = draw.randrange(3) if draw.random() < 0.002 else None
        answers = right_answers(are_words, missing is not None, tables.state, font.state, is_text)
        return Case(number, tuple(options), (tables.bytes, font.bytes, text), missing, answers)

    def hurt(self, draw: Random, file: File) -> File:
        """The file, rarely with damaged bytes."""
        if draw.random() < 0.96:
            return file
        return File(damage_bytes(draw, file.bytes), State.UNKNOWN)

    def group(self, number: int) -> Group:
        """The group of a number; the last one is kept."""
        if self.held is None or self.held[0] != number:
            self.held = number, self.drawn(Random(f"{self.seed}/group/{number}"))
        return self.held[1]

    def drawn(self, draw: Random) -> Group:
        alphabet = draw_alphabet(draw)
        tables, is_lawful = draw_tables(draw, alphabet)
        font = draw_font(draw, alphabet)
        state = State.GOOD if is_lawful else State.VALID
        return Group(
            alphabet,
            self.file(draw, tables, state, tables_faults, 0.1),
            self.file(draw, font, State.GOOD, font_faults, 0.2),
        )

    def file(self, draw: Random, value: Any, state: State, rules: Callable[[Any], Any], part: float) -> File:
        """A value as a file; a part of them has one damaged place, and may then break the format."""
        if draw.random() >= part:
            return File(as_json(value), state)
        changed = json.loads(as_json(value))
        damage_value(draw, changed)
        path = self.folder / "damaged.json"
        write_over(path, as_json(changed))
        found = fault_of(path, rules)
        return File(path.read_bytes(), State.VALID if found is None else State.FAULTY)


def right_answers(are_words: bool, is_missing: bool, tables: State, font: State, is_text: bool) -> frozenset[str]:
    """The answers that are right, in the order in which the program looks for faults."""
    if not are_words:
        return frozenset({"words"})
    if is_missing:
        return frozenset({"Read"})
    answers: set[str] = set()
    for state, faults in ((tables, FORMAT | DEPTH | LAWS), (font, FORMAT)):
        if state == State.VALID:
            answers |= faults & (DEPTH | LAWS)
        elif state != State.GOOD:
            answers |= faults
        if state == State.FAULTY:
            return frozenset(answers)
    return frozenset(answers | (SHAPED if is_text else {"NotUtf8"}))
