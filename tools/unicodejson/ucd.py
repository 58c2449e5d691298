"""Reading the files of the Unicode Character Database (UAX 44)."""

import re
from dataclasses import dataclass, field
from functools import cached_property
from pathlib import Path
from typing import Iterator

from common.faults import DATA, FILES, ToolFault

VERSION = re.compile(r"-(\d+\.\d+\.\d+)\.txt|Version: (\d+\.\d+)")
RANGE_END = ", Last>"
Version = tuple[int, ...]


@dataclass
class Character:
    """A line of UnicodeData.txt: its name, general category, combining class and decomposition."""

    name: str
    category: str
    combining_class: int
    decomposition: str


@dataclass
class Ucd:
    """A folder with the files of one version; nothing newer than `newest` is read."""

    folder: Path
    newest: Version
    versions: dict[str, str] = field(default_factory=dict)

    def lines(self, name: str) -> Iterator[list[str]]:
        """The fields of each line of a file, without comments."""
        path = self.folder / name
        if not path.is_file():
            raise ToolFault(FILES, f"{path}: a file of the Unicode Character Database is missing")
        try:
            text = path.read_text(encoding="utf-8")
        except UnicodeDecodeError as error:
            raise ToolFault(DATA, f"{path}: no UTF-8 at byte {error.start}") from error
        self.note_version(name, text)
        for line in text.splitlines():
            code = line.split("#", 1)[0].strip()
            if code:
                yield [part.strip() for part in code.split(";")]

    def note_version(self, name: str, text: str) -> None:
        match = VERSION.search(text[:400])
        if match is not None:
            self.versions[name] = match.group(1) or f"{match.group(2)}.0"

    def property(self, name: str, wanted: str | None = None) -> dict[int, str]:
        """Characters and the value of their property; only those of one property where a file has several."""
        values: dict[int, str] = {}
        for parts in self.lines(name):
            if wanted is None or parts[1] == wanted:
                for character in span(parts[0]):
                    values[character] = parts[1]
        return {character: value for character, value in values.items() if self.is_known(character)}

    def is_known(self, character: int) -> bool:
        """Whether the character has come by the newest version that is asked for."""
        age = self.ages.get(character)
        return age is None or age <= self.newest

    @cached_property
    def ages(self) -> dict[int, Version]:
        return {c: version_of(parts[1]) for parts in self.lines("DerivedAge.txt") for c in span(parts[0])}

    @cached_property
    def characters(self) -> dict[int, Character]:
        """The assigned characters, those of ranges too."""
        found: dict[int, Character] = {}
        first = 0
        for parts in self.lines("UnicodeData.txt"):
            number = int(parts[0], 16)
            character = Character(parts[1], parts[2], int(parts[3]), parts[5])
            start = first if parts[1].endswith(RANGE_END) else number
            for each in range(start, number + 1):
                if self.is_known(each):
                    found[each] = character
            first = number
        return found

    @cached_property
    def blocks(self) -> list[tuple[range, str]]:
        return [(span(parts[0]), parts[1]) for parts in self.lines("Blocks.txt")]

    def block(self, character: int) -> str:
        return next((name for characters, name in self.blocks if character in characters), "No_Block")

    def category(self, character: int) -> str:
        """The general category, Cn where the character is not assigned."""
        found = self.characters.get(character)
        return "Cn" if found is None else found.category

    def version(self) -> str:
        """The version of all files that were read so far, which has to be one."""
        versions = {of[: of.rindex(".")] for of in self.versions.values()}
        if len(versions) != 1:
            raise ToolFault(DATA, f"{self.folder}: files of several versions: {self.versions}")
        return max(self.versions.values())


def span(text: str) -> range:
    """The characters of `0041` or `0041..005A`."""
    first, _, last = text.partition("..")
    return range(int(first, 16), int(last or first, 16) + 1)


def version_of(text: str) -> Version:
    return tuple(int(part) for part in text.split("."))
