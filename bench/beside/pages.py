"""The texts of a set, composed of a list of words: the same ones at each run."""

import unicodedata
from functools import cache
from itertools import chain, islice
from pathlib import Path
from typing import Iterable, Iterator

from beside.composed import JOINERS, TSHEG, composed, kind_of
from beside.sets import Set

WORDS = Path(__file__).parent / "words"
COMMENT = "#"
# A stop stands after so many words.
CLAUSE = 9
# The words of the measure of words: how many, and of how many characters.
COUNT, SHORTEST, LONGEST = 300, 5, 8
# At most so many composed words are looked at for them.
MOST = 50 * COUNT
# Texts of two scripts in turn: so many words of each, and as many numbers.
TURNS = 20


def read_words(path: Path) -> list[str]:
    """The words of a list, which spaces and line feeds separate; a line that begins with # is a comment."""
    lines = path.read_text(encoding="utf-8").splitlines()
    return [word for line in lines if not line.startswith(COMMENT) for word in line.split()]


def list_of(name: str) -> tuple[str, ...]:
    return tuple(read_words(WORDS / f"{name}.txt"))


# ---- pages


def text_of(chosen: Set, characters: int) -> str:
    """The set's text: as many whole words as fit."""
    words = spelled(composed(list_of(chosen.words)), chosen.is_decomposed)
    return text_from(words, chosen.between, chosen.stop, characters)


def spelled(words: Iterable[str], is_decomposed: bool) -> Iterator[str]:
    """Words as a set writes them: as they are, or decomposed."""
    return (unicodedata.normalize("NFD", word) if is_decomposed else word for word in words)


def text_from(words: Iterable[str], between: str, stop: str, characters: int) -> str:
    """As many words as fit; a shorter text is the front of a longer one."""
    pieces: list[str] = []
    length = 0
    for number, word in enumerate(words, 1):
        if length + len(word) > characters:
            break
        pieces += word, between if number % CLAUSE else stop
        length += len(word) + len(pieces[-1])
    return "".join(pieces[:-1])


# ---- words


def words_of(chosen: Set) -> list[str]:
    """Different words of five to eight characters: those of the set's list, then composed ones."""
    return long_words(chosen.words, chosen.is_decomposed)[:COUNT]


@cache
def long_words(name: str, is_decomposed: bool) -> list[str]:
    own = list_of(name)
    found: dict[str, None] = {}
    for word in chain(spelled(own, is_decomposed), islice(joined(spelled(composed(own), is_decomposed)), MOST)):
        if SHORTEST <= len(word) <= LONGEST and is_plain(word):
            found[word] = None
        if len(found) == COUNT:
            break
    return list(found)


def joined(words: Iterator[str]) -> Iterator[str]:
    """Words of letters; what is too short stands before the next one of its script."""
    front = ""
    for word in filter(is_plain, words):
        whole = front + word if front and kind_of(front)[:1] == kind_of(word)[:1] else word
        front = whole if len(whole) < SHORTEST else ""
        yield whole


def is_plain(word: str) -> bool:
    """Whether a word has letters and marks alone."""
    return all(unicodedata.category(letter)[0] in "LM" or letter in JOINERS + TSHEG for letter in word)


# ---- two scripts in turn


def turns_of(chosen: Set, characters: frozenset[int]) -> list[str]:
    """Words of a set and of another script in turn, with numbers between, as far as a font has their characters; none
    where it has the set's words alone."""
    numbers = [str(number) for number in range(1984, 1984 + TURNS)]
    rows = (words_of(chosen), long_words(chosen.other, is_decomposed=False), numbers)
    there = [[text for text in row if characters.issuperset(map(ord, text))][:TURNS] for row in rows]
    full = [row for row in there if len(row) == TURNS]
    return [text for texts in zip(*full) for text in texts] if len(full) > 1 else []
