"""Words composed of the pieces of a list's words: as many as are wanted, the same ones at each run.

A piece is a syllable as the script writes it: a letter with its marks, and what a virama, a leading vowel or a tsheg
binds to it; in Latin a run of consonants or of vowels. A composed word has the pattern of a word of the list: as many
pieces, of the same kinds, and the same punctuation; its pieces and its digits are drawn."""

import unicodedata
from dataclasses import dataclass
from functools import cache
from itertools import pairwise
from random import Random
from typing import Iterator, Sequence, TypeVar

VIRAMA = 9
# Asat ends a syllable, though it has a virama's class.
ASAT = "\u103a"
LEADING_VOWELS = "เแโใไ"
TRAILING_VOWELS = "ะาำๅ"
JOINERS = "\u200c\u200d"
TSHEG = "\u0f0b"
LATIN_VOWELS = "aeiouy"
DIGITS = "0123456789"
SEED = "words"
# A word that came before is drawn again so often: short ones run out in a long text.
DRAWS = 20
Drawn = TypeVar("Drawn")


@dataclass(frozen=True)
class Piece:
    """What is exchanged for another piece of its kind, or what stays, as punctuation does."""

    text: str
    kind: tuple[str, ...]


@cache
def kind_of(text: str) -> tuple[str, ...]:
    """Script and case of the first letter, and whether it is a vowel where the script is Latin; none of what stays."""
    first = text[0]
    if unicodedata.category(first)[0] not in "LM":
        return ()
    script = unicodedata.name(first, "").split(" ")[0]
    return script, str(first.isupper()), str(script == "LATIN" and is_vowel(first))


def is_vowel(letter: str) -> bool:
    return unicodedata.normalize("NFD", letter)[0].lower() in LATIN_VOWELS


def is_tibetan(character: str) -> bool:
    return "\u0f00" <= character <= "\u0fff"


def is_bound(before: str, after: str) -> bool:
    """Whether two neighbouring characters belong to one piece."""
    if is_tibetan(before) and is_tibetan(after):
        return before != TSHEG
    if unicodedata.category(after)[0] == "M" or after in JOINERS + TRAILING_VOWELS:
        return True
    if before in LEADING_VOWELS + JOINERS or (unicodedata.combining(before) == VIRAMA and before != ASAT):
        return True
    return kind_of(before)[:1] == ("LATIN",) and kind_of(before) == kind_of(after)


def pieces_of(word: str) -> list[Piece]:
    """The pieces of a word, which together are the word."""
    ends = [at for at, (before, after) in enumerate(pairwise(word), 1) if not is_bound(before, after)]
    texts = [word[start:end] for start, end in zip([0, *ends], [*ends, len(word)], strict=True)]
    return [Piece(text, kind_of(text)) for text in texts]


@dataclass(frozen=True)
class Pieces:
    """The words of a list in pieces, and for each kind the pieces that may stand before a word's last, and last."""

    patterns: list[list[Piece]]
    inner: dict[tuple[str, ...], list[str]]
    last: dict[tuple[str, ...], list[str]]


@cache
def pieces_of_list(words: tuple[str, ...]) -> Pieces:
    all_patterns = [pieces_of(word) for word in words]
    inner: dict[tuple[str, ...], list[str]] = {}
    last: dict[tuple[str, ...], list[str]] = {}
    for pattern in all_patterns:
        letters = [piece for piece in pattern if piece.kind]
        for at, piece in enumerate(letters):
            if at < len(letters) - 1 or len(letters) == 1:
                inner.setdefault(piece.kind, []).append(piece.text)
            if at > 0 or len(letters) == 1:
                last.setdefault(piece.kind, []).append(piece.text)
    # A word of one piece would come again and again.
    patterns = [pattern for pattern in all_patterns if sum(bool(piece.kind) for piece in pattern) != 1]
    return Pieces(patterns, inner, last)


def composed(words: tuple[str, ...]) -> Iterator[str]:
    """Words without end; while the pieces have another one none comes again."""
    pieces, draw, seen = pieces_of_list(words), Random(SEED), set[str]()
    while True:
        for _ in range(DRAWS):
            word = composed_once(pieces, draw)
            if word not in seen:
                break
        seen.add(word)
        yield word


def composed_once(pieces: Pieces, draw: Random) -> str:
    pattern = drawn(pieces.patterns, draw)
    *_, last = [at for at, piece in enumerate(pattern) if piece.kind] or [-1]
    made = []
    for at, piece in enumerate(pattern):
        if piece.kind:
            made.append(drawn((pieces.last if at == last else pieces.inner).get(piece.kind, [piece.text]), draw))
        else:
            made.append("".join(drawn(DIGITS, draw) if letter in DIGITS else letter for letter in piece.text))
    return "".join(made)


def drawn(choice: Sequence[Drawn], draw: Random) -> Drawn:
    """One of some. Of Python's numbers by chance those of random() alone are the same in each version."""
    return choice[int(draw.random() * len(choice))]
