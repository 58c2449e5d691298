"""Texts for a font in its own scripts: words of the lists that it has all characters of, and strings drawn by chance."""

import random
from functools import cache

from fontTools import unicodedata

from beside.pages import WORDS, read_words

TEXTS = 20
# At most so many scripts of a font, those with the most characters.
SCRIPTS = 5
NO_SCRIPT = ("Zyyy", "Zinh", "Zzzz")
SHORTEST, LONGEST = 2, 8


def texts_of(characters: frozenset[int], seed: str) -> list[str]:
    """Texts for a font that has some characters; the same ones for the same seed."""
    scripts = scripts_of(characters)
    draw = random.Random(seed)
    texts: list[str] = []
    for at, (script, letters) in enumerate(scripts):
        # The scripts share the texts, and words and strings a script's texts.
        count = TEXTS * (at + 1) // len(scripts) - TEXTS * at // len(scripts)
        words = [word for word in words_of(script) if characters.issuperset(map(ord, word))]
        chosen = draw.sample(words, min(len(words), count // 2))
        texts += chosen + [by_chance(letters, draw) for _ in range(count - len(chosen))]
    return texts


def scripts_of(characters: frozenset[int]) -> list[tuple[str, list[str]]]:
    """The scripts of a font with their letters and marks, those with the most first; of a font of symbols these."""
    found: dict[str, list[str]] = {}
    for number in sorted(characters):
        character = chr(number)
        if unicodedata.category(character)[0] in "LM":
            found.setdefault(unicodedata.script(character), []).append(character)
    own = sorted(((s, c) for s, c in found.items() if s not in NO_SCRIPT), key=lambda pair: (-len(pair[1]), pair[0]))
    if own:
        return own[:SCRIPTS]
    shown = [chr(number) for number in sorted(characters) if unicodedata.category(chr(number))[0] not in "CZ"]
    return [("Zyyy", shown)] if shown else []


def by_chance(letters: list[str], draw: random.Random) -> str:
    return "".join(draw.choice(letters) for _ in range(draw.randint(SHORTEST, LONGEST)))


@cache
def words_of(script: str) -> tuple[str, ...]:
    """The words of all lists that are in a script."""
    words = (word for path in sorted(WORDS.iterdir()) for word in read_words(path))
    return tuple(word for word in words if unicodedata.script(word[0]) == script)
