"""Random words of the command line, and random texts."""

from random import Random

from fuzzing.alphabets import Alphabet
from fuzzing.fonts import FEATURES

SWITCHES = """
    --bot --eot --preserve-default-ignorables --remove-default-ignorables --no-dotted-circle --unsafe-to-concat
    --safe-to-insert-tatweel --safe-breaks --no-glyph-names --no-clusters --no-positions --no-advances --show-extents --show-flags
    --slices
""".split()
DIRECTIONS = ["ltr", "rtl", "ttb", "btt", "L", "r"]
VALUES = ["", "=0", "=1", "=2", "=255", "=256", "=4294967295", "=on", "=off"]
RANGES = ["", "", "", "[3:5]", "[:2]", "[4:]", "[1]", "[]", "[5:1]"]
LANGUAGES = ["en", "de", "de-CH", "ro", "tr", "ur", "x", "zh-Hant"]
# Lengths of texts of one line.
LENGTHS = [0, 1, 1, 2, 2, 3, 3, 4, 5, 5, 6, 8, 8, 10, 13, 21]
# Words that the program refuses.
WRONG = [
    ["--features=kern=4294967296"],
    ["--features=toolong"],
    ["--features="],
    ["--cluster-level", "4"],
    ["--cluster-level"],
    ["--direction", "x"],
    ["--direction", ""],
    ["--script="],
    ["--language="],
    ["--help"],
    ["-h"],
    ["--bot", "--bot"],
    ["--unknown"],
    ["--slices=1"],
    ["more"],
]


def draw_settings(draw: Random, alphabet: Alphabet) -> list[str]:
    """Options that the program takes."""
    words = [switch for switch in SWITCHES if draw.random() < 0.15]
    if draw.random() < 0.3:
        words.append(f"--direction={draw.choice(DIRECTIONS)}")
    if draw.random() < 0.5:
        words.append(f"--script={draw.choice([alphabet.iso, alphabet.iso, alphabet.iso, 'Zyyy', 'x', 'LATN'])}")
    if draw.random() < 0.2:
        words.append(f"--language={draw.choice(LANGUAGES)}")
    if draw.random() < 0.5:
        words += ["--cluster-level", draw.choice("0123")]
    if draw.random() < 0.4:
        words.append("--features=" + ",".join(feature(draw) for _ in range(draw.choice([1, 1, 2, 5]))))
    return words


def draw_words(draw: Random, alphabet: Alphabet) -> tuple[list[str], bool]:
    """Options that the program takes, rarely with one that it refuses; and whether it takes them."""
    words = draw_settings(draw, alphabet)
    if draw.random() < 0.01:
        return [*words, *draw.choice(WRONG)], False
    return words, True


def feature(draw: Random) -> str:
    return draw.choice(["", "", "+", "-"]) + draw.choice(FEATURES) + draw.choice(RANGES) + draw.choice(VALUES)


def draw_text(draw: Random, alphabet: Alphabet) -> tuple[bytes, bool]:
    """A text over the alphabet, mostly short; and whether it is UTF-8."""
    length = draw.choice([0, 1, 2, 3, 5, 8, 13, 21, 40, 100])
    if draw.random() < 0.002:
        length = 2000
    drawn = draw.choices(alphabet.characters, k=length)
    if drawn and draw.random() < 0.15:
        drawn = (drawn[: draw.randint(1, 4)] * length)[:length]
    if draw.random() < 0.03:
        drawn.append(draw.choice([0x0A, 0, 0x10FFFF, 0xFFFD, 0x7F, 0x2028]))
    text = "".join(map(chr, drawn)).encode("utf-8")
    if draw.random() < 0.01:
        at = draw.randint(0, len(text))
        wrong = draw.choice([b"\x80", b"\xc3(", b"\xed\xa0\x80", b"\xf4\x90\x80\x80", b"\xc0\x80", b"\xff", b"\xe2\x82"])
        return text[:at] + wrong + text[at:], False
    return text, True


def draw_line(draw: Random, characters: list[str]) -> str:
    """A text of some characters on one line: short, rarely long; some are a few characters again and again."""
    length = draw.choice(LENGTHS)
    chance = draw.random()
    if chance < 0.01:
        length = draw.choice([40, 70, 150])
    drawn = draw.choices(characters, k=length)
    if length and chance > 0.9:
        drawn = (drawn[: draw.randint(1, 3)] * length)[:length]
    return "".join(drawn)
