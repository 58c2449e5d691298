"""The characters of a script from which texts are drawn, with the script's tags."""

import unicodedata
from dataclasses import dataclass
from functools import cache
from random import Random

SCRIPTS = """
    Latn latn 0061-007A 00C0-00FF 0300-0330
    Grek grek 0391-03C9 0301 0345
    Cyrl cyrl 0410-044F 0306 0483-0487
    Arab arab 0620-065F 06DC 06E3-06E8 08CA-08D3 08F3
    Syrc syrc 0710-074A
    Mong mong 1820-1842 180B-180F 1880-18A9
    Nkoo nko 07CA-07F5
    Adlm adlm 1E900-1E94A
    Hebr hebr 05B0-05C7 05D0-05EA 05F2 FB1D FB2A-FB36 FB49-FB4E
    Thai thai 0E01-0E4E
    Laoo lao 0E81-0ECD
    Hang hang 1100-1115 1161-1178 11A7-11C4 AC00-AC3C D7A0-D7B4 D7CB-D7D0 302E-302F A960-A964
    Hani hani 4E00-4E20 302A-302D
    Khmr khmr 1780-17D3 17DD
    Mymr mym2 1000-109D AA60-AA7F
    Qaag qaag 1000-1040
    Deva dev2 0900-097F 1CD0-1CF9
    Beng bng2 0980-09FE
    Guru gur2 0A01-0A76
    Gujr gjr2 0A81-0AFF
    Orya ory2 0B01-0B77
    Taml tml2 0B82-0BFA
    Telu tel2 0C00-0C7F
    Knda knd2 0C80-0CF3
    Mlym mlm2 0D00-0D7F
    Sinh sinh 0D81-0DF4
    Bali bali 1B00-1B7E
    Java java A980-A9D9
    Tibt tibt 0F40-0FBC
    Cakm cakm 11100-11147
    Limb limb 1900-194F
    Egyp egyp 13000-13010 13430-13440
    Gran gran 11300-1134D 11357-11374
    Math math 0028-003E 2044 2190-2200
""".split("\n")
# What takes part in rules of every script: digits, spaces, joiners, selectors, the fraction slash, the dotted circle,
# emoji, brackets, hyphens, Hangul's fillers, marks of several classes.
SHARED = """
    0020 0028-0029 002D 0030-0033 0041 0061-0063 00A0 00AD 00E1 00E9 00BD 0300-0301 0316 0323 0327 0338 0345 034F 061C
    115F-1160 180B-180F 2000-200F 2010-2011 202F 2044 205F 2060-2066 20DD 25CC 3000 3099 FE00 FE0F FEFF FF9E-FF9F
    1D173 1F1E6-1F1E8 1F3FB-1F3FF 1F468 1F469 2764 E0001 E0020 E0061 E007F E0100 E01EF 10FFFF
"""


# The scripts whose syllables a machine of TABLES cuts.
SYLLABIC = {
    "indic": "Deva Beng Guru Gujr Orya Taml Telu Knda Mlym".split(),
    "khmer": ["Khmr"],
    "myanmar": ["Mymr"],
    "universal": "Mong Nkoo Adlm Sinh Bali Java Tibt Cakm Limb Egyp Gran".split(),
}


@dataclass(frozen=True)
class Alphabet:
    """A script's ISO 15924 tag, its tag in fonts, and the characters from which a text of it is drawn."""

    iso: str
    tag: str
    characters: tuple[int, ...]

    def shapers(self) -> list[str]:
        """The shaper whose machine cuts this script's syllables, if there is one."""
        return [shaper for shaper, scripts in SYLLABIC.items() if self.iso in scripts]


def characters_of(ranges: list[str]) -> list[int]:
    """The characters of ranges, as 0020 or 0030-0033; unassigned ones are among them."""
    ends = [(span.split("-")[0], span.split("-")[-1]) for span in ranges]
    return [number for start, end in ends for number in range(int(start, 16), int(end, 16) + 1)]


@cache
def alphabets() -> list[tuple[str, str, list[int]]]:
    """Each script's two tags and its own characters."""
    lines = [line.split() for line in SCRIPTS if line.strip()]
    return [(iso, tag.ljust(4), characters_of(ranges)) for iso, tag, *ranges in lines]


@cache
def shared() -> list[int]:
    return characters_of(SHARED.split())


def draw_alphabet(draw: Random) -> Alphabet:
    """Some characters of one script, rarely of two, with some of the shared ones."""
    iso, tag, own = draw.choice(alphabets())
    picked = draw.sample(own, min(len(own), draw.randint(2, 24)))
    if draw.random() < 0.1:
        picked += draw.sample(draw.choice(alphabets())[2], 2)
    picked += draw.sample(shared(), draw.randint(0, 12))
    return Alphabet(iso, tag, tuple(sorted(set(closed(picked)))))


def closed(characters: list[int]) -> list[int]:
    """The characters with the pieces of their canonical decompositions, step by step."""
    found = list(characters)
    for character in found:
        mapping = unicodedata.decomposition(chr(character))
        if mapping and not mapping.startswith("<"):
            found += [piece for piece in characters_of(mapping.split()) if piece not in found]
    return found
