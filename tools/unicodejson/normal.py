"""Splits, pairs and combining classes (UAX 15), the classes as HarfBuzz modifies them for shaping."""

from unicodejson.ucd import Ucd

Row = list[int]

# Classes of a script's own marks are numbered anew, so that marks of one script stand in the order in which they are
# written or drawn: hb-unicode's modified combining classes. A class that is not here stays.
MODIFIED = {
    # Hebrew: shin and sin dots, dagesh, rafe and meteg, then the vowels (SBL Hebrew's order).
    10: 22, 11: 15, 12: 16, 13: 17, 14: 23, 15: 18, 16: 19, 17: 20, 18: 21, 19: 14, 20: 24, 21: 12, 22: 25, 23: 13,
    24: 10, 25: 11,
    # Arabic: shadda before the vowels.
    27: 28, 28: 29, 29: 30, 30: 31, 31: 32, 32: 33, 33: 27,
    # Telugu: length marks are no marks of a class, since they are parts of split vowels.
    84: 0, 91: 0,
    # Thai: sara u and sara uu before phinthu.
    103: 3,
    # Tibetan: the sign u before the sign i.
    130: 132, 132: 131,
}  # fmt: skip

# Single characters whose class HarfBuzz sets, over the table above.
MODIFIED_CHARACTERS = {
    0x1A60: 254,  # the sakot of Tai Tham stands behind all tone marks
    0x0FC6: 254,  # the padma of Tibetan stands behind all vowel signs
    0x0F39: 127,  # the tsa phru of Tibetan stands before the vowel sign u
}


def canonical(ucd: Ucd) -> dict[int, list[int]]:
    """Canonical decompositions as they stand in UnicodeData.txt, of one or two characters."""
    return {
        number: [int(part, 16) for part in character.decomposition.split()]
        for number, character in ucd.characters.items()
        if character.decomposition and not character.decomposition.startswith("<")
    }


def split_rows(ucd: Ucd) -> list[Row]:
    """A character with its two parts, the second 0 where there is one part. Hangul syllables go by arithmetic."""
    rows = []
    for number, parts in sorted(canonical(ucd).items()):
        rows.append([number, *parts] if len(parts) == 2 else [number, parts[0], 0])
    return rows


def pair_rows(ucd: Ucd) -> list[Row]:
    """Two parts and what they compose to, without the characters that composition leaves out."""
    excluded = ucd.property("DerivedNormalizationProps.txt", "Full_Composition_Exclusion")
    rows = [
        [*parts, number] for number, parts in canonical(ucd).items() if len(parts) == 2 and number not in excluded
    ]
    return sorted(rows)


def class_rows(ucd: Ucd) -> list[Row]:
    """Classes that are not 0, modified."""
    rows = []
    for number, character in sorted(ucd.characters.items()):
        modified = modified_class(number, character.combining_class)
        if modified != 0:
            rows.append([number, modified])
    return rows


def modified_class(character: int, combining_class: int) -> int:
    return MODIFIED_CHARACTERS.get(character, MODIFIED.get(combining_class, combining_class))
