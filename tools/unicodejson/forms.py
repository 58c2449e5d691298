"""Mirror images, vertical forms, pictographic characters, joining types."""

from unicodejson.ucd import Ucd, span

Row = list[object]
PICTOGRAPHIC = "Extended_Pictographic"
# A vertical form's name without these words is the name of what it stands for.
VERTICAL_FORM = "PRESENTATION FORM FOR VERTICAL "
JOINING_GROUPS = {"ALAPH": "ALAPH", "DALATH RISH": "DALATH_RISH"}
# A join-causing character joins on both sides.
JOINING_TYPES = {"U": "U", "L": "L", "R": "R", "D": "D", "C": "D", "T": "T"}


def mirrored_rows(ucd: Ucd) -> list[Row]:
    """Characters and their mirror images (BidiMirroring.txt)."""
    rows = [[int(part, 16) for part in parts] for parts in ucd.lines("BidiMirroring.txt")]
    return sorted(row for row in rows if all(map(ucd.is_known, row)))


def vertical_rows(ucd: Ucd) -> list[Row]:
    """Characters and their vertical presentation forms: those with a `<vertical>` decomposition.

    A form stands for the character of its own name, or where there is none for its decomposition; and in place of an
    ASCII character for its fullwidth one, since the ASCII one is turned with the line.
    """
    fullwidth = {base: number for number, base in decompositions(ucd, "<wide>").items()}
    by_name = {character.name: number for number, character in ucd.characters.items()}
    rows = []
    for form, base in decompositions(ucd, "<vertical>").items():
        named = by_name.get(ucd.characters[form].name.removeprefix(VERTICAL_FORM), base)
        rows.append([fullwidth.get(named, named), form])
    return sorted(rows)


def decompositions(ucd: Ucd, kind: str) -> dict[int, int]:
    """Compatibility decompositions of a kind to one character."""
    found = {}
    for number, character in ucd.characters.items():
        parts = character.decomposition.split()
        if len(parts) == 2 and parts[0] == kind:
            found[number] = int(parts[1], 16)
    return found


def pictographic_rows(ucd: Ucd) -> list[Row]:
    """The first and last characters of pictographic stretches (emoji-data.txt)."""
    spans = sorted(
        (span(parts[0]) for parts in ucd.lines("emoji/emoji-data.txt") if parts[1] == PICTOGRAPHIC),
        key=lambda each: each.start,
    )
    rows: list[list[int]] = []
    for each in spans:
        if rows and rows[-1][1] + 1 >= each.start:
            rows[-1][1] = max(rows[-1][1], each.stop - 1)
        else:
            rows.append([each.start, each.stop - 1])
    return rows


def joining_rows(ucd: Ucd) -> list[Row]:
    """Joining types of the characters in ArabicShaping.txt; two groups of Syriac are types of their own."""
    rows = []
    for parts in ucd.lines("ArabicShaping.txt"):
        number, kind, group = int(parts[0], 16), parts[2], parts[3]
        if ucd.is_known(number):
            rows.append([number, JOINING_GROUPS.get(group, JOINING_TYPES[kind])])
    return sorted(rows)
