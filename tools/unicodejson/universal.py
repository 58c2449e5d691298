"""Categories of the Universal Shaping Engine, by its specification over the UCD and `data/universal.txt`."""

from dataclasses import dataclass
from pathlib import Path

from unicodejson.forms import JOINING_TYPES
from unicodejson.ucd import Ucd, span

Row = list[object]
DATA = Path(__file__).parent / "data" / "universal.txt"
MARKS = {"Mc", "Me", "Mn"}
JOINED = {"D", "L", "R"}
# Ignorable letters and controls of Duployan that are no word joiners.
NO_WORD_JOINER = {0x115F, 0x1160, 0x3164, 0xFFA0, 0x1BCA0, 0x1BCA1, 0x1BCA2, 0x1BCA3}
OTHER_BASES = {0x2015, 0x2022, 0x25FB, 0x25FC, 0x25FD, 0x25FE}
SINHALA_VIRAMA = 0x0DCA
TAI_THAM_SAKOT = 0x1A60
CHAM_SIGN_AA = 0xAA29

# Values of the syllabic category that are one category of the engine, whatever the general category is.
PLAIN = {
    "Brahmi_Joining_Number": "N", "Consonant_Placeholder": "GB", "Syllable_Modifier": "FM",
    "Consonant_Initial_Postfixed": "M", "Nukta": "CM", "Gemination_Mark": "CM", "Consonant_Killer": "CM",
    "Consonant_With_Stacker": "CS", "Virama": "H", "Number_Joiner": "HN", "Invisible_Stacker": "IS",
    "Hieroglyph": "G", "Hieroglyph_Joiner": "J", "Hieroglyph_Mirror": "HR", "Hieroglyph_Modifier": "HM",
    "Hieroglyph_Segment_Begin": "SB", "Hieroglyph_Segment_End": "SE", "Non_Joiner": "ZWNJ", "Joiner": "CGJ",
    "Consonant_Preceding_Repha": "R", "Consonant_Prefixed": "R", "Symbol_Modifier": "SM", "Pure_Killer": "V",
    "Tone_Mark": "VM", "Cantillation_Mark": "VM", "Register_Shifter": "VM", "Visarga": "VM",
    "Consonant_Succeeding_Repha": "F", "Reordering_Killer": "V",
    "Number": "B", "Consonant": "B", "Consonant_Head_Letter": "B", "Tone_Letter": "B", "Vowel_Independent": "B",
}  # fmt: skip
# Values that are this where the character is no letter (Lo), and a base where it is one.
SIGNS = {
    "Consonant_Final": "F", "Consonant_Medial": "M", "Consonant_Subjoined": "SUB", "Vowel": "V", "Vowel_Dependent": "V",
    "Bindu": "VM", "Avagraha": "O",
}  # fmt: skip

# Values that are no category of their own.
OTHERS = {"Other", "Consonant_Dead", "Modifying_Letter"}

# The side of a category's name by the positional category, and the usual one where that has none.
SIDES = {
    "F": {"Top": "Abv", "Bottom": "Blw", "Right": "Pst"},
    "M": {
        "Top": "Abv", "Bottom": "Blw", "Bottom_And_Left": "Blw", "Bottom_And_Right": "Blw", "Right": "Pst",
        "Left": "Pre", "Top_And_Bottom_And_Left": "Pre",
    },
    "CM": {"Top": "Abv", "Bottom": "Blw", "Overstruck": "Blw"},
    "V": {
        "Top": "Abv", "Top_And_Bottom": "Abv", "Top_And_Bottom_And_Right": "Abv", "Top_And_Right": "Abv",
        "Bottom": "Blw", "Overstruck": "Blw", "Bottom_And_Right": "Blw", "Right": "Pst",
        "Left": "Pre", "Top_And_Left": "Pre", "Top_And_Left_And_Right": "Pre", "Left_And_Right": "Pre",
    },
    "VM": {"Top": "Abv", "Bottom": "Blw", "Overstruck": "Blw", "Right": "Pst", "Left": "Pre"},
    "SM": {"Top": "Abv", "Bottom": "Blw"},
    "FM": {"Top": "Abv", "Bottom": "Blw", "Not_Applicable": "Pst"},
}  # fmt: skip
USUAL_SIDES = {"F": "Pst", "M": "Pst", "CM": "Abv", "V": "Pst", "VM": "Pst", "SM": "Abv", "FM": "Pst"}

# Scripts of the universal shaper to whose marks the UCD gives no syllabic category: a mark is a tone, a letter a base.
SCRIPTS = {
    "Adlam", "Chorasmian", "Cypro_Minoan", "Duployan", "Elymaic", "Garay", "Hanifi_Rohingya", "Khitan_Small_Script",
    "Mandaic", "Manichaean", "Medefaidrin", "Miao", "Mongolian", "Nag_Mundari", "Nko", "Nyiakeng_Puachue_Hmong",
    "Old_Sogdian", "Old_Uyghur", "Pahawh_Hmong", "Phags_Pa", "Psalter_Pahlavi", "Sogdian", "Sunuwar", "Tangsa",
    "Tifinagh", "Todhri", "Toto", "Vithkuqi", "Wancho", "Yezidi",
}  # fmt: skip
BELOW = {202, 218, 220, 222, 233, 240}


@dataclass(frozen=True)
class Properties:
    """What the rules ask of a character."""

    character: int
    syllabic: str
    positional: str
    category: str
    joining: str
    ignorable: bool


def universal_rows(ucd: Ucd) -> list[Row]:
    """Characters and categories; what no row lists is O."""
    rows: list[Row] = []
    for properties in all_properties(ucd):
        category = with_side(category_of(properties), properties)
        if category != "O":
            rows.append([properties.character, category])
    return rows


def unknown_values(ucd: Ucd) -> list[str]:
    """Syllabic categories of a newer version that no rule here knows."""
    known = PLAIN.keys() | SIGNS.keys() | OTHERS
    return sorted(set(ucd.property("IndicSyllabicCategory.txt").values()) - known)


def all_properties(ucd: Ucd) -> list[Properties]:
    syllabic = ucd.property("IndicSyllabicCategory.txt")
    positional = ucd.property("IndicPositionalCategory.txt")
    for character, added in additions(ucd).items():
        syllabic[character], positional[character] = added
    joining = {int(parts[0], 16): JOINING_TYPES[parts[2]] for parts in ucd.lines("ArabicShaping.txt")}
    ignorable = ucd.property("DerivedCoreProperties.txt", "Default_Ignorable_Code_Point")
    listed = syllabic.keys() | positional.keys() | joining.keys() | ignorable.keys() | OTHER_BASES
    return [
        Properties(
            character,
            syllabic.get(character, "Other"),
            positional.get(character, "Not_Applicable"),
            ucd.category(character),
            joining.get(character, "U"),
            character in ignorable,
        )
        for character in sorted(listed)
        if ucd.category(character) != "Cn"
    ]


def additions(ucd: Ucd) -> dict[int, tuple[str, str]]:
    """Both categories by the file of additions, or by the general category in scripts that have none."""
    found: dict[int, tuple[str, str]] = {}
    known = ucd.property("IndicSyllabicCategory.txt")
    for character, script in ucd.property("Scripts.txt").items():
        category = ucd.category(character)
        if script in SCRIPTS and character not in known:
            if category == "Lo":
                found[character] = ("Consonant", "Not_Applicable")
            elif category in MARKS:
                below = ucd.characters[character].combining_class in BELOW
                found[character] = ("Tone_Mark", "Bottom" if below else "Top")
    for line in DATA.read_text(encoding="utf-8").splitlines():
        parts = [part.strip() for part in line.split("#", 1)[0].split(";")]
        if len(parts) == 4:
            found.update(dict.fromkeys(span(parts[0]), (parts[1], parts[2])))
    return found


def category_of(of: Properties) -> str:
    """The engine's category without its side."""
    if of.character == SINHALA_VIRAMA:
        return "HVM"
    if of.character == TAI_THAM_SAKOT:
        return "Sk"
    if of.character in OTHER_BASES:
        return "GB"
    if of.ignorable and of.category in MARKS:
        return "CGJ"
    if of.syllabic in SIGNS:
        return sign(of)
    if of.joining in JOINED and of.syllabic != "Joiner":
        return "B"
    if of.syllabic in PLAIN:
        return PLAIN[of.syllabic]
    is_joiner = of.ignorable and of.syllabic == "Other" and of.character not in NO_WORD_JOINER
    return "WJ" if is_joiner else "O"


def sign(of: Properties) -> str:
    if of.character == CHAM_SIGN_AA:
        return "VM"
    return "B" if of.category == "Lo" else SIGNS[of.syllabic]


def with_side(category: str, of: Properties) -> str:
    sides = SIDES.get(category)
    return category if sides is None else category + sides.get(of.positional, USUAL_SIDES[category])
