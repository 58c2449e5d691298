"""Categories and positions of the Indic, Khmer and Myanmar shapers, by HarfBuzz's rules over two files of the UCD."""

from unicodejson.ucd import Ucd

Row = list[object]

BLOCKS = {
    "Basic Latin", "Latin-1 Supplement", "Devanagari", "Bengali", "Gurmukhi", "Gujarati", "Oriya", "Tamil", "Telugu",
    "Kannada", "Malayalam", "Myanmar", "Khmer", "Vedic Extensions", "General Punctuation",
    "Superscripts and Subscripts", "Devanagari Extended", "Devanagari Extended-A", "Myanmar Extended-A",
    "Myanmar Extended-B", "Myanmar Extended-C",
}  # fmt: skip

# IndicSyllabicCategory.txt's values; those that are not here are X.
CATEGORIES = {
    "Avagraha": "Symbol", "Bindu": "SM", "Brahmi_Joining_Number": "PLACEHOLDER", "Cantillation_Mark": "A",
    "Consonant": "C", "Consonant_Dead": "C", "Consonant_Final": "CM", "Consonant_Head_Letter": "C",
    "Consonant_Initial_Postfixed": "C", "Consonant_Killer": "M", "Consonant_Medial": "CM",
    "Consonant_Placeholder": "PLACEHOLDER", "Consonant_Preceding_Repha": "Repha", "Consonant_Subjoined": "CM",
    "Consonant_Succeeding_Repha": "CM", "Consonant_With_Stacker": "CS", "Gemination_Mark": "SM",
    "Invisible_Stacker": "H", "Joiner": "ZWJ", "Non_Joiner": "ZWNJ", "Nukta": "N", "Number": "PLACEHOLDER",
    "Number_Joiner": "PLACEHOLDER", "Pure_Killer": "M", "Register_Shifter": "RS", "Syllable_Modifier": "SM",
    "Tone_Mark": "N", "Virama": "H", "Visarga": "SM", "Vowel": "V", "Vowel_Dependent": "M", "Vowel_Independent": "V",
}  # fmt: skip

# IndicPositionalCategory.txt's values: a sign of several parts goes by the part that stands last in a syllable.
SIDES = {
    "Left": "Left", "Top": "Top", "Bottom": "Bottom", "Right": "Right", "Bottom_And_Right": "Right",
    "Left_And_Right": "Right", "Top_And_Bottom": "Bottom", "Top_And_Bottom_And_Left": "Bottom",
    "Top_And_Bottom_And_Right": "Right", "Top_And_Left": "Top", "Top_And_Left_And_Right": "Right",
    "Top_And_Right": "Right",
}  # fmt: skip
POSITIONS = {"Left": "PRE_C", "Top": "ABOVE_C", "Bottom": "BELOW_C", "Right": "POST_C"}
SIGNS_BY_SIDE = {"Left": "VPre", "Top": "VAbv", "Bottom": "VBlw", "Right": "VPst"}

# Single characters, where shaping needs another category than the file's.
OVERRIDES: dict[int, str] = {
    # Ra, which forms reph or another form of its own, by script.
    **dict.fromkeys([0x0930, 0x09B0, 0x09F0, 0x0A30, 0x0AB0, 0x0B30, 0x0BB0, 0x0C30, 0x0CB0, 0x0D30], "Ra"),
    0x0953: "SM", 0x0954: "SM",  # Devanagari accents stand where bindus do
    0x0A40: "MPst",  # Gurmukhi sign ii: a bindi may stand before it
    0x0A51: "M",  # Gurmukhi udaat, a tone below
    0x0A72: "C", 0x0A73: "C",  # Gurmukhi vowel bearers
    0x0AFB: "N", 0x0B55: "N",  # Gujarati and Oriya signs that sit as nuktas do
    **dict.fromkeys([0x0980, 0x09FC, 0x0C80, 0x0D04], "PLACEHOLDER"),  # letters that bear signs
    **dict.fromkeys([*range(0x1CE2, 0x1CE9), 0x1CED], "A"),  # Vedic visarga signs and tiryak, which are tones
    # Vedic nasalization signs and Devanagari signs for them, which take marks by themselves, as an avagraha does.
    **dict.fromkeys([*range(0x1CE9, 0x1CED), *range(0x1CEE, 0x1CF2), *range(0xA8F2, 0xA8F8)], "Symbol"),
    0x1CF5: "C", 0x1CF6: "C",  # Vedic jihvamuliya and upadhmaniya
    0x11301: "SM", 0x11302: "SM", 0x11303: "SM", 0x1133B: "N", 0x1133C: "N",  # Grantha signs in Tamil
    **dict.fromkeys(range(0xFE00, 0xFE10), "VS"),  # variation selectors, which Myanmar's syllables have
    # Bases by the Myanmar specification.
    **dict.fromkeys([0x2015, 0x2022, 0x25FB, 0x25FC, 0x25FD, 0x25FE], "PLACEHOLDER"),
    0x25CC: "DOTTEDCIRCLE",
    # Khmer: Ra, and the signs by the side on which they sit.
    0x179A: "Ra",
    **dict.fromkeys([0x17C9, 0x17CA, 0x17CC], "Robatic"),
    **dict.fromkeys([0x17C6, 0x17CB, 0x17CD, 0x17CE, 0x17CF, 0x17D0, 0x17D1], "Xgroup"),
    **dict.fromkeys([0x17C7, 0x17C8, 0x17D3, 0x17DD], "Ygroup"),
    0x17D9: "PLACEHOLDER",
    # Myanmar, by the classes of its specification.
    **dict.fromkeys([0x1004, 0x101B, 0x105A], "Ra"),
    0x104E: "C", 0x104A: "PLACEHOLDER", 0x1032: "A", 0x1036: "A", 0x103A: "As",
    0x103B: "MY", 0x105E: "MY", 0x105F: "MY", 0x103C: "MR", 0x103D: "MW", 0x1082: "MW", 0x103E: "MH", 0x1060: "ML",
    **dict.fromkeys([0x1063, 0x1064, *range(0x1069, 0x106E), 0xAA7B], "PT"),
    **dict.fromkeys([0x1038, *range(0x1087, 0x108E), 0x108F, 0x109A, 0x109B, 0x109C], "SM"),
}  # fmt: skip
POSITION_OVERRIDES = {0x0A51: "BELOW_C", 0x0B01: "BEFORE_SUB"}

BASES = {"C", "CS", "Ra", "CM", "V", "PLACEHOLDER", "DOTTEDCIRCLE"}
MATRAS = {"M", "MPst"}
MODIFIERS = {"SM", "VD", "A", "Symbol"}

# Where a matra of a side goes in a script's syllable: the OpenType Indic specification's table of matra positions, but
# for signs above in Gurmukhi, which go behind post-base forms as fonts in use ask. A script or side without a row has
# AFTER_SUB.
MATRA_POSITIONS = {
    ("Bengali", "Right"): "AFTER_POST",
    ("Gurmukhi", "Right"): "AFTER_POST", ("Gurmukhi", "Top"): "AFTER_POST", ("Gurmukhi", "Bottom"): "AFTER_POST",
    ("Gujarati", "Right"): "AFTER_POST", ("Gujarati", "Bottom"): "AFTER_POST",
    ("Oriya", "Right"): "AFTER_POST", ("Oriya", "Top"): "AFTER_MAIN",
    ("Tamil", "Right"): "AFTER_POST", ("Tamil", "Bottom"): "AFTER_POST",
    ("Telugu", "Right"): "BEFORE_SUB", ("Telugu", "Top"): "BEFORE_SUB", ("Telugu", "Bottom"): "BEFORE_SUB",
    ("Kannada", "Right"): "BEFORE_SUB", ("Kannada", "Top"): "BEFORE_SUB", ("Kannada", "Bottom"): "BEFORE_SUB",
    ("Malayalam", "Right"): "AFTER_POST", ("Malayalam", "Bottom"): "AFTER_POST",
}  # fmt: skip
# Vowel signs at the right of Telugu and Kannada that stand behind subjoined forms.
LATE_RIGHT_MATRAS = set(range(0x0C43, 0x0C80)) | set(range(0x0CC3, 0x0CD7))


def indic_rows(ucd: Ucd) -> list[Row]:
    """Characters of the shapers' blocks with category and position; what no row lists is X and END."""
    syllabic = ucd.property("IndicSyllabicCategory.txt")
    positional = ucd.property("IndicPositionalCategory.txt")
    rows: list[Row] = []
    for character in sorted(syllabic.keys() | positional.keys() | OVERRIDES.keys()):
        if not is_read(ucd, character):
            continue
        category = OVERRIDES.get(character) or CATEGORIES.get(syllabic.get(character, ""), "X")
        side = SIDES.get(positional.get(character, ""))
        row = place(ucd.block(character), character, category, side)
        if row[1:] != ["X", "END"]:
            rows.append(row)
    return rows


def is_read(ucd: Ucd, character: int) -> bool:
    return ucd.is_known(character) and (character in OVERRIDES or ucd.block(character) in BLOCKS)


def place(block: str, character: int, category: str, side: str | None) -> Row:
    """Category and position; in Khmer and Myanmar a vowel sign's category tells its side."""
    position = "END" if side is None else POSITIONS[side]
    if category in BASES:
        position = "BASE_C"
    elif category in MATRAS and side is not None:
        if block.startswith(("Khmer", "Myanmar")):
            category = SIGNS_BY_SIDE[side]
        else:
            position = matra_position(block, character, side)
    elif category in MODIFIERS:
        position = "SMVD"
    return [character, category, POSITION_OVERRIDES.get(character, position)]


def matra_position(block: str, character: int, side: str) -> str:
    if side == "Left":
        return "PRE_M"
    if side == "Right" and character in LATE_RIGHT_MATRAS:
        return "AFTER_SUB"
    return MATRA_POSITIONS.get((block, side), "AFTER_SUB")
