"""The lists that stand beside the UCD: private Thai characters, languages, machines of syllables."""

from pathlib import Path

from common.faults import DATA as DATA_STATUS
from common.faults import ToolFault
from syllables.grammar import GrammarFault, read_grammar
from syllables.machine import compile_grammar

FOLDER = Path(__file__).parent / "data"
MACHINES = Path(__file__).parent.parent / "machines"
THAI_ACTIONS = ["SD", "SDL", "SL", "RD"]
TAG_LENGTH = 4

# The names of the format in the order of their numbers.
INDIC_CATEGORIES = (
    "X C V N H ZWNJ ZWJ M SM A VD PLACEHOLDER DOTTEDCIRCLE RS MPst Repha Ra CM Symbol CS VAbv VBlw VPre VPst Robatic"
    " Xgroup Ygroup As MH MR MW MY PT VS ML"
).split()
INDIC_POSITIONS = (
    "START RA_TO_BECOME_REPH PRE_M PRE_C BASE_C AFTER_MAIN ABOVE_C BEFORE_SUB BELOW_C AFTER_SUB BEFORE_POST POST_C"
    " AFTER_POST SMVD END"
).split()
UNIVERSAL_CATEGORIES = (
    "O B N GB CGJ SUB H HN ZWNJ WJ RSV R S CS IS Sk FAbv FBlw FPst MAbv MBlw MPst MPre CMAbv CMBlw VAbv VBlw VPst VPre"
    " VMAbv VMBlw VMPst VMPre SMAbv SMBlw FMAbv FMBlw FMPst G J SB SE HVM HM HR"
).split()
JOINING_TYPES = "U L R D ALAPH DALATH_RISH T".split()
KINDS = {
    "indic": "consonant vowel standalone symbol broken non".split(),
    "khmer": "consonant broken non".split(),
    "myanmar": "consonant broken non".split(),
    "universal": "independent virama sakot standard number_joiner numeral symbol hieroglyph broken non".split(),
}
CATEGORIES = {
    "indic": INDIC_CATEGORIES,
    "khmer": INDIC_CATEGORIES,
    "myanmar": INDIC_CATEGORIES,
    "universal": UNIVERSAL_CATEGORIES,
}


def fields(name: str, separator: str | None) -> list[list[str]]:
    """The fields of each line of a file of this package, without comments."""
    lines = (FOLDER / name).read_text(encoding="utf-8").splitlines()
    codes = [line.split("#", 1)[0].strip() for line in lines]
    return [[part.strip() for part in code.split(separator)] for code in codes if code]


def thai_rows() -> list[list[object]]:
    """A character and an action with its private characters, by character and then by the action's number."""
    rows = [[int(p[0], 16), p[1], int(p[2], 16), int(p[3], 16)] for p in fields("thai.txt", ";")]
    return sorted(rows, key=lambda row: (row[0], THAI_ACTIONS.index(str(row[1]))))


def language_rows() -> list[list[object]]:
    """Languages by their bytes, each with at most three tags."""
    return sorted([parts[0], [tag.ljust(TAG_LENGTH) for tag in parts[1:]]] for parts in fields("languages.txt", None))


def machine_value(shaper: str, folder: Path = MACHINES) -> dict[str, object]:
    """A shaper's machine in the form of the format, rows by states and then by the categories' numbers."""
    try:
        grammar = read_grammar(folder / f"{shaper}.txt")
    except GrammarFault as fault:
        raise ToolFault(DATA_STATUS, f"machines/{fault}") from None
    machine = compile_grammar(grammar)
    kinds = [kind for kind, _ in grammar.kinds]
    numbers = {name: number for number, name in enumerate(CATEGORIES[shaper])}
    check_names(shaper, kinds, {category for row in machine.steps for category in row})
    steps = [
        [state, category, target]
        for state, row in enumerate(machine.steps)
        for category, target in sorted(row.items(), key=lambda step: numbers[step[0]])
    ]
    ends = [[state, kinds[end]] for state, end in enumerate(machine.ends) if end is not None]
    return {"states": len(machine.steps), "next": steps, "accept": ends}


def check_names(shaper: str, kinds: list[str], categories: set[str]) -> None:
    """Refuses a kind or a category that the format has no name for."""
    for kind in kinds:
        if kind not in KINDS[shaper]:
            raise ToolFault(DATA_STATUS, f"machines/{shaper}.txt: no kind {kind!r}")
    for category in sorted(categories - set(CATEGORIES[shaper])):
        raise ToolFault(DATA_STATUS, f"machines/{shaper}.txt: no category {category!r}")
