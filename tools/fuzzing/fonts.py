"""Random fonts that follow the format, with lookups of every type."""

from random import Random
from typing import Any, Callable

from fuzzing.alphabets import Alphabet

# Features that some shaper requests, and two that only a user does.
FEATURES = """
    rvrn ltra ltrm rtla rtlm frac numr dnom rand trak Harf HARF Buzz BUZZ abvm blwm ccmp locl mark mkmk rlig calt clig
    curs dist kern liga rclt vert stch isol fina fin2 fin3 medi med2 init mset ljmo vjmo tjmo pref blwf abvf pstf cfar
    pres abvs blws psts rphf nukt akhn rkrf half vatu cjct haln salt ss01
""".split()
# Those of them that are on for each text, so that most lookups of a font that has no others are applied.
USUAL = ["ccmp", "locl", "rlig", "liga", "clig", "calt", "kern", "dist", "curs", "mark", "mkmk", "abvm", "blwm"]
LANGUAGES = ["DEU ", "ROM ", "TRK ", "URD ", "MAR ", "dflt"]
FLAGS = [0, 0, 0, 0, 1, 2, 4, 8, 9, 14, 16, 24, 0x100, 0x200, 0xFF00, 0xFFFF]
WIDTHS = [0, 1, 250, 500, 600, 1000, 65535]
OFFSETS = [0, 0, 1, -1, 100, -350, 480, 32767, -32768]
GSUB_TYPES = ["single", "multiple", "alternate", "ligature", "ligature", "context", "chain", "chain", "reverse"]
GPOS_TYPES = ["single", "pair", "cursive", "markbase", "markmark", "marklig", "context", "chain"]

Row = list[Any]


class FontDraw:
    """Draws the parts of one font over its glyphs."""

    def __init__(self, draw: Random, alphabet: Alphabet) -> None:
        self.draw = draw
        self.alphabet = alphabet
        count = draw.choice([2, 4, 8, 16, 40])
        self.glyphs = [*range(1, count + 1), *draw.sample([0, 255, 256, 65534, 65535], draw.choice([0, 0, 0, 1, 2]))]
        self.tags = draw.choice([FEATURES, FEATURES, USUAL])
        self.sets = [self.some(0, 6) for _ in range(draw.choice([0, 0, 1, 3]))]

    def chance(self, part: float) -> bool:
        return self.draw.random() < part

    def glyph(self) -> int:
        return self.draw.choice(self.glyphs)

    def some(self, low: int, high: int) -> list[int]:
        """Glyphs in any order; one may be there twice."""
        return [self.glyph() for _ in range(self.draw.randint(low, high))]

    def rising(self, part: float) -> list[int]:
        """Distinct glyphs by rising numbers."""
        return sorted(glyph for glyph in self.glyphs if self.chance(part))

    def offset(self) -> int:
        return self.draw.choice(OFFSETS)

    def record(self) -> Row:
        return [self.offset() if self.chance(0.5) else 0 for _ in range(4)]

    def anchor(self) -> Row | None:
        return [self.offset(), self.offset()] if self.chance(0.85) else None

    def font(self) -> dict[str, Any]:
        """The whole font; each key is missing in some fonts."""
        value: dict[str, Any] = {"upem": self.draw.choice([0, 1, 16, 1000, 1000, 2048, 65535])}
        value["ascender"] = self.draw.choice([0, 800, -32768, 32767])
        value["cmap"] = [[u, self.glyph()] for u in self.alphabet.characters if self.chance(0.9)]
        for key, part in self.tables_of_glyphs().items():
            if self.chance(0.6):
                value[key] = part
        if self.chance(0.7):
            value["gdef"] = self.gdef()
        elif self.sets:
            value["gdef"] = {"sets": self.sets}
        if self.chance(0.9):
            value["gsub"] = self.table(GSUB_TYPES)
        if self.chance(0.8):
            value["gpos"] = self.table(GPOS_TYPES)
        return value

    def tables_of_glyphs(self) -> dict[str, list[Row]]:
        draw = self.draw
        selectors = [u for u in self.alphabet.characters if 0xFE00 <= u <= 0xFE0F or u >= 0xE0100 or 0x180B <= u <= 0x180F]
        variants = [[u, s, self.glyph()] for u in self.alphabet.characters for s in selectors if self.chance(0.2)]
        texts = ["a", "", "f_i", "gid7", "|", "\"=\\", "\N{SNOWMAN}", "long" * 40]
        return {
            "variants": variants,
            "h": [[glyph, draw.choice(WIDTHS)] for glyph in self.rising(0.9)],
            "v": [[glyph, draw.choice(WIDTHS)] for glyph in self.rising(0.5)],
            "origins": [[glyph, self.offset()] for glyph in self.rising(0.5)],
            "extents": [[glyph, *(self.offset() for _ in range(4))] for glyph in self.rising(0.6)],
            "names": [[glyph, draw.choice(texts)] for glyph in self.rising(0.5)],
        }

    def gdef(self) -> dict[str, Any]:
        value: dict[str, Any] = {"sets": self.sets}
        if self.chance(0.8):
            value["classes"] = [[glyph, self.draw.choice([0, 1, 1, 2, 3, 3, 4, 65535])] for glyph in self.rising(0.8)]
        if self.chance(0.5):
            value["attach"] = [[glyph, self.draw.choice([1, 2, 255, 256])] for glyph in self.rising(0.5)]
        return value

    # ---- GSUB and GPOS

    def table(self, types: list[str]) -> dict[str, Any]:
        """A table with scripts, features and lookups; contexts name lookups of the whole table."""
        count = self.draw.choice([1, 2, 3, 5, 9])
        lookups = [self.lookup(self.draw.choice(types), types, count) for _ in range(count)]
        tags = [self.draw.choice(self.tags) for _ in range(self.draw.choice([1, 2, 4, 8]))]
        features = [[tag, self.indices(count)] for tag in tags]
        return {"scripts": self.scripts(len(features)), "features": features, "lookups": lookups}

    def indices(self, count: int) -> list[int]:
        return [self.draw.randrange(count) for _ in range(self.draw.randint(0, 4))] if count else []

    def scripts(self, features: int) -> list[Row]:
        tags = {self.draw.choice([self.alphabet.tag, self.alphabet.tag[:3] + "3", "DFLT", "DFLT", "latn"])}
        if self.chance(0.3):
            tags |= {self.alphabet.tag, "dflt"}
        return [[tag, self.system(features) if self.chance(0.9) else None, self.systems(features)] for tag in sorted(tags)]

    def systems(self, features: int) -> list[Row]:
        return [[tag, self.system(features)] for tag in sorted(LANGUAGES) if self.chance(0.1)]

    def system(self, features: int) -> dict[str, Any]:
        chosen = [index for index in range(features) if self.chance(0.9)]
        self.draw.shuffle(chosen)
        value: dict[str, Any] = {"features": chosen}
        if features and self.chance(0.1):
            value["required"] = self.draw.randrange(features)
        return value

    def lookup(self, kind: str, types: list[str], count: int) -> dict[str, Any]:
        value: dict[str, Any] = {"type": kind, "flags": self.draw.choice(FLAGS)}
        if self.sets and self.chance(0.3):
            value["set"] = self.draw.randrange(len(self.sets))
        maker = SUBTABLES[kind] if kind != "single" or types is GPOS_TYPES else singles
        value["subtables"] = [maker(self, count) for _ in range(self.draw.choice([0, 1, 1, 1, 2, 3]))]
        return value


def singles(font: FontDraw, count: int) -> Any:
    return [[glyph, font.glyph()] for glyph in font.rising(0.4)]


def multiples(font: FontDraw, count: int) -> Any:
    longest = font.draw.choice([0, 1, 2, 3, 3, 64])
    return [[glyph, font.some(0, longest)] for glyph in font.rising(0.3)]


def alternates(font: FontDraw, count: int) -> Any:
    return [[glyph, font.some(0, 5)] for glyph in font.rising(0.3)]


def ligatures(font: FontDraw, count: int) -> Any:
    longest = font.draw.choice([0, 1, 1, 2, 3, 70])
    return [[glyph, [[font.some(0, longest), font.glyph()] for _ in range(3)]] for glyph in font.rising(0.4)]


def contexts(font: FontDraw, count: int) -> Any:
    draw = font.draw
    form = draw.choice(["glyphs", "classes", "coverage"])
    value: dict[str, Any] = {"format": form, "rules": []}
    if form == "classes":
        value["classes"] = [[[g, draw.randint(0, 3)] for g in font.rising(0.7)] for _ in range(3)]
        value["first"] = font.rising(0.6)
    item: Callable[[], Any] = {
        "glyphs": font.glyph,
        "classes": lambda: draw.choice([0, 0, 1, 2, 3, 65535]),
        "coverage": lambda: font.rising(0.6),
    }[form]
    longest = draw.choice([0, 1, 1, 2, 2, 66])
    for _ in range(draw.choice([0, 1, 1, 2, 4])):
        back, more, ahead = ([item() for _ in range(draw.randint(0, longest))] for _ in range(3))
        records = [[draw.choice([0, 0, 1, 2, 63, 64, 65535]), draw.randrange(count)] for _ in range(draw.randint(0, 4))]
        value["rules"].append([back, [item(), *more], ahead, records])
    return value


def plain_contexts(font: FontDraw, count: int) -> Any:
    """A context without what stands around it."""
    value = contexts(font, count)
    value["rules"] = [[[], given, [], records] for _, given, _, records in value["rules"]]
    return value


def reverses(font: FontDraw, count: int) -> Any:
    back, ahead = ([font.rising(0.6) for _ in range(font.draw.randint(0, 2))] for _ in range(2))
    return [back, ahead, singles(font, count)]


def moves(font: FontDraw, count: int) -> Any:
    return [[glyph, font.record()] for glyph in font.rising(0.5)]


def pairs(font: FontDraw, count: int) -> Any:
    def second() -> Any:
        return font.record() if font.chance(0.4) else None

    if font.chance(0.5):
        return [[a, b, font.record(), second()] for a in font.rising(0.4) for b in font.rising(0.3)]
    rows, columns = font.draw.randint(1, 3), font.draw.randint(1, 3)
    return {
        "first": font.rising(0.7),
        "class1": [[glyph, font.draw.randrange(rows)] for glyph in font.rising(0.6)],
        "class2": [[glyph, font.draw.randrange(columns)] for glyph in font.rising(0.6)],
        "records": [[[font.record(), second()] for _ in range(columns)] for _ in range(rows)],
    }


def cursives(font: FontDraw, count: int) -> Any:
    return [[glyph, font.anchor(), font.anchor()] for glyph in font.rising(0.7)]


def attachments(font: FontDraw, count: int) -> Any:
    classes = font.draw.randint(1, 3)
    return {
        "marks": [[glyph, font.draw.randrange(classes), font.anchor()] for glyph in font.rising(0.6)],
        "bases": [[glyph, [font.anchor() for _ in range(classes)]] for glyph in font.rising(0.6)],
    }


def ligature_attachments(font: FontDraw, count: int) -> Any:
    classes = font.draw.randint(1, 2)

    def component() -> Row:
        return [font.anchor() for _ in range(classes)]

    return {
        "marks": [[glyph, font.draw.randrange(classes), font.anchor()] for glyph in font.rising(0.6)],
        "bases": [[glyph, [component() for _ in range(font.draw.randint(0, 3))]] for glyph in font.rising(0.6)],
    }


SUBTABLES: dict[str, Callable[[FontDraw, int], Any]] = {
    "single": moves,
    "multiple": multiples,
    "alternate": alternates,
    "ligature": ligatures,
    "context": plain_contexts,
    "chain": contexts,
    "reverse": reverses,
    "pair": pairs,
    "cursive": cursives,
    "markbase": attachments,
    "markmark": attachments,
    "marklig": ligature_attachments,
}


def draw_font(draw: Random, alphabet: Alphabet) -> dict[str, Any]:
    """A font that follows the format."""
    return FontDraw(draw, alphabet).font()
