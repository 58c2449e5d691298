"""The texts that are shaped, each with its settings."""

from dataclasses import dataclass
from itertools import cycle
from pathlib import Path

from common.faults import FILES, ToolFault

WORDS = Path(__file__).parent / "data" / "words.txt"
FOLDERS = (Path("/usr/share/fonts/truetype"), Path("/usr/share/fonts/opentype"))
SETTINGS_OF_A_WORD = 3
# What an editor asks for: single words by a kept plan, and texts of several scripts in turn.
TURNS = (
    ("words of Latin", "dejavu/DejaVuSans", "office waffle between reading Kerning letters numbers AVATAR"),
    ("words of Hebrew", "noto/NotoSansHebrew-Regular", "שלום, ירושלים בראשית תורתנו ספרים מילים אנשים עברית"),
    ("words of Arabic", "noto/NotoNaskhArabic-Regular", "السلام العربية مدرسة كتابنا الجديد نستعين المستقيم عليكم"),
    ("words of Tamil", "noto/NotoSansTamil-Regular", "தமிழ்நாடு வணக்கம் எழுத்து மொழிகள் புத்தகம் இலக்கணம்"),
    ("Latin and numerals in turn", "dejavu/DejaVuSans", "office 1984 reading 12.5 letters 7"),
    ("Latin, Arabic and numerals in turn", "dejavu/DejaVuSans", "office السلام 1984 reading كتابنا 12"),
    ("Latin, Greek, Arabic and numerals in turn", "dejavu/DejaVuSans", "office λόγος السلام 1984 reading Ελλάδα كتابنا 12"),
    ("Arabic, Latin and numerals in turn, Amiri", "fonts-hosny-amiri/Amiri-Regular", "السلام office 1984 العربية reading 12"),
)
GLOBAL_END = 0xFFFF_FFFF
NO = "-"


@dataclass(frozen=True)
class Settings:
    """How a text is to be shaped: by the library's numbers, and by the program's words."""

    words: tuple[str, ...] = ()
    direction: int = 0
    script: str = ""
    flags: int = 0
    level: int = 0
    language: str = ""
    features: tuple[tuple[str, int, int, int], ...] = ()


SETTINGS = (
    Settings(),
    Settings(("--cluster-level=1", "--bot", "--eot"), flags=3, level=1),
    Settings(("--features=-liga,kern=0",), features=(("liga", 0, 0, GLOBAL_END), ("kern", 0, 0, GLOBAL_END))),
    Settings(("--unsafe-to-concat", "--safe-to-insert-tatweel"), flags=64 + 128),
    Settings(("--cluster-level=2", "--features=ccmp[0:3]=0"), level=2, features=(("ccmp", 0, 0, 3),)),
    Settings(("--direction=ltr", "--language=de-CH"), direction=4, language="de-CH"),
    Settings(("--direction=ttb", "--preserve-default-ignorables"), direction=6, flags=4),
    Settings(("--script=Latn", "--no-dotted-circle"), script="Latn", flags=16),
    Settings(("--direction=rtl", "--remove-default-ignorables"), direction=5, flags=8),
    Settings(("--language=ur", "--features=smcp,ss01=2"), language="ur", features=(("smcp", 1, 0, GLOBAL_END), ("ss01", 2, 0, GLOBAL_END))),
)


@dataclass(frozen=True)
class Case:
    """A text with its settings."""

    text: str
    settings: Settings

    def line(self) -> str:
        """The case as the drivers read it."""
        s = self.settings
        features = ",".join(f"{tag(name)}:{value}:{start}:{end}" for name, value, start, end in s.features)
        numbers = f"{s.direction} {tag(s.script)} {s.flags} {s.level}"
        return f"{numbers} {s.language or NO} {features or NO} {self.text.encode().hex() or NO}\n"


@dataclass(frozen=True)
class Words:
    """Words that are shaped one after another in one font, again and again."""

    name: str
    font: Path
    words: list[str]


@dataclass(frozen=True)
class Script:
    """A script's cases, in a font."""

    name: str
    font: Path
    cases: list[Case]


def tag(name: str) -> int:
    return int.from_bytes(name.encode("ascii").ljust(4), "big") if name else 0


def scripts() -> list[Script]:
    """Each word with several settings in turn; the empty text, and all words as one text, once for each script."""
    settings = cycle(SETTINGS)
    found = []
    for line in WORDS.read_text(encoding="utf-8").splitlines():
        if line and not line.startswith("#"):
            name, font, words = line.split(" ; ")
            cases = [Case(word, next(settings)) for word in words.split(" ") for _ in range(SETTINGS_OF_A_WORD)]
            found.append(Script(name, font_file(font), [*cases, Case("", SETTINGS[0]), Case(words, SETTINGS[0])]))
    return found


def turns() -> list[Words]:
    """Words of five to eight characters of each of four scripts, and texts of two and three scripts in turn with numerals."""
    return [Words(name, font_file(font), words.split(" ")) for name, font, words in TURNS]


def font_file(name: str) -> Path:
    for folder in FOLDERS:
        path = folder / f"{name}.ttf"
        if path.is_file():
            return path
    raise ToolFault(FILES, f"{name}.ttf: no such font (docs/TOOLS_FOR_DEVELOPERS.md names the packages)")
