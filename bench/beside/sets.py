"""The sets: a font of Debian's packages, a list of words, and how words become a text."""

from dataclasses import dataclass, replace
from pathlib import Path

TRUETYPE = Path("/usr/share/fonts/truetype")
OPENTYPE = Path("/usr/share/fonts/opentype")
# The folder of a package's fonts.
PACKAGES = {
    "fonts-dejavu-core": TRUETYPE / "dejavu",
    "fonts-noto-core": TRUETYPE / "noto",
    "fonts-hosny-amiri": OPENTYPE / "fonts-hosny-amiri",
    "fonts-sil-padauk": TRUETYPE / "padauk",
    "fonts-nanum": TRUETYPE / "nanum",
    "fonts-noto-cjk": OPENTYPE / "noto",
}
NOTO = "fonts-noto-core"
DANDA = "\u0964 "


@dataclass(frozen=True)
class Set:
    """A font, and texts of the words of a language; `stop` stands after some words in place of `between`. `other` is
    the list whose words come in turn with them, where the font has its letters."""

    name: str
    package: str
    file: str
    words: str
    language: str
    between: str = " "
    stop: str = ". "
    is_decomposed: bool = False
    other: str = "latin"
    # Its clusters are not those of HarfBuzz, as docs/DIFFERENCES.md says.
    has_own_clusters: bool = False

    @property
    def font(self) -> Path:
        return PACKAGES[self.package] / self.file

    @property
    def title(self) -> str:
        """The set's name with the font's, which no other set has."""
        return f"{self.name}, {self.font_name}"

    @property
    def font_name(self) -> str:
        return self.font.stem.removesuffix("-Regular")


def noto(name: str, script: str, words: str, language: str, between: str = " ", stop: str = ". ") -> Set:
    """A set of a font of Noto."""
    return Set(name, NOTO, f"Noto{script}-Regular.ttf", words, language, between, stop)


def indic(script: str, language: str, stop: str = DANDA, *, has_own_clusters: bool = False) -> Set:
    """A set of one of the nine Indic scripts."""
    made = noto(script, f"Sans{script}", script.lower(), language, stop=stop)
    return replace(made, has_own_clusters=has_own_clusters)


NANUM = ("fonts-nanum", "NanumGothic.ttf")
SETS = (
    Set("Latin", "fonts-dejavu-core", "DejaVuSans.ttf", "latin", "en", other="arabic"),
    Set("Latin", NOTO, "NotoSans-Regular.ttf", "latin", "en", other="greek"),
    Set("Vietnamese, decomposed", NOTO, "NotoSans-Regular.ttf", "vietnamese", "vi", is_decomposed=True, other="greek"),
    noto("Hebrew", "SansHebrew", "hebrew", "he", stop="\u05c3 "),
    noto("Arabic", "NaskhArabic", "arabic", "ar", stop="\u060c "),
    Set("Arabic", "fonts-hosny-amiri", "Amiri-Regular.ttf", "arabic", "ar", stop="\u060c "),
    noto("Urdu", "NastaliqUrdu", "urdu", "ur", stop="\u06d4 "),
    noto("Thai", "SansThai", "thai", "th", "", " "),
    noto("Khmer", "SansKhmer", "khmer", "km", "", "\u17d4 "),
    Set("Myanmar", "fonts-sil-padauk", "Padauk-Regular.ttf", "myanmar", "my", "", "\u104b "),
    noto("Myanmar", "SansMyanmar", "myanmar", "my", "", "\u104b "),
    noto("Balinese", "SansBalinese", "balinese", "ban", "", "\u1b5e "),
    noto("Javanese", "SansJavanese", "javanese", "jv", "", "\ua9c8 "),
    noto("Tibetan", "SerifTibetan", "tibetan", "bo", "", "\u0f0d "),
    Set("Hangul", *NANUM, "hangul", "ko"),
    Set("Jamo", *NANUM, "hangul", "ko", is_decomposed=True),
    Set("CJK", *NANUM, "cjk", "zh", "", "\u3002"),
    indic("Devanagari", "hi"),
    indic("Bengali", "bn"),
    indic("Gurmukhi", "pa"),
    indic("Gujarati", "gu", ". "),
    indic("Oriya", "or"),
    indic("Tamil", "ta", ". ", has_own_clusters=True),
    indic("Telugu", "te", ". "),
    indic("Kannada", "kn", ". "),
    indic("Malayalam", "ml", ". ", has_own_clusters=True),
)
# The sets of which opening the font is measured by itself: the last one has 65,535 glyphs, with outlines of CFF.
OPENED = (
    SETS[0],
    next(chosen for chosen in SETS if chosen.name == "Urdu"),
    next(chosen for chosen in SETS if chosen.name == "Hangul"),
    next(chosen for chosen in SETS if chosen.name == "Devanagari"),
    Set("CJK", "fonts-noto-cjk", "NotoSansCJK-Regular.ttc", "cjk", "ja", "", "\u3002"),
)
