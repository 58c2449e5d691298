"""What is measured of a set: rounds of both libraries over some texts, and whole runs of both programs."""

from dataclasses import dataclass, field
from pathlib import Path

from beside.pages import text_of, turns_of, words_of
from beside.programs import Files, counted_by, counts_of_rounds, printed_by, used_by
from beside.table import Pair
from common.files import write_over

PAGE = 10_000
LARGE = 1_000_000
# Of so many words the plan is made anew in a round.
ANEW = 60
# The whole runs of the programs: of a word, and of some pages.
WHOLE = ("short", "long")
# Rounds of the driver in one run of it.
ROUNDS = 5


@dataclass(frozen=True)
class Work:
    """What a round of the driver does: the texts of a file in the driver's way, which are counted in some units."""

    name: str
    kind: str
    texts: Path
    units: int

    def word(self) -> str:
        return f"{self.kind}={self.texts}"


@dataclass
class Measure:
    """A set with its works, the texts of whole runs (of a word and of some pages, if there are some), and what was
    least of each so far."""

    files: Files
    works: list[Work]
    whole: dict[str, Path]
    folder: Path
    taken: dict[str, Pair] = field(default_factory=dict)

    @property
    def title(self) -> str:
        return self.files.chosen.title

    def note(self, name: str, pair: Pair) -> None:
        least = self.taken.get(name, pair)
        self.taken[name] = Pair(min(least.theirs, pair.theirs), min(least.own, pair.own))

    def pairs(self) -> dict[str, Pair]:
        """What each takes: for a character of a page, of what a longer text has more, and of a whole run past its first
        word; for a word, or a text of two scripts; for a font and a first word."""
        taken, units = self.taken, {work.name: work.units for work in self.works}
        found = {name: pair.over(units.get(name, 1)) for name, pair in taken.items() if name not in ("more", *WHOLE)}
        if "more" in taken:
            found["program"] = past(taken["short"], taken["long"], units["more"])
            found["more"] = past(taken["page"], taken["more"], units["more"] - units["page"])
        return found


def past(short: Pair, longer: Pair, units: int) -> Pair:
    """What each unit takes that the longer one has more: what both take alike cancels."""
    return Pair(longer.theirs - short.theirs, longer.own - short.own).over(units)


def measure_of(files: Files, characters: frozenset[int], pages: int, folder: Path) -> Measure:
    """A set whose texts are written; it has a longer text than a page where that is of several pages."""
    folder.mkdir()
    words = words_of(files.chosen)
    made = {
        "page": ("kept", [text_of(files.chosen, PAGE)]),
        "more": ("kept", [text_of(files.chosen, PAGE * pages)] if pages > 1 else []),
        "words": ("kept", words),
        "turns": ("kept", turns_of(files.chosen, characters)),
        "anew": ("anew", words[:ANEW]),
        "font": ("open", words[:1]),
        "first": ("first", words[:1]),
    }
    works = [work_of(name, kind, texts, folder) for name, (kind, texts) in made.items() if texts]
    paths = {work.name: work.texts for work in works}
    whole = dict(zip(WHOLE, (paths["first"], paths["more"]))) if pages > 1 else {}
    return Measure(files, works, whole, folder)


def work_of(name: str, kind: str, texts: list[str], folder: Path) -> Work:
    path = folder / f"{name}.txt"
    write_over(path, "".join(f"{text}\n" for text in texts))
    return Work(name, kind, path, len(texts[0]) if name in ("page", "more") else len(texts))


def take_times(measure: Measure) -> None:
    """One run of each, in nanoseconds; of all runs the least counts."""
    rounds = printed_by(measure.files.rounds(ROUNDS, [work.word() for work in measure.works]))
    for work, line in zip(measure.works, rounds, strict=True):
        own, theirs = map(int, line.split())
        measure.note(work.name, Pair(theirs, own))
    for name, text in measure.whole.items():
        used = [used_by(words).seconds * 1e9 for words in (measure.files.theirs(text), measure.files.own(text))]
        measure.note(name, Pair(*used))


def take_counts(measure: Measure) -> None:
    """The instructions of one run of each, which nothing else on the machine changes."""
    kept, files = measure.folder / "callgrind", measure.files
    words = files.rounds(1, [work.word() for work in measure.works])
    counts = counts_of_rounds(words, len(measure.works), kept)
    found = {work.name: Pair(theirs, own) for work, (own, theirs) in zip(measure.works, counts, strict=True)}
    for name, text in measure.whole.items():
        found[name] = Pair(*(counted_by(words, kept) for words in (files.theirs(text), files.own(text))))
    # All at once, since other sets are taken meanwhile.
    measure.taken = found


def take_peaks(measure: Measure) -> None:
    """The peaks of memory for a large text, in bytes."""
    files, text = measure.files, measure.folder / "large.txt"
    write_over(text, text_of(files.chosen, LARGE) + "\n")
    measure.note("memory", Pair(used_by(files.theirs(text)).bytes, used_by(files.own(text)).bytes))
    text.unlink()
