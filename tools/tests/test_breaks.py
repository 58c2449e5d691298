"""Safe breaks: a smallest case for each flag that PRODUCE_SAFE_BREAKS adds and for each premise of the promise on
breaks, over the program and shape_trials; and the premises on tables over those of Unicode."""

import json
import random
import subprocess
import tempfile
import unittest
from dataclasses import dataclass, field
from pathlib import Path
from types import SimpleNamespace
from typing import Any
from unittest import mock

from support import DEJAVU, told_by, write_stand_in  # it puts the tools and bench/ on the path

from beside import breaks_cli
from beside.breaks_cli import clauses_of, lines_of
from beside.cuts import KINDS, Paragraph, Share, Trial, paragraphs, pointed, rows_of, safe_cuts, shares_table
from beside.flags import Forbidden, flagged, table_of
from beside.sets import SETS
from building.places import PROGRAM, TRIALS, Place, standing
from fuzzing.in_process import run_stream
from fuzzing.streams import TrialCase
from fuzzing.tables import SHIPPED
from shaping.glyphs import read_line

GLYPHS = 65536


def substitutes(tag: str, feature: str, *lookups: dict[str, Any]) -> dict[str, Any]:
    """A table of one feature, which has the first lookup; tables of positions have the same form."""
    scripts = [[tag, {"features": [0]}, []]]
    return {"scripts": scripts, "features": [[feature, [0]]], "lookups": list(lookups)}


def single(glyph: int) -> dict[str, Any]:
    """Glyph 9 for a glyph."""
    return {"type": "single", "subtables": [[[glyph, 9]]]}


def chain(given: list[int], ahead: list[int], *records: list[int]) -> dict[str, Any]:
    return {"type": "chain", "subtables": [{"format": "glyphs", "rules": [[[], given, ahead, list(records)]]}]}


def machine(states: int, steps: list[list[Any]], ends: list[list[Any]]) -> dict[str, Any]:
    return {"states": states, "next": steps, "accept": ends}


def multiple(glyph: int, *given: int) -> dict[str, Any]:
    return {"type": "multiple", "subtables": [[[glyph, list(given)]]]}


def ligature(first: int, second: int) -> dict[str, Any]:
    return {"type": "ligature", "subtables": [[[first, [[[second], 9]]]]]}


PAIRS = {"type": "pair", "subtables": [[[1, 2, [0, 0, 0, 0], [0, 0, 0, 0]], [2, 3, [0, 0, -50, 0], None]]]}
COMPONENTS = {"type": "multiple", "subtables": [[[1, [11, 12]], [2, [21, 22]]]]}
ATTACHMENT = {"type": "markbase", "subtables": [{"marks": [[5, 0, [0, 0]]], "bases": [[22, [[300, 400]]]]}]}
NO_KERNING = {"scripts": [["DFLT", {"features": [0]}, []]], "features": [["ccmp", []]], "lookups": []}
BASES = machine(3, [[0, "B", 1], [0, "VPst", 2], [1, "CGJ", 1], [1, "VPst", 1]], [[1, "standard"], [2, "broken"]])
ACUTE = {"classes": [[0x301, 230]]}


@dataclass(frozen=True)
class Row:
    """A text with its settings, tables and font; the byte at which it is cut; how many breaks of it are tried at both
    levels, of which none may differ."""

    words: str
    text: str
    cut: int
    tried: int
    font: dict[str, Any]
    tables: dict[str, Any] = field(default_factory=dict)

    def case(self) -> TrialCase:
        tables, font = json.dumps(self.tables).encode(), json.dumps(self.font).encode()
        return TrialCase(0, 0, tables, GLYPHS, font, self.words.split(), self.text)


# Where the text is cut a flag is missing without the request: pieces would differ.
FLAGGED = {
    # A pair without effect takes its second glyph, and no pair begins with that.
    "pair of zeros": Row(
        "--script=Latn", "abc", 1, 2,
        {"cmap": [[97, 1], [98, 2], [99, 3]], "gpos": substitutes("DFLT", "kern", PAIRS)},
    ),
    "forms by neighbouring syllables": Row(
        "--script=Bali", "\u1b05\u1b13", 3, 0,
        {"cmap": [[0x1B05, 1], [0x1B13, 2]], "gsub": substitutes("bali", "init", single(1))},
        {"universal": [[0x1B05, "B"], [0x1B13, "B"]], "syllables": {"universal": BASES}},
    ),
    "init of a left matra": Row(
        "--script=Beng", "\u0995\u09c7\u0995\u09c7", 6, 0,
        {"cmap": [[0x995, 1], [0x9C7, 2]], "gsub": substitutes("bng2", "init", single(2))},
        {
            "indic": [[0x995, "C", "BASE_C"], [0x9C7, "M", "PRE_M"]],
            "syllables": {"indic": machine(3, [[0, "C", 1], [1, "M", 1]], [[1, "consonant"]])},
        },
    ),
    "jamo that are not merged": Row(
        "--script=Hang --cluster-level=1", "\u1100\u1161", 3, 0,
        {"cmap": [[0x1100, 1], [0x1161, 2]], "gsub": substitutes("hang", "ljmo", single(1))},
    ),
    "SARA AM that is not merged": Row(
        "--script=Thai --cluster-level=1", "\u0e1b\u0e33", 3, 0,
        {"cmap": [[0xE1B, 1], [0xE32, 3], [0xE4D, 2], [0xF700, 4]]},
        {"thai": [[0xE4D, "SL", 0xF700, 0xF701]]},
    ),
    "tiles over a word": Row(
        "--script=Arab", "\u061c\u0628\u0628", 4, 0,
        {
            "upem": 1000,
            "cmap": [[0x61C, 2], [0x628, 1]],
            "h": [[1, 500], [7, 50], [8, 100]],
            "gsub": substitutes("arab", "stch", multiple(2, 7, 8)),
        },
        {"joining": [[0x628, "U"]]},
    ),
    "a deciding letter far away": Row(
        "--script=Syrc --preserve-default-ignorables", "\u0715\u00ad\u00ad\u00ad\u00ad\u00ad\u00ad\u0710", 12, 0,
        {"cmap": [[0xAD, 3], [0x710, 1], [0x715, 2]], "gsub": substitutes("syrc", "fin2", single(1))},
        {"joining": [[0x710, "ALAPH"], [0x715, "R"]]},
    ),
    "a deleted glyph": Row(
        "--script=Latn", "xa\u0301", 1, 0,
        {
            "cmap": [[97, 2], [120, 1], [0x301, 3]],
            "gsub": {
                **substitutes("DFLT", "ccmp", chain([1], [2], [0, 2]), multiple(2), single(1)),
                "features": [["ccmp", [0, 1]]],
            },
            "gpos": NO_KERNING,
        },
        ACUTE,
    ),
    "a removed ignorable": Row(
        "--script=Latn --remove-default-ignorables", "x\u00ad\u0301", 1, 0,
        {
            "cmap": [[120, 1], [0xAD, 2], [0x301, 3]],
            "gsub": substitutes("DFLT", "ccmp", chain([1], [2], [0, 1]), single(1)),
        },
        ACUTE,
    ),
    # The record after the deletion is applied to the glyph that stands at the index then, past the match.
    "a glyph that a context reaches past a deleted one": Row(
        "--script=Latn", "abc", 2, 0,
        {
            "cmap": [[97, 1], [98, 2], [99, 3]],
            "gsub": substitutes("DFLT", "ccmp", chain([1, 2], [], [1, 1], [1, 2]), multiple(2), single(3)),
        },
    ),
    # The base of the mark looks like the second component of the glyph before it.
    "a component whose first one is deleted": Row(
        "--script=Latn", "abc", 1, 2,
        {
            "cmap": [[97, 1], [98, 2], [99, 5]],
            "h": [[5, 10], [11, 500], [22, 600]],
            "gdef": {"classes": [[5, 3], [11, 1], [12, 1], [21, 1], [22, 1]]},
            "gsub": {
                **substitutes("DFLT", "ccmp", COMPONENTS, {"type": "multiple", "subtables": [[[12, []], [21, []]]]}),
                "features": [["ccmp", [0, 1]]],
            },
            "gpos": substitutes("DFLT", "mark", ATTACHMENT),
        },
    ),
}  # fmt: skip
# A premise of the promise fails, so that the break isn't tried, or it holds, and pieces have the glyphs of the whole.
UNFLAGGED = {
    "letters joined by the context": Row(
        "--script=Arab", "\u0631\u0628", 2, 2,
        {"cmap": [[0x628, 1], [0x631, 2]]},
        {"joining": [[0x628, "D"], [0x631, "R"]]},
    ),
    # Where circles are inserted the last one isn't: its syllable has the number of the first.
    "syllables that would have circles": Row(
        "--script=Bali", " \u1b36" + "\u1b05" * 13 + " \u1b36", 4, 28,
        {
            "cmap": [[32, 1], [0x1B05, 2], [0x1B36, 3], [0x25CC, 4]],
            "gsub": {**substitutes("bali", "ccmp"), "features": [["ccmp", []]]},
        },
        {"universal": [[0x1B05, "B"], [0x1B36, "VPst"]], "syllables": {"universal": BASES}},
    ),
    "digits that have no direction of their own": Row(
        "--script=Hebr --direction=l", "\u05d012", 2, 0,
        {"cmap": [[49, 2], [50, 3], [0x5D0, 1]], "gsub": substitutes("DFLT", "ccmp", ligature(2, 3))},
    ),
    "letters in the other direction": Row(
        "--script=Arab --direction=l", "\u0631\u0627", 2, 0,
        {"cmap": [[0x627, 1], [0x631, 2]], "gsub": substitutes("arab", "fin2", single(1))},
        {"joining": [[0x627, "ALAPH"], [0x631, "R"]]},
    ),
    "a first mark in the other direction": Row(
        "--script=Latn --direction=r", "\u0301\u00e2b", 2, 0,
        {"cmap": [[97, 4], [98, 1], [0xE2, 3], [0x301, 2], [0x302, 5]], "gpos": NO_KERNING},
        {"classes": [[0x301, 230], [0x302, 230]], "splits": [[0xE2, 97, 0x302]]},
    ),
    "a mark in one piece": Row(
        "--script=Latn", "\u1eade\u0301", 3, 0,
        {"cmap": [[97, 1], [101, 5], [0xE2, 2], [0x301, 6], [0x302, 4], [0x323, 3]]},
        {
            "classes": [[0x301, 230], [0x302, 230], [0x323, 220]],
            "splits": [[0xE2, 97, 0x302], [0x1EA1, 97, 0x323], [0x1EAD, 0x1EA1, 0x302]],
            "pairs": [[97, 0x302, 0xE2], [97, 0x323, 0x1EA1], [0x1EA1, 0x302, 0x1EAD]],
        },
    ),
    # A letter by this shaper, which doesn't split it.
    "SARA AM in the place of a mark": Row(
        "--script=Latn", "\u1ead\u0e33e\u0301", 6, 0,
        {"cmap": [[97, 1], [101, 5], [0xE2, 2], [0x301, 6], [0x302, 4], [0x323, 3], [0xE33, 7]]},
        {
            "classes": [[0x301, 230], [0x302, 230], [0x323, 220]],
            "splits": [[0xE2, 97, 0x302], [0x1EA1, 97, 0x323], [0x1EAD, 0x1EA1, 0x302]],
            "pairs": [[97, 0x302, 0xE2], [97, 0x323, 0x1EA1], [0x1EA1, 0x302, 0x1EAD]],
        },
    ),
    "SARA AM by the shaper of its script": Row(
        "--script=Thai", "\u0e01\u0e33\u0e01\u0e33", 6, 2,
        {"cmap": [[0xE01, 1], [0xE32, 3], [0xE4D, 2]], "gpos": NO_KERNING},
    ),
    # It is moved before its syllable, so that no mark is left in the piece, and those of its letter are not ordered.
    "a tone mark in the place of a mark": Row(
        "--script=Hang", "\uac00\u302e\u1eade\u0301", 9, 0,
        {
            "upem": 1000,
            "cmap": [[97, 1], [101, 5], [0x301, 6], [0x302, 4], [0x323, 3], [0x302E, 7], [0xAC00, 8]],
            "h": [[7, 500]],
            "gpos": NO_KERNING,
        },
        {
            "classes": [[0x301, 230], [0x302, 230], [0x323, 220]],
            "splits": [[0xE2, 97, 0x302], [0x1EAD, 0xE2, 0x323]],
        },
    ),
    "a tone mark of the syllable after the cut": Row(
        "--script=Hang", "e\u0301\uac00\u302ee\u0301", 3, 2,
        {
            "upem": 1000,
            "cmap": [[101, 5], [0x301, 6], [0x302E, 7], [0xAC00, 8]],
            "h": [[7, 500]],
            "gpos": NO_KERNING,
        },
    ),
    "a vowel in one piece": Row(
        "--script=Bali", "\u1b06\u1b13\u1b36", 3, 0,
        {
            "cmap": [[0x1B05, 1], [0x1B06, 2], [0x1B13, 3], [0x1B35, 4], [0x1B36, 5]],
            "gsub": {**substitutes("bali", "ccmp"), "features": [["ccmp", []]]},
        },
        {
            "splits": [[0x1B06, 0x1B05, 0x1B35]],
            "pairs": [[0x1B05, 0x1B35, 0x1B06]],
            "universal": [[0x1B05, "B"], [0x1B06, "B"], [0x1B13, "B"], [0x1B35, "VPst"], [0x1B36, "VPst"]],
            "syllables": {"universal": BASES},
        },
    ),
}  # fmt: skip


@unittest.skipUnless(standing(PROGRAM).is_current(), "needs the program (tools/build)")
class Flags(unittest.TestCase):
    """The program's line with and without --safe-breaks."""

    def line(self, row: Row, *more: str) -> list[str]:
        """The glyphs of a row's text, each with its flags."""
        with tempfile.TemporaryDirectory() as folder:
            case = row.case()
            files = [Path(folder) / name for name in ("tables", "font", "text")]
            for path, content in zip(files, (case.tables, case.face, row.text.encode())):
                path.write_bytes(content)
            words = [standing(PROGRAM).file, *case.words, "--show-flags", *more, *files]
            ran = subprocess.run(words, capture_output=True, check=True)
        return ran.stdout.decode().strip().split("|")

    def is_unsafe(self, row: Row, line: list[str]) -> bool:
        """Whether a glyph of the cluster at which a row's text is cut is unsafe to break."""
        rests = [glyph.partition("=")[2] for glyph in line]
        found = [rest for rest in rests if rest.partition("+")[0].partition("@")[0] == str(row.cut)]
        self.assertTrue(found, line)
        return any(rest.partition("#")[2] in ("1", "3", "5", "7") for rest in found)

    def test_flagged(self) -> None:
        """The request flags the cluster, and changes flags alone."""
        for name, row in FLAGGED.items():
            with self.subTest(name):
                plain, asked = self.line(row), self.line(row, "--safe-breaks")
                self.assertEqual((self.is_unsafe(row, plain), self.is_unsafe(row, asked)), (False, True))
                self.assertEqual(*([glyph.partition("#")[0] for glyph in line] for line in (plain, asked)))

    def test_unflagged(self) -> None:
        """What a premise leaves out is not flagged."""
        for name, row in UNFLAGGED.items():
            with self.subTest(name):
                self.assertFalse(self.is_unsafe(row, self.line(row, "--safe-breaks", "--no-dotted-circle")))


@unittest.skipUnless(Place(TRIALS, False).is_current(), "needs shape_trials (tools/fuzz --in-process)")
class Pieces(unittest.TestCase):
    """What shape_trials tries of the rows, and the premises on tables."""

    def test_rows(self) -> None:
        """As many breaks as the row says, with the glyphs of the whole."""
        for name, row in {**FLAGGED, **UNFLAGGED}.items():
            with self.subTest(name):
                ran = run_stream(Place(TRIALS, False).file, row.case().stream())
                self.assertEqual(ran.lines, [f"1 cases, 1 tested, {row.tried} breaks, 0 unsure, 0 wrong"])

    def premises(self, tables: bytes) -> list[str]:
        stream = b"tables " + tables.replace(b"\n", b" ") + b"\nfont 1 {}\npremises tables\n"
        return run_stream(Place(TRIALS, False).file, stream).lines[:-1]

    def test_tables_of_unicode(self) -> None:
        """Each character of the Unicode Character Database keeps the premises."""
        self.assertEqual(self.premises(SHIPPED.read_bytes()), ["premises kept"])

    def test_other_tables(self) -> None:
        """Letters that a context wouldn't show, and syllables that would go on past the start of a grapheme."""
        for name, value in BROKEN.items():
            with self.subTest(name):
                self.assertEqual(self.premises(json.dumps(value).encode()), ["premises broken"])


A, B, ALEPH, BEH, ZWJ, ACCENT, SIGN = 0x61, 0x62, 0x627, 0x628, 0x200D, 0x301, 0x1B35
BROKEN = {
    "a first half of another type": {"splits": [[B, A, 0]], "joining": [[B, "D"]]},
    "a second half that joins": {"splits": [[B, A, ACCENT]], "joining": [[A, "D"], [B, "D"], [ACCENT, "R"]]},
    "a second half that ends what joins": {"splits": [[B, A, SIGN]], "joining": [[A, "D"], [B, "D"]]},
    "a transparent character with a letter as its half": {"splits": [[B, A, 0]], "joining": [[B, "T"]]},
    "a mirror image of another type": {"mirrored": [[A, B]], "joining": [[B, "D"]]},
    "a mirror image that is transparent by itself": {"mirrored": [[A, ACCENT]], "joining": []},
    "a vertical form of another type": {"vertical": [[A, B]], "joining": [[A, "D"]]},
    "a letter that canonical ordering moves": {"classes": [[ACCENT, 230]], "joining": [[ACCENT, "D"]]},
    "a space that syllables pass over": {"universal": [[0x20, "CGJ"]]},
    "a letter that begins with a mark": {"splits": [[B, ACCENT, 0]], "joining": [[B, "T"]]},
    "a mark as mirror image": {"mirrored": [[A, ACCENT]], "joining": [[ACCENT, "U"]]},
}


# Stand-ins for shape_trials, with what bench/breaks says of the first line, and its status.
STAND_INS = {
    "echo 2 cases, 2 tested, 7 breaks, 0 unsure, 0 wrong": ("", 0),
    "echo unsure 0; echo 2 cases, 2 tested, 7 breaks, 1 unsure, 0 wrong": ("unsure", 0),
    "echo wrong 0 breaks; echo 2 cases, 2 tested, 7 breaks, 0 unsure, 1 wrong; exit 1": ("wrong", 1),
    "echo wrong 0 flags; echo 2 cases, 2 tested, 7 breaks, 0 unsure, 1 wrong; exit 1": ("wrong flags", 1),
    "kill -SEGV $$": ("signal 11", 1),
}


class Lines(unittest.TestCase):
    """The lines of bench/breaks."""

    def test_stand_ins(self) -> None:
        """A line that is wrong or ends the program is printed, and the status is 1; one that is unsure is printed."""
        for body, (name, status) in STAND_INS.items():
            with self.subTest(body), tempfile.TemporaryDirectory() as folder:
                program = Path(write_stand_in(Path(folder) / "program", f"cat >/dev/null; {body}"))
                with mock.patch.object(breaks_cli, "ready_trials", lambda name: program):
                    given, told = told_by(breaks_cli.main, "--lines=1", DEJAVU)
                printed = [line for line in told.splitlines() if DEJAVU in line]
                self.assertEqual((given, len(printed)), (status, 1 if name else 0), told)
                self.assertTrue(all(line.startswith(f"{name}: {DEJAVU}: U+") for line in printed), told)

    def test_clauses(self) -> None:
        """Each set has as many clauses as are wanted, of more than a word."""
        for chosen in SETS:
            clauses = clauses_of(chosen, 20)
            self.assertEqual((len(clauses), min(map(len, clauses)) > 5), (20, True), chosen.title)
            self.assertFalse([clause for clause in clauses if chosen.stop in clause], chosen.title)

    def test_flags(self) -> None:
        """A break is forbidden where a glyph of its cluster has the flag, but for the beginning of a line."""
        lines = ["1=0#1|2=3#1|3=3|4=5#2|5=9#3", "7=4#1|6=0"]
        self.assertEqual(flagged(map(read_line, lines)), 3)
        rows = [Forbidden("one", 2000, (4, 6, 500)), Forbidden("other", 1000, (2, 0, 1))]
        cells = ["| one | 2,000 | 2 | 3 | 250 |", "| other | 1,000 | 2 | 0 | 1 |", "| all | 3,000 | 2 | 2 | 167 |"]
        self.assertEqual(table_of(rows)[2:], cells)

    def test_drawn_lines(self) -> None:
        """They are of the font's characters, and the same ones each time."""
        characters = frozenset(range(0x5D0, 0x5EB))
        lines, again = (list(lines_of(characters, 40, random.Random("1/font"))) for _ in range(2))
        self.assertEqual((lines, len(lines)), (again, 40))
        self.assertLessEqual(set(map(ord, "".join(line.text for line in lines))), {*characters, 0x20})


class Cuts(unittest.TestCase):
    """Lines and sets of cuts by the library's calls, over a stand-in for its fonts."""

    def test_paragraphs(self) -> None:
        """Lines end at the last break that fits, and in the midst of a piece that is too long."""
        given = Paragraph("ab cde f ghijklm", (3, 7, 9))
        self.assertEqual((given.ends(6), given.ends(16)), ([3, 9, 15], []))
        words = ["\u05d0\u05d1", "\u05d0\u05b8\u05d1", "ab", "\u0627\u0644\u0628\u0627\u0628", "e\u0301"]
        self.assertEqual([len(word) for word in pointed(words, 1)], [4, 4, 2, 10, 2])
        self.assertEqual([len(word) for word in pointed(words, 3)], [4, 2, 2, 10, 2])
        hebrew = next(chosen for chosen in SETS if chosen.name == "Hebrew")
        self.assertEqual(list(paragraphs(hebrew, frozenset())), ["as they are", "with points", "few points"])

    def test_shares(self) -> None:
        """Sets of which the law speaks nowhere are one row."""
        rows = {name: dict.fromkeys(KINDS, Share(*counts)) for name, counts in SHARES.items()}
        cells = ["| Latin | 90 " + 5 * "| 50 " + "|", "| the others | 75 " + 5 * "| 0 " + "|"]
        self.assertEqual(shares_table(rows_of(rows))[2:], cells)

    def test_trials(self) -> None:
        """A line that differs from its part of the whole is found, and a cluster with a flag is no cut."""
        self.assertEqual(safe_cuts([(5, 2, 0), (5, 1, 1), (5, 1, 0), (5, 0, 0)]), [2])
        for is_changed in (False, True):
            trial = Trial(StandIn(False), StandIn(is_changed), "en")
            found = trial.tried("abcd", 3, random.Random(1))
            self.assertGreater(found.lawful, 0)
            self.assertEqual({text for text, *_ in found.differing}, {"abcd"} if is_changed else set())


# Lines, those that keep their glyphs by flags, and those by the law.
SHARES = {"Latin": (10, 9, 5), "Khmer": (10, 5, 0), "Tibetan": (10, 10, 0)}


class StandIn:
    """A font with a glyph for each character, another one where it is changed; the law speaks of each line."""

    def __init__(self, is_changed: bool) -> None:
        self.is_changed = is_changed

    def shape_arrays(self, text: str, **settings: Any) -> Any:
        zeros, numbers = [0] * len(text), [ord(each) + self.is_changed for each in text]
        return SimpleNamespace(
            numbers=numbers, clusters=list(range(len(text))), flags=zeros,
            x_advances=zeros, y_advances=zeros, x_offsets=zeros, y_offsets=zeros,
        )  # fmt: skip

    def cut_lines(self, breaks: list[int], width: int, lawful: bool) -> list[Any]:
        return [
            SimpleNamespace(start=begin, end=end, glyphs=range(begin, end))
            for begin, end in zip([0, *breaks], [*breaks, 4])
        ]

    def direction(self) -> str:
        return "ltr"

    def script(self) -> str:
        return "Latn"


if __name__ == "__main__":
    unittest.main()
