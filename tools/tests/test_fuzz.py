"""The fuzzer's cases, and what it says of stand-ins for the program."""

import json
import resource
import tempfile
import unittest
from pathlib import Path
from random import Random

from support import told_by, write_stand_in

from common.faults import ToolFault
from formats.rules import font_faults, tables_faults
from fuzzing import cli
from fuzzing.alphabets import draw_alphabet
from fuzzing.cases import Cases, State, as_json, right_answers
from fuzzing.damage import damage_bytes, damage_value, places
from fuzzing.fonts import draw_font
from fuzzing.running import Answer, Limits, is_line, under
from fuzzing.tables import draw_tables

# What a stand-in does, and what the fuzzer then finds in the first sixteen cases of seed 1, among others.
STAND_INS = [
    ("echo '1=0+500'", "ok, not J1 NotJson"),
    ("kill -SEGV $$", "signal 11"),
    ("while :; do :; done", "no end"),
    ("echo '1=0'; echo 'hb_shape: S2 TooLong' >&2; exit 5", "output before status 5"),
    ("echo 'hb_shape: S2 TooShort' >&2; exit 5", "another message with status 5"),
    ("echo 'hb_shape: S2 TooLong' >&2; exit 3", "another message with status 3"),
    ("echo oops >&2", "a message with status 0"),
    ("exit 77", "another message with status 77"),
    ("echo 'hb_shape: S4 UnknownSyllableKind' >&2; exit 5", "S4 UnknownSyllableKind, not a shape"),
]


class Drawn(unittest.TestCase):
    """What is drawn."""

    def test_fonts_and_tables_follow_the_format(self) -> None:
        """The rules of the formats find no fault in what was not damaged."""
        for number in range(150):
            draw = Random(number)
            alphabet = draw_alphabet(draw)
            tables, _ = draw_tables(draw, alphabet)
            font = draw_font(draw, alphabet)
            self.assertEqual(list(tables_faults(tables)), [])
            self.assertEqual(list(font_faults(json.loads(as_json(font)))), [])

    def test_lists_are_lists(self) -> None:
        """An empty text or object where a list is wanted is a fault."""
        for wrong in ("", {}):
            system = {"scripts": [["DFLT", {"features": wrong}, []]]}
            for table in (system, {"lookups": wrong}, {"lookups": [{"type": "single", "subtables": wrong}]}):
                self.assertEqual(len(list(font_faults({"gsub": table}))), 1, table)

    def test_a_second_class_without_records_is_in_range(self) -> None:
        """Where there is no list of records a second class is past none; a first class is past the empty list."""
        pairs = {"first": [1], "class1": [], "class2": [[1, 1]], "records": []}
        for subtable, count in ((pairs, 0), ({**pairs, "class1": [[1, 0]]}, 1), ({**pairs, "records": [[]]}, 1)):
            lookup = {"type": "pair", "flags": 0, "subtables": [subtable]}
            table = {"scripts": [], "features": [], "lookups": [lookup]}
            self.assertEqual(len(list(font_faults({"gpos": table}))), count, subtable)

    def test_every_kind_of_lookup_is_drawn(self) -> None:
        """Among a few fonts there is each type of each table."""
        kinds = set()
        for number in range(60):
            draw = Random(number)
            font = draw_font(draw, draw_alphabet(draw))
            kinds |= {(key, each["type"]) for key in ("gsub", "gpos") for each in font.get(key, {}).get("lookups", [])}
        self.assertEqual(len(kinds), 15)

    def test_a_case_is_the_same_each_time(self) -> None:
        """By its seed and its number, whichever case was drawn before."""
        with tempfile.TemporaryDirectory() as folder:
            first, second, other = (Cases(seed, Path(folder)) for seed in (1, 1, 2))
            forward = [first.case(number) for number in range(40)]
            backward = [second.case(number) for number in reversed(range(40))]
            self.assertEqual(forward, backward[::-1])
            self.assertNotEqual(forward, [other.case(number) for number in range(40)])

    def test_damage(self) -> None:
        """A damaged value is another one in most cases, and is still a value; bytes may be anything."""
        changed = 0
        for number in range(200):
            value = {"a": [1, [2, 3]], "b": {"c": None}}
            damage_value(Random(number), value)
            changed += json.loads(json.dumps(value)) != {"a": [1, [2, 3]], "b": {"c": None}}
            self.assertIsInstance(damage_bytes(Random(number), b"[1,2]"), bytes)
        self.assertGreater(changed, 150)
        self.assertEqual(len(places({"a": [1, [2, 3]], "b": {"c": None}})), 7)
        damage_value(Random(1), {})


class Judged(unittest.TestCase):
    """What an answer is called, and which answers are right."""

    def test_names(self) -> None:
        """Documented faults by their names, all else by what is wrong."""
        for status, out, err, name in [
            (0, b"1=0+5\n", b"", "ok"),
            (3, b"", b"hb_shape: J1 NotJson\n", "J1 NotJson"),
            (5, b"", b"hb_shape: OutOfMemory\n", "OutOfMemory"),
            (3, b"", b"hb_shape: J1 NotJson", "another message with status 3"),
            (3, b"", b"hb_shape: hb_shape: J1 NotJson\n", "another message with status 3"),
            (3, b"", b"", "another message with status 3"),
            (6, b"1", b"hb_shape: Write\n", "output before status 6"),
            (-9, b"", b"", "signal 9"),
            (None, b"", b"", "no end"),
        ]:
            self.assertEqual(Answer(status, out, err, 0.0, 0).name(), name)

    def test_lines(self) -> None:
        """The line of glyphs, and lines of slices where they are asked for."""
        numbers, slices = ("--no-glyph-names",), ("--no-glyph-names", "--slices")
        for options, out, is_right in [
            (numbers, b"\n", True),
            (numbers, b"1=0@-350,480+0,-7#1<0,1,2,-3>|2\n", True),
            (numbers, b"1=0+500|\n", False),
            (numbers, b"gid1=0+500\n", False),
            (numbers, b"1=0+500", False),
            (numbers, b"1=0+500\n0 1\n", False),
            (slices, b"1=0+500\n0 1\n1 2\n", True),
            (slices, b"1=0+500\nno slices\n", True),
            (slices, b"1=0+500\nno\n", False),
            ((), b"a|b=0\n", True),
        ]:
            self.assertEqual(is_line(options, out), is_right, out)

    def test_right_answers(self) -> None:
        """A fault of the words comes first, then of files, tables, font and text."""
        good, faulty, valid = State.GOOD, State.FAULTY, State.VALID
        self.assertEqual(right_answers(False, True, faulty, faulty, False), {"words"})
        self.assertEqual(right_answers(True, True, faulty, faulty, False), {"Read"})
        self.assertNotIn("ok", right_answers(True, False, faulty, good, True))
        self.assertIn("J1 NotJson", right_answers(True, False, good, faulty, True))
        self.assertEqual(right_answers(True, False, good, good, False), {"NotUtf8"})
        self.assertEqual(right_answers(True, False, valid, good, False), {"NotUtf8", "Unlawful", "U3 SplitDepth"})
        self.assertEqual(right_answers(True, False, good, good, True), {"ok", "S2 TooLong", "S3 StretchRange"})


class Run(unittest.TestCase):
    """The whole tool, over stand-ins for the program."""

    def setUp(self) -> None:
        self.folder = Path(self.enterContext(tempfile.TemporaryDirectory()))

    def stand_in(self, name: str, body: str) -> str:
        return write_stand_in(self.folder / name, body)

    def told(self, *words: str) -> tuple[int, str]:
        """The tool's status and what it prints."""
        return told_by(cli.main, *words, f"--keep={self.folder / 'kept'}")

    def test_finds_what_is_not_right(self) -> None:
        """Each stand-in is found, and its smallest case is kept and gives the finding again."""
        for at, (body, kind) in enumerate(STAND_INS):
            program = self.stand_in(f"program{at}", body)
            cases = 2 if kind == "no end" else 600 if kind.startswith("ok") else 20
            status, told = self.told(f"--program={program}", f"--cases={cases}", "--limit=0.3", "--jobs=2")
            self.assertEqual(status, 1, told)
            self.assertIn(f"finding: {kind}", told)
        kept = json.loads((self.folder / "kept" / "signal-11" / "case.json").read_text(encoding="utf-8"))
        program = self.stand_in("again", "kill -SEGV $$")
        status, told = self.told(f"--program={program}", f"--case={kept['case']}", f"--seed={kept['seed']}")
        self.assertEqual(status, 1)
        self.assertTrue(told.startswith("signal 11 in "), told)
        again = json.loads((self.folder / "kept" / f"case-{kept['case']}" / "case.json").read_text(encoding="utf-8"))
        self.assertEqual(again["options"], kept["options"])

    def test_limits_end(self) -> None:
        """The limits are those of the work alone, and begin before it."""
        kinds = (resource.RLIMIT_AS, resource.RLIMIT_STACK, resource.RLIMIT_CORE)
        before, seen = [resource.getrlimit(kind) for kind in kinds], []
        under(Limits(1, 1 << 33, 192 << 10), lambda: seen.extend(resource.getrlimit(kind)[0] for kind in kinds))
        self.assertEqual(seen, [1 << 33, 192 << 10, 0])
        self.assertRaises(ZeroDivisionError, under, Limits(1, None, 192 << 10), lambda: print(1 // 0))
        self.assertEqual([resource.getrlimit(kind) for kind in kinds], before)

    def test_compares_two_programs(self) -> None:
        """Answers that are right are compared; a difference is a finding."""
        one, other = self.stand_in("one", "echo '1=0+500'"), self.stand_in("other", "echo '2=0+500'")
        _, told = self.told(f"--program={one}", f"--against={other}", "--cases=40")
        self.assertIn("finding: another answer of another program", told)

    def test_refuses_words(self) -> None:
        """No program, no processes, and limits that nothing can run in."""
        program = self.stand_in("program", "")
        for words in (["--program=/missing"], [f"--program={program}", "--jobs=0"], ["--seconds=soon"], ["more"]):
            with self.assertRaises(ToolFault):
                self.told(*words)


if __name__ == "__main__":
    unittest.main()
