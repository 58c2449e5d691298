"""The hostile files, what grows like a square, and what is said of stand-ins for the program."""

import json
import shutil
import subprocess
import tempfile
import unittest
from pathlib import Path

from support import told_by, write_stand_in

from attacks import cli
from attacks.attack import Attack, Files, font, lookup, rules, table
from attacks.beside import write_beside
from attacks.cli import ATTACKS, fault_of, is_square
from common.faults import ToolFault
from formats.rules import font_faults, tables_faults
from fuzzing.running import Answer


class Hostile(unittest.TestCase):
    def setUp(self) -> None:
        self.folder = Path(self.enterContext(tempfile.TemporaryDirectory()))

    def stand_in(self, body: str) -> str:
        return write_stand_in(self.folder / "program", body)

    def told(self, *words: str) -> tuple[int, str]:
        """The tool's status and what it prints."""
        return told_by(cli.main, *words)

    def test_files_follow_the_format(self) -> None:
        """Where a shape is the right answer, tables and font have no fault by the rules of the formats."""
        self.assertEqual(len({attack.name for attack in ATTACKS}), len(ATTACKS))
        for attack in ATTACKS:
            tables, given, _ = attack.files(min(attack.size, 300)).contents()
            if "ok" in attack.answers:
                self.assertEqual(list(tables_faults(json.loads(tables))), [], attack.name)
                self.assertEqual(list(font_faults(json.loads(given))), [], attack.name)

    def test_squares(self) -> None:
        """Four times as much from twice to four times the size is a square; twice as much is none."""
        self.assertTrue(is_square([1.0, 4.0, 16.0], 0.1))
        self.assertTrue(is_square([0.0, 0.0, 2.0], 0.1))
        self.assertFalse(is_square([1.0, 2.0, 4.0], 0.1))
        self.assertFalse(is_square([1.0, 2.2, 4.9], 0.1))
        self.assertFalse(is_square([0.001, 0.004, 0.016], 0.1))

    def test_answers(self) -> None:
        """An answer is right by its name and its line's form, start and end."""
        given = Files(font("a", table("ccmp", [lookup("single", [[1, 1]])])), "a")
        attack = Attack("letters", 1, lambda count: given, line=lambda count: ("1=0", f"={count}+5\n"))
        for out, err, status, is_right in [
            (b"1=0+5|1=1+5\n", b"", 0, True),
            (b"1=0+5|1=2+5\n", b"", 0, False),
            (b"a=0+5|1=1+5\n", b"", 0, False),
            (b"", b"hb_shape: S2 TooLong\n", 5, False),
        ]:
            self.assertEqual(fault_of(attack, 1, given, Answer(status, out, err, 0.0, 0)) is None, is_right)

    def test_runs(self) -> None:
        """A line for each that is named; the status is 1 where an answer is not right."""
        status, told = self.told(f"--program={self.stand_in('exit 1')}", "a context of 64", "sara am")
        self.assertEqual(status, 1)
        self.assertIn("3 run, 3 with an answer that is not right", told)
        status, told = self.told(f"--program={self.stand_in('echo 1=0+500')}", "reverse chaining")
        self.assertIn("another line", told)
        status, told = self.told(f"--program={self.stand_in('echo 1=0+500')}", "Tibetan")
        self.assertEqual(status, 0)

    def test_lists_and_writes(self) -> None:
        """The names, and the files of the first size with their options."""
        self.assertEqual(len(self.told("--list")[1].splitlines()), len(ATTACKS))
        self.told("--write", str(self.folder / "files"), "removed ignorables")
        options = (self.folder / "files" / "removed-ignorables" / "options").read_text(encoding="utf-8")
        self.assertEqual(options, "--remove-default-ignorables\n")

    @unittest.skipUnless(shutil.which("hb-shape"), "needs hb-shape (libharfbuzz-bin)")
    def test_beside(self) -> None:
        """The times of hb-shape and whether its lines are the same; none where it can't have the same files."""
        stand_in = f"--program={self.stand_in('echo 1=0+500')}"
        names = ["a string", "reverse chaining", "a machine that accepts", "features of a font", "glyphs with names"]
        _, told = self.told(stand_in, "--beside", *names)
        theirs = [line.split()[1] for line in told.splitlines() if "hb-shape" in line]
        self.assertEqual(theirs, ["none:"] * (len(names) + 1))
        _, told = self.told(stand_in, "--beside", "growth to the limit")
        self.assertRegex(told, r"  hb-shape +(\d+\.\d{3} *){3}s  other lines\n")

    @unittest.skipUnless(shutil.which("hb-shape"), "needs hb-shape (libharfbuzz-bin)")
    def test_opentype(self) -> None:
        """A font that is written as OpenType has the value's rules: the lines are worked out by hand."""
        marks = {"marks": [[2, 0, [100, 0]]], "bases": [[1, [[250, 480]]]]}
        chained = [lookup("chain", rules([[2], [1], [3], [[0, 1]]])), lookup("single", [[1, 3]])]
        cases = [
            (font("ab", table("liga", [lookup("ligature", [[1, [[[2], 3]]]])])), "abb", "3=0+0|2=2+500"),
            (font("ab", table("ccmp", [lookup("multiple", [[1, [2, 2]]])])), "ab", "2=0+500|2=0+500|2=1+500"),
            (font("ab", table("salt", [lookup("alternate", [[1, [2, 3]]])])), "a", "1=0+500"),
            (font("abc", table("calt", chained)), "bacac", "2=0+500|3=1+500|3=2+500|1=3+500|3=4+500"),
            (font("ab", None, table("kern", [lookup("pair", [[1, 2, [0, 0, -50, 0], None]])])), "abb", "1=0+450|2=1+500|2=2+500"),
            (
                font("a\u0301", None, table("mark", [lookup("markbase", marks)]), gdef={"classes": [[1, 1], [2, 3]]}),
                "a\u0301",
                "1=0+500|2=0@-350,480+0",
            ),
            (
                font("a", None, table("curs", [lookup("cursive", [[1, [0, 10], [400, 30]]])])),
                "aa",
                "1=0+400|1=1@0,20+500",
            ),
        ]  # fmt: skip
        for given, text, line in cases:
            words = write_beside(self.folder, Files(given, text))
            ran = subprocess.run(["hb-shape", *(words or [])], capture_output=True, text=True, check=True)
            self.assertEqual(ran.stdout.strip().strip("[]"), line)

    def test_refuses_words(self) -> None:
        """A name that none has, and a program that is not there."""
        for words in (["no such name"], ["pairs", "--program=/missing"]):
            with self.assertRaises(ToolFault):
                self.told(*words)


if __name__ == "__main__":
    unittest.main()
