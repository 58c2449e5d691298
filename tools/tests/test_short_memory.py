"""The tests of crates with each allocation refused in turn, over stand-ins for the programs that are built of tests."""

import contextlib
import io
import re
import subprocess
import tempfile
import unittest
from pathlib import Path
from unittest import mock

from support import write_files

from common.faults import ToolFault
from refusing import cli
from refusing.programs import EDGE
from streams.shim import compiler

FILES = {
    "crates.txt": "low:\nbare: low\nhigh: low\n",
    "crates/low/src/lib.rt": "mod rows;\n",
    "crates/low/src/rows.rt": "#[test]\nfn grows() {}\n\n#[test]\nfn stays() {}\n",
    "crates/bare/src/lib.rt": "// #[test]\n",
    "crates/high/src/lib.rt": "    #[test]\nfn reads() {}\n",
}

# Two tests: one asks for memory four times and does without the last, the other asks for none. What is defined says
# how a test ends that is refused memory, and how often it asks.
TESTS = r"""
#include <signal.h>
#include <stdio.h>
#include <stdlib.h>
#include <string.h>
#include <time.h>
#ifndef TIMES
#define TIMES 4
#endif
#ifndef WRONG
#define WRONG
#endif
#ifndef END
#define END 0
#endif
int main(int count, char **words) {
    if (strcmp(words[1], "--list") == 0) {
        puts("rows::grows: test\nrows::stays: test\ntests: 2");
        return 0;
    }
    if (strcmp(words[1], "rows::grows") != 0)
        return 0;
    void *volatile row = 0;
    for (int number = 1; number <= TIMES; number++) {
        void *volatile more = realloc(row, 10 * number);
        if (!more && number < TIMES) {
            WRONG
            fputs("error: AllocError\n    the test failed\n", stderr);
            return 1;
        }
        row = more ? more : row;
    }
    return END;
}
"""
# A hundredth of a second of processor time.
BUSY = "for (clock_t end = clock() + CLOCKS_PER_SEC / 100; clock() < end; ) ;"


def build(program: Path, *defined: str) -> None:
    """Makes the program of the tests."""
    program.parent.mkdir(parents=True, exist_ok=True)
    source = program.with_suffix(".c")
    source.write_text(TESTS, encoding="utf-8")
    subprocess.run([compiler() or "cc", "-w", "-o", program, source, *(f"-D{each}" for each in defined)], check=True)


@unittest.skipIf(compiler() is None, "no C compiler is there")
class ShortMemory(unittest.TestCase):
    """What the tool says of crates."""

    def setUp(self) -> None:
        self.root = Path(self.enterContext(tempfile.TemporaryDirectory()))
        write_files(self.root, FILES)
        self.enterContext(mock.patch.object(cli, "ROOT", self.root))
        self.enterContext(mock.patch.object(cli, "ready_tests", lambda _, crate, root: root / f"{crate}_tests"))
        build(self.root / "low_tests")

    def told(self, *words: str) -> tuple[int, str]:
        """The tool's status and what it prints."""
        out = io.StringIO()
        with contextlib.redirect_stdout(out), contextlib.redirect_stderr(io.StringIO()) as self.err:
            status = cli.main(list(words))
        return status, out.getvalue()

    def test_refuses_each(self) -> None:
        """Each allocation is refused, alone and with all that follow."""
        ends = "2 tests, 4 of 4 allocations refused: 6 want of memory, 2 as with all memory"
        self.assertEqual(self.told("low"), (0, f"low: {ends}\n"))
        ends = "1 tests, 4 of 4 allocations refused: 6 want of memory, 2 as with all memory"
        self.assertEqual(self.told("low", "rows::g"), (0, f"low: {ends}\n"))
        self.assertEqual(self.told("low", "rows::s"), (0, "low: 1 tests, 0 of 0 allocations refused: no end\n"))

    def test_all_crates(self) -> None:
        """Each crate that has tests has its line, and then stand all together."""
        build(self.root / "built" / "low" / "out" / "low_tests")
        build(self.root / "built" / "high_tests", "TIMES=2")
        status, told = self.told(f"--built={self.root / 'built'}", "--jobs=2")
        lines = [
            "low: 2 tests, 4 of 4 allocations refused: 6 want of memory, 2 as with all memory",
            "high: 2 tests, 2 of 2 allocations refused: 2 want of memory, 2 as with all memory",
            "all: 4 tests, 6 of 6 allocations refused: 8 want of memory, 4 as with all memory",
        ]
        self.assertEqual((status, told.splitlines()), (0, lines))
        self.assertIn("short_memory: crate 2 of 2, high: 2 tests", self.err.getvalue())

    def test_tells_a_test_that_ends_otherwise(self) -> None:
        """A failed assertion is no want of memory, nor is a signal after its message, nor a test without an end."""
        for wrong, answer in (
            ('if (number == 2) { puts("x"); fputs("rows.rt:5:4: failed\\n", stderr); return 101; }', "status 101: rows.rt:5:4: failed"),
            ('if (number == 2) { fputs("error: AllocError\\n", stderr); raise(SIGILL); }', "signal 4: error: AllocError"),
            ("if (number == 2) return 3;", "status 3: no message"),
            ("while (number == 2) ;", "no end"),
        ):
            build(self.root / "low_tests", f"WRONG={wrong}")
            with mock.patch("refusing.programs.SECONDS", 1):
                status, told = self.told("low")
            wanted = f"low rows::grows: 2 of 8 otherwise, with allocation 2 refused: {answer}"
            self.assertEqual((status, told.splitlines()[0]), (1, wanted))
            self.assertIn("4 want of memory, 2 as with all memory, 2 otherwise", told)

    def test_sample(self) -> None:
        """Of a test that takes 1.8 s with all refusals the first and last are tried in one, and some between them."""
        build(self.root / "low_tests", "TIMES=90", f"WRONG={BUSY}")
        pattern = (
            r"low rows::grows: a sample, (\d+) of 90 allocations\n"
            r"low: 2 tests, \1 of 90 allocations refused: (\d+) want of memory, 2 as with all memory\n"
        )
        status, told = self.told("low", "--seconds=1")
        self.assertEqual(status, 0)
        self.assertRegex(told, pattern)
        refused, wants = map(int, re.match(pattern, told).groups())
        self.assertEqual(wants, 2 * refused - 2)
        self.assertGreater(refused, 2 * EDGE)
        self.assertLess(refused, 80)

    def test_refuses_what_is_not_there(self) -> None:
        """No crate, none with tests, no test, none that is built, or one that fails with all memory."""
        none = f"--built={self.root}/none"
        for words in (["middle"], ["bare"], ["low", "texts"], ["low", none], ["low", "--seconds=0"]):
            with self.assertRaises(ToolFault):
                self.told(*words)
        build(self.root / "low_tests", "END=1")
        with self.assertRaisesRegex(ToolFault, "low_tests rows::grows fails with all memory: status 1: no message"):
            self.told("low")


if __name__ == "__main__":
    unittest.main()
