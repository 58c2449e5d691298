"""The calls that may ask for memory, in a small repository."""

import contextlib
import io
import subprocess
import tempfile
import unittest
from pathlib import Path
from unittest import mock

from support import write_files

from common.faults import ToolFault
from growing import cli
from growing.code import all_functions, blanked, faults_of_memory, functions_in
from sources import crates
from streams.shim import compiler

FILES = {
    "crates.txt": "low:\nhigh: low\ntests_high: high low\n",
    "crates/low/src/lib.rt": """//! fn no_code() {}
pub enum TextFault { Wrong, OutOfMemory }
pub struct Held { pub cause: TextFault }
pub enum Other { Wrong }
pub struct List { rows: Vec<u8> }
impl List {
    /// Grows { by one.
    pub fn push<T: Into<u8>>(&mut self, row: T) -> Result<(), AllocError>
        requires { length self.old < 3 }
        ensures full { result ≡ Ok () → "fn {" ≡ "}" }
    {
        self.rows.push(row.into())
    }
    pub fn len(&self) -> usize { self.rows.len() }
}
pub fn made(alloc: Global) -> List { List { rows: Vec::new(alloc) } }
pub fn forgotten(list: &mut List) -> Result<u8, Other> { list.push('}') }
""",
    "crates/high/src/lib.rt": """use low::{List, made};
pub fn read(alloc: Global) -> Result<List, low::TextFault> { let mut list = made(alloc); list.push(1)?; Ok(list) }
pub fn unread(list: &mut List)
    -> Result<(), TextFault>
    ensures { ⊤ }
{
    list.push(2)
}
fn own(alloc: Global) -> Result<u8, AllocError> { Ok(1) }
trait Shaper { fn grow(&self) -> Result<(), AllocError>; }
""",
    "crates/tests_high/src/lib.rt": """use high::read;
#[test]
fn reads(rt: HostRuntime) -> Result<(), Fail> { both(rt.alloc())?; high::own; Ok(()) }
fn both(alloc: Global) -> Result<[List; 2], Fail> { Ok([read(alloc)?, read(alloc)?]) }
""",
}

# The tests of tests_high as a program: one asks for memory twice, and does without the first.
BUILT = r"""
#include <stdio.h>
#include <stdlib.h>
#include <string.h>
int main(int count, char **words) {
    if (count > 1 && strcmp(words[1], "--list") == 0) {
        puts("reads: test\ntests: 1");
        return 0;
    }
    void *volatile first = malloc(10), *volatile second = realloc(0, 20);
    free(first);
    if (second)
        return 0;
    fputs("ERROR\n", stderr);
    return 101;
}
"""


class GrowingCalls(unittest.TestCase):
    def setUp(self) -> None:
        self.root = Path(self.enterContext(tempfile.TemporaryDirectory()))
        write_files(self.root, FILES)

    def test_functions(self) -> None:
        """Their names, owners, answers and what they call, past clauses, texts and comments."""
        found = {each.name: each for each in functions_in("low", self.root / "crates/low/src/lib.rt", self.root)}
        self.assertEqual(sorted(found), ["forgotten", "len", "made", "push"])
        push = found["push"]
        self.assertEqual((push.owner, push.answer, push.is_public), ("List", "Result<(), AllocError>", True))
        self.assertIn((".", "into"), push.names)
        self.assertNotIn(("", "requires"), push.names)
        self.assertIn(("Vec", "new"), found["made"].names)
        self.assertEqual(blanked('a("b{", \'}\') // c\n'), "a(    ,    )     \n")

    def test_faults(self) -> None:
        """Enums with want of memory; another fault is none."""
        self.assertEqual(faults_of_memory(self.root), {"AllocError", "AllocFailed", "TextFault"})

    def test_list(self) -> None:
        """Public calls alone, each with the tests from which it is reached."""
        functions = all_functions(self.root)
        growing = [each.name for each in functions if cli.is_growing(each, faults_of_memory(self.root))]
        self.assertEqual(growing, ["push", "made", "read", "unread"])
        reach = cli.Reach(functions, self.root)
        reached = [each.name for each in functions if reach.tests[each]]
        self.assertEqual(reached, ["push", "made", "read", "own", "both"])

    def told(self, *words: str) -> tuple[int, str]:
        """The tool's status and what it prints of the repository."""
        functions = all_functions(self.root)
        out = io.StringIO()
        with (
            mock.patch.object(cli, "all_functions", lambda: functions),
            mock.patch.object(cli, "faults_of_memory", lambda: faults_of_memory(self.root)),
            mock.patch.object(cli, "read_crates", lambda root: crates.read_crates(self.root)),
            contextlib.redirect_stdout(out),
        ):
            return cli.main(list(words)), out.getvalue()

    def test_check(self) -> None:
        """A call that no test reaches is told, and the status is 1."""
        want = "high: unread (crates/high/src/lib.rt): no test\n4 growing calls, 1 that no test reaches\n"
        self.assertEqual(self.told("--check"), (1, want))

    def build(self, error: str) -> None:
        """Makes the tests' program, whose test ends so where it is refused memory."""
        folder = self.root / "crates" / "tests_high" / "out"
        folder.mkdir(exist_ok=True)
        (folder / "tests.c").write_text(BUILT.replace("ERROR", error), encoding="utf-8")
        words = [compiler() or "cc", "-w", "-o", folder / "tests_high_tests", folder / "tests.c"]
        subprocess.run(words, check=True)

    @unittest.skipIf(compiler() is None, "no C compiler is there")
    def test_refuse(self) -> None:
        """Each allocation is refused, alone and with what follows; other ends than want of memory are told."""
        built = f"--built={self.root / 'crates'}"
        self.build("error: AllocError")
        status, told = self.told("--refuse", "--crate=low", built)
        ends = "1 tests, 2 of 2 allocations refused: 3 want of memory, 1 as with all memory"
        want = f"low: List::push: {ends}\nlow: made: {ends}\n{ends}; 2 growing calls, 0 of them in no test\n"
        self.assertEqual((status, told), (0, want))
        program = self.root / "crates" / "tests_high" / "out" / "tests_high_tests"
        with mock.patch.object(cli, "ready_tests", return_value=program) as ready:
            self.assertEqual(self.told("--refuse", "--crate=low"), (0, want))
        ready.assert_called_once_with(cli.NAME, "tests_high", cli.ROOT)
        self.build("assertion failed")
        status, told = self.told("--refuse", "--crate=low", built)
        self.assertEqual(status, 1)
        wrong = "with allocation 1 and all after it refused: status 101: assertion failed"
        self.assertIn(f"tests_high reads: 3 of 4 otherwise, {wrong}\n", told)
        status, told = self.told("--refuse", built)
        self.assertEqual(status, 1)
        self.assertIn("high: unread: no test that asks for memory\ntests_high reads: 3 of 4 otherwise", told)

    def test_nothing_built(self) -> None:
        """Without the tests' programs nothing is run."""
        with self.assertRaises(ToolFault):
            self.told("--refuse", f"--built={self.root / 'crates'}")


if __name__ == "__main__":
    unittest.main()
