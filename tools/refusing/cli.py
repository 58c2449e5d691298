"""The command line of short_memory."""

import tempfile
from pathlib import Path

from building.progress import Teller
from building.ready import ready_tests
from common.faults import FILES, WORDS, ToolFault
from common.parsing import Words
from common.printing import emit
from refusing.programs import Ends, Refusing, programs_in, shown, tests_of
from refusing.words import add_refusals
from sources.crates import ROOT, tested_crates

NAME = "short_memory"
ABOUT = """Runs the tests of a crate, or of all crates that have tests, with each of their allocations refused in turn,
alone and with all that follow it. A test that is refused memory may end for want of memory or as with all memory, and
in no other way. The tests are compiled without proofs and with checks of their steps, unless --built names others."""


def main(words: list[str]) -> int:
    """Tells how the tests ended; its status is 1 where one ended otherwise than well or for want of memory."""
    parser = Words(prog=NAME, description=ABOUT)
    parser.add_argument("crate", nargs="?", help="a crate's name (all crates that have tests)")
    parser.add_argument("module", nargs="?", default="", help="what the names of the tests begin with")
    add_refusals(parser)
    options = parser.parse_args(words)
    crates = tested_crates(ROOT)
    if options.crate not in (None, *crates):
        raise ToolFault(WORDS, f"no crate {options.crate} that has tests")
    chosen = [options.crate] if options.crate else crates
    with tempfile.TemporaryDirectory() as folder:
        refusing = Refusing(Path(folder), options.seconds, options.jobs)
        all_ends: list[Ends] = []
        for number, crate in enumerate(chosen, 1):
            program = program_of(crate, options.built)
            all_ends += refuse(crate, program, options.module, refusing, f"crate {number} of {len(chosen)}")
    if len(chosen) > 1:
        emit(f"all: {shown(all_ends)}\n")
    return 1 if any(ends.wrong() for ends in all_ends) else 0


def program_of(crate: str, built: Path | None) -> Path:
    """The program of a crate's tests: one that is built, or one of the sources that stand here."""
    if built is None:
        return ready_tests(NAME, crate, ROOT)
    programs = programs_in(built)
    if crate not in programs:
        raise ToolFault(FILES, f"no tests of {crate} are built in {built}: rt ci and rt test build them")
    return programs[crate]


def refuse(crate: str, program: Path, module: str, refusing: Refusing, at: str) -> list[Ends]:
    """Runs the tests of a crate, and tells how they ended."""
    tests = [test for test in tests_of(program) if test.startswith(module)]
    if not tests:
        raise ToolFault(WORDS, f"{crate} has no test whose name begins with {module}")
    with Teller(NAME).step(f"{at}, {crate}: {len(tests)} tests"):
        all_ends = list(refusing.all_ends((program, test) for test in tests))
    told = [line for ends in all_ends for line in ends.told(crate)]
    emit("".join(f"{line}\n" for line in [*told, f"{crate}: {shown(all_ends)}"]))
    return all_ends
