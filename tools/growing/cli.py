"""The command line of growing_calls."""

import re
import tempfile
from collections import defaultdict
from pathlib import Path

from building.ready import ready_tests
from common.faults import FILES, ToolFault
from common.parsing import Words
from growing.code import Function, all_functions, faults_of_memory
from growing.refused import Trials
from refusing.programs import Refusing, programs_in, shown
from refusing.words import add_refusals
from sources.crates import ROOT, all_needs, read_crates

NAME = "growing_calls"
ABOUT = """Lists the public calls that may ask for memory: those that take an allocator, and those whose error may be
want of memory. Beside each stand the tests from which it is reached, by the names that functions call: how many, and one
of them. With --refuse it runs these tests with each of their allocations refused in turn, compiled as short_memory does
it, unless --built names others."""


def is_growing(function: Function, faults: set[str]) -> bool:
    """Whether a call takes an allocator, or answers an error that may be want of memory."""
    if not function.is_public or function.is_test:
        return False
    failed = re.search(r"Result<.*[, (]\s*(?:\w+::)*(\w+)(?:<.*>)?\s*>$", function.answer, re.DOTALL)
    return re.search(r"\bGlobal\b", function.parameters) is not None or (failed is not None and failed[1] in faults)


class Reach:
    """Which tests reach which functions: a name in a body stands for each function of that name that the crate sees."""

    def __init__(self, functions: list[Function], root: Path = ROOT) -> None:
        crates = read_crates(root)
        self.seen = {crate: set(all_needs(crate, crates)) for crate in crates}
        self.by_name: dict[str, list[Function]] = defaultdict(list)
        for function in functions:
            self.by_name[function.name].append(function)
        self.tests: dict[Function, list[Function]] = defaultdict(list)
        for test in functions:
            if test.is_test:
                for reached in self.reached(test):
                    self.tests[reached].append(test)

    def reached(self, test: Function) -> set[Function]:
        """All functions that a test reaches."""
        met, waiting = {test}, [test]
        while waiting:
            function = waiting.pop()
            for called in self.called(function, test.crate):
                if called not in met:
                    met.add(called)
                    waiting.append(called)
        return met - {test}

    def called(self, function: Function, crate: str) -> list[Function]:
        """The functions that a body may call in a test of a crate."""
        return [
            called
            for before, name in function.names
            for called in self.by_name.get(name, ())
            if called.crate in self.seen[crate] and not called.is_test and self.is_meant(function, before, called)
        ]

    def is_meant(self, function: Function, before: str, called: Function) -> bool:
        """Whether a name in a body, with what stands before it, may be a function.

        A method is called by a point, by its type or by a type parameter, also where its crate is above, by a trait;
        another function by its name alone where it is of the same file or imported, or by its module.
        """
        if called.owner:
            own = before == "Self" and function.owner == called.owner
            return before in (".", called.owner) or own or len(before) == 1
        if before == "":
            return function.path == called.path or self.is_imported(function, called)
        return before in (called.path.split("/")[-1].removesuffix(".rt"), called.crate)

    def is_imported(self, function: Function, called: Function) -> bool:
        """Whether a file imports a function: from its crate, or from one that has none of this name and passes it on."""
        sources = [source for source, name in function.used if name == called.name]
        own = {each.crate for each in self.by_name[called.name] if not each.owner}
        return any(source == called.crate or source not in own for source in sources)


def main(words: list[str]) -> int:
    """Prints the list; with --check the status is 1 where no test reaches a call."""
    parser = Words(prog=NAME, description=ABOUT)
    parser.add_argument("--check", action="store_true", help="print the calls that no test reaches; the status is 1 for one")
    parser.add_argument("--crate", metavar="NAME", help="the calls of one crate")
    parser.add_argument("--refuse", action="store_true", help="run the tests; the status is 1 for a wrong answer")
    add_refusals(parser)
    options = parser.parse_args(words)
    functions = all_functions()
    faults = faults_of_memory()
    reach = Reach(functions)
    growing = [each for each in functions if is_growing(each, faults) and not each.crate.startswith("tests_")]
    unreached = [each for each in growing if not reach.tests[each]]
    if options.refuse:
        chosen = [each for each in growing if options.crate in (None, each.crate)]
        programs = programs_of(chosen, reach, options.built)
        with tempfile.TemporaryDirectory() as folder:
            return refuse(chosen, reach, Trials(programs, Refusing(Path(folder), options.seconds, options.jobs)))
    for function in unreached if options.check else growing:
        if options.crate in (None, function.crate):
            print(line(function, reach.tests[function]))
    print(f"{len(growing)} growing calls, {len(unreached)} that no test reaches")
    return 1 if options.check and unreached else 0


def programs_of(growing: list[Function], reach: Reach, built: Path | None) -> dict[str, Path]:
    """The programs of the tests, by their crates: those that are built, or those of the sources that stand here."""
    if built is None:
        crates = {test.crate for function in growing for test in reach.tests[function]}
        return {crate: ready_tests(NAME, crate, ROOT) for crate in sorted(crates)}
    programs = programs_in(built)
    if not programs:
        raise ToolFault(FILES, f"no tests are built in {built}: rt ci and rt test build them")
    return programs


def refuse(growing: list[Function], reach: Reach, trials: Trials) -> int:
    """Runs the tests of each call with their allocations refused; the status is 1 where an answer is wrong."""
    trials.run(test for function in growing for test in reach.tests[function])
    unasked = 0
    for function in growing:
        ends = trials.of_tests(reach.tests[function])
        unasked += not ends
        print(f"{function.shown()}: {shown(ends) if ends else 'no test that asks for memory'}")
    for told in trials.told():
        print(told)
    all_ends = list(trials.ends.values())
    print(f"{shown(all_ends)}; {len(growing)} growing calls, {unasked} of them in no test")
    return 1 if unasked or any(ends.wrong() for ends in all_ends) else 0


def line(function: Function, tests: list[Function]) -> str:
    """A call with its tests: how many of which crates, and one that reaches it."""
    if not tests:
        return f"{function.shown()} ({function.path}): no test"
    crates = sorted({test.crate for test in tests})
    first = min(tests, key=lambda test: (test.crate != function.crate, test.path, test.name))
    return f"{function.shown()} ({function.path}): {len(tests)} in {', '.join(crates)}, as {first.crate} {first.name}"
