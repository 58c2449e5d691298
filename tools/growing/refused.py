"""The tests of growing calls, run as they were built with each allocation refused in turn."""

from pathlib import Path, PurePosixPath
from typing import Iterable, Iterator

from growing.code import Function
from refusing.programs import Ends, Refusing, tests_of


def built_names(test: Function, names: list[str]) -> list[str]:
    """Under which of a program's names a test may have been built: its file is a module, or a module is in its file."""
    parts = PurePosixPath(test.path).with_suffix("").parts[3:]
    module = [] if parts in (("lib",), ("main",)) else list(parts)
    wanted = {"::".join([*module, test.name]), "::".join([*module, "tests", test.name])}
    return [name for name in names if name in wanted]


class Trials:
    """The tests that were built, in a program for each crate, and how those ended that were run."""

    def __init__(self, programs: dict[str, Path], refusing: Refusing) -> None:
        self.refusing = refusing
        self.programs = programs
        self.names = {crate: tests_of(program) for crate, program in programs.items()}
        self.ends: dict[tuple[str, str], Ends] = {}

    def built(self, tests: Iterable[Function]) -> list[tuple[str, str]]:
        """The crates and names of those tests that were built."""
        found = ((test.crate, name) for test in tests for name in built_names(test, self.names.get(test.crate, [])))
        return list(dict.fromkeys(found))

    def run(self, tests: Iterable[Function]) -> None:
        """Runs those tests that were built."""
        built = self.built(tests)
        self.ends = dict(zip(built, self.refusing.all_ends((self.programs[crate], name) for crate, name in built)))

    def of_tests(self, tests: list[Function]) -> list[Ends]:
        """How the tests ended that were run and ask for memory."""
        return [self.ends[test] for test in self.built(tests) if self.ends[test].allocations]

    def told(self) -> Iterator[str]:
        """The tests that ended otherwise than well or for want of memory, and those of which a sample was taken."""
        for (crate, _), ends in self.ends.items():
            yield from ends.told(crate)
