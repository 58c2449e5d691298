"""What build and build_library share: their words, and building where it is not done yet."""

import argparse
import contextlib
import sys
from typing import Any, Callable, Sequence

from building.gate import Failure
from building.kit import Kit, find_kit
from building.places import Place, lines_of
from building.progress import Teller, end_by_exit
from building.unproved import make_unproved
from common.parsing import Words

# Makes proved targets: with the kit, how many checks at once, who tells, and a file that is locked meanwhile.
Make = Callable[[list[Place], Kit, int | None, Teller, int], Failure | None]


class BuildWords(Words):
    """A parser whose faults name the help."""

    def error(self, message: str) -> Any:
        super().error(f"{message} (tools/{self.prog} --help)")


def read_words(
    name: str, about: str, examples: str, words: list[str], programs: Sequence[str] = ()
) -> argparse.Namespace:
    """The words of a build, which may name some of these programs."""
    layout = argparse.RawDescriptionHelpFormatter
    parser = BuildWords(prog=name, description=about, epilog=examples, formatter_class=layout)
    if programs:
        listed = ", ".join(programs)
        parser.add_argument("programs", nargs="*", metavar="PROGRAM", help=f"{listed} (all of these without it)")
    jobs = "how many checks run at once, whatever memory is free (as many as processors and memory allow)"
    parser.add_argument("--jobs", type=positive, metavar="N", help=jobs)
    parser.add_argument("--unproved", action="store_true", help="compile without proofs, into out/unproved")
    measured = "with --unproved: as if it were proved, into out/measured, to count its instructions alone"
    parser.add_argument("--measured", action="store_true", help=measured)
    parser.add_argument("--list", action="store_true", help="build nothing, and list what would be built")
    options = parser.parse_args(words)
    for program in options.programs if programs else ():
        if program not in programs:
            parser.error(f"{program}: no program; {listed} are programs")
    if options.unproved and options.jobs:
        parser.error("--jobs: nothing is proved with --unproved")
    if options.measured and not options.unproved:
        parser.error("--measured: what is proved is measured as it is; it is for --unproved")
    return options


def positive(text: str) -> int:
    if not (text.isascii() and text.isdigit() and int(text)):
        raise argparse.ArgumentTypeError(f"no number above 0: {text!r}")
    return int(text)


def list_crates(places: list[Place]) -> int:
    lines = lines_of(places)
    for line in lines.values():
        print(line)
    print(f"{len(lines)} crates")
    return 0


def build(name: str, places: list[Place], jobs: int | None, make: Make) -> int:
    """Builds what stands there of other sources; its status is 1 where a crate did not pass."""
    kit, teller = find_kit(), Teller(name)
    waiting = [place for place in places if not place.is_built(kit.line)]
    if waiting:
        end_by_exit()
        failure = make_new(waiting, kit, jobs, teller, make)
        if failure is not None:
            return tell_failure(name, waiting[0], failure)
        teller.line(f"done in {teller.clock()}")
    for path in (path for place in places for path in place.files):
        print(f"built {path.relative_to(places[0].root)}")
    if not places[0].is_proved:
        teller.line(f"unproved: no proof was checked ({places[0].target.tool} proves it)")
    return 0


def make_new(waiting: list[Place], kit: Kit, jobs: int | None, teller: Teller, make: Make) -> Failure | None:
    """Makes what was not built: the proved ones by one gate over all their crates, the others one after another."""
    if not waiting[0].is_proved:
        failures = (make_unproved(place, teller) for place in waiting)
        return next((failure for failure in failures if failure is not None), None)
    with contextlib.ExitStack() as stack:
        held = [stack.enter_context(place.alone(teller.tool)) for place in waiting]
        # Another build may have ended meanwhile.
        left = [place for place in waiting if not place.is_built(kit.line)]
        return make(left, kit, jobs, teller, held[0]) if left else None


def tell_failure(name: str, place: Place, failure: Failure) -> int:
    print(failure.tail(), file=sys.stderr)
    what = f"{failure.name} did not pass" if failure.name else "rt ci did not pass"
    print(f"{name}: {what}, so nothing was built: see {place.log.relative_to(place.root)}", file=sys.stderr)
    return 1
