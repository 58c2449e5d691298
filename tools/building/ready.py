"""The program or the library, there before it is used: no build of an hour is started for that unasked."""

import os
import sys
from pathlib import Path

from building.places import BUILD, PROGRAM, TRIALS, UNPROVED, Place, Target, tests_target
from building.progress import Teller
from common.faults import FILES, ToolFault
from common.printing import tell
from sources.crates import ROOT

# The gate builds what tools/build leaves out.
GATE = "rt ci"
# A variable of the environment with which no program is made for a use, so that a run of tests doesn't wait for one.
NO_BUILD = "KUSPVELI_NO_BUILD"


def is_ready(target: Target = PROGRAM, root: Path = ROOT) -> bool:
    """Whether a program of the sources that stand here is there."""
    return any(Place(target, is_proved, root).is_current() for is_proved in (True, False))


def ready_program(name: str, root: Path = ROOT, target: Target = PROGRAM) -> Path:
    """A program of the sources that stand here."""
    return ready_place(name, target, root).file


def ready_place(name: str, target: Target, root: Path = ROOT) -> Place:
    """Where a target stands that was built of the sources that stand here: the proved one, else the unproved one, which is
    made where there is none of these sources, and told under the name of the tool that uses it."""
    proved = Place(target, True, root)
    return proved if proved.is_current() else unproved_place(name, target, why_not(proved), root)


def unproved_place(name: str, target: Target, why: str, root: Path = ROOT) -> Place:
    """Where an unproved target of the sources that stand here stands, and why no proved one is used."""
    unproved = Place(target, False, root)
    if not unproved.is_current():
        make(unproved, name, f"{why}: making one without proofs, in some minutes ({target.tool} makes the proved one)")
    tell_unproved(name, target.name, target.tool)
    return unproved


def ready_trials(name: str, root: Path = ROOT) -> Path:
    """The program shape_trials of the sources that stand here, which is made without proofs where there is none."""
    place = Place(TRIALS, False, root)
    if not place.is_current():
        make(place, name, f"{TRIALS.name} of these sources is not built: making it without proofs, in some minutes")
    return place.file


def ready_tests(name: str, crate: str, root: Path = ROOT) -> Path:
    """The program of a crate's tests, of the sources that stand here, made without proofs where there is none."""
    place = Place(tests_target(crate), False, root)
    if not place.is_current():
        make(place, name, f"the tests of {crate} of these sources are not built: making them without proofs")
    return place.file


def make(place: Place, name: str, why: str) -> None:
    """Makes an unproved program, and tells why under the name of the tool that runs it."""
    from building.unproved import make_unproved  # few runs need it

    if os.environ.get(NO_BUILD) and place.root == ROOT:
        raise ToolFault(FILES, f"{place.target.name} is not built, and {NO_BUILD} is set")
    teller = Teller(name)
    teller.line(why)
    failure = make_unproved(place, teller)
    if failure is not None:
        print(failure.tail(), file=sys.stderr)
        raise ToolFault(FILES, f"{failure.name} was not compiled, so there is no {place.target.kind} to run")


def why_not(proved: Place) -> str:
    """Why what is proved isn't used."""
    target = proved.target
    if not proved.file.is_file():
        return f"no proved {target.kind} is built"
    if proved.stamp() is None:
        return f"{proved.file} has no stamp of {target.tool}, so nothing says what it was built of"
    return f"the sources are others than those of the proved {target.kind}"


def usable(name: str, program: Path) -> Path:
    """A program that is there; one that was compiled without proofs is told under the name of the tool that runs it."""
    if not os.access(program, os.X_OK):
        raise ToolFault(FILES, f"{program} is not there: {BUILD} builds it")
    if program.parent.name == UNPROVED:
        tell_unproved(name, program.name, GATE if program.name == TRIALS.name else BUILD)
    return program


def tell_unproved(name: str, made: str, tool: str) -> None:
    tell(name, f"{made} is unproved: no proof was checked ({tool} proves it)")
