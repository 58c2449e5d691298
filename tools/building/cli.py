"""The command line of build."""

import os
import shutil
import time
from pathlib import Path

from building.command import build, list_crates, read_words
from building.gate import Failure, run_gate
from building.kit import Kit
from building.places import PROGRAMS, Place, lines_of
from building.progress import Teller
from building.tree import lay_tree, new_tree, stamp_of
from common.faults import FILES, ToolFault
from common.files import faults_of
from sources.crates import ROOT

NAME = "build"
ABOUT = """Proves and builds the programs, out/hb_shape and out/kuspveli, and all that they are built on, by one rt ci
over a copy of these crates alone. It may be stopped at any time: each crate that passed is kept by the kit, and the
next build, or rt ci, goes on from there. A program that is built of the same sources is left as it is; one that is
there stays until the new one is built. With --unproved the same sources are compiled in minutes without any proof, to
out/unproved."""
EXAMPLES = """examples:
  tools/build                 all that is not built yet
  tools/build kuspveli        kuspveli alone
  tools/build --unproved      the programs without their proofs, in minutes
  tools/build --jobs 2        with two checks at once
  tools/build --list          the crates that the programs are built on, as crates.txt has them"""


def main(words: list[str], root: Path = ROOT) -> int:
    """Builds; its status is 1 where a crate did not pass."""
    options = read_words(NAME, ABOUT, EXAMPLES, words, [target.name for target in PROGRAMS])
    wanted = [target for target in PROGRAMS if target.name in options.programs or not options.programs]
    places = [Place(target, not options.unproved, root, options.measured) for target in wanted]
    return list_crates(places) if options.list else build(NAME, places, options.jobs, make_proved)


def make_proved(places: list[Place], kit: Kit, jobs: int | None, teller: Teller, held: int) -> Failure | None:
    """Proves the crates, and takes the programs that the gate built; their time is that at which the sources were read."""
    first, lines, begun = places[0], lines_of(places), time.time()
    root = first.root
    with new_tree(first.tree_note, first.target.crate) as tree:
        lay_tree(root, tree, lines)
        failure = run_gate(root, tree, first.log, held, jobs, teller)
        if failure is None:
            for place in places:
                take_program(place, tree, kit, begun, first.log)
    return failure


def take_program(place: Place, tree: Path, kit: Kit, begun: float, log: Path) -> None:
    """Puts a program that the gate built in its place."""
    crate = place.target.crate
    made = tree / "crates" / crate / "out" / crate
    if not made.is_file():
        raise ToolFault(FILES, f"rt ci passed and built no {crate}: see {log.relative_to(place.root)}")
    new = place.file.with_suffix(".new")
    with faults_of(place.file):
        shutil.copy(made, new)
        os.utime(new, (begun, begun))
        os.replace(new, place.file)
        if place.log != log:
            shutil.copyfile(log, place.log)
    place.write_stamp(stamp_of(tree, place.lines(), kit.line), kit.line)
