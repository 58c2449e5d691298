"""The command line of build_library."""

import os
import tempfile
from pathlib import Path

from building.command import build, list_crates, read_words
from building.gate import Failure, run_gate
from building.kit import Kit, need_commands
from building.libraries import build_archive
from building.linking import link_library
from building.places import LIBRARY, Place
from building.progress import Teller
from building.tree import lay_tree, new_tree, stamp_of
from sources.crates import ROOT

NAME = "build_library"
ABOUT = """Proves and builds the library for C, out/libkuspveli.a and out/libkuspveli.so, which include/kuspveli.h
declares: all crates by rt ci, as tools/build does, then the archive over the libraries that the gate has left. It may
be stopped at any time, and goes on where it was. Both files have the calls of the header alone as their symbols, and
need nothing but the C library. What is built of the same sources is left as it is. With --unproved the same sources
are compiled in minutes without any proof, to out/unproved."""
EXAMPLES = """examples:
  tools/build_library              all that is not built yet
  tools/build_library --unproved   a library without its proofs, in minutes"""


def main(words: list[str], root: Path = ROOT) -> int:
    """Builds; its status is 1 where a crate did not pass."""
    options = read_words(NAME, ABOUT, EXAMPLES, words)
    place = Place(LIBRARY, not options.unproved, root, options.measured)
    if options.list:
        return list_crates([place])
    need_commands("rt", "gcc", "ld", "objcopy", "ar")
    return build(NAME, [place], options.jobs, make_proved)


def make_proved(places: list[Place], kit: Kit, jobs: int | None, teller: Teller, held: int) -> Failure | None:
    """Proves the crates by the gate, and builds over the libraries that it leaves."""
    [place] = places
    root, lines, crate = place.root, place.lines(), place.target.crate
    with new_tree(place.tree_note, crate) as tree:
        lay_tree(root, tree, lines)
        failure = run_gate(root, tree, place.log, held, jobs, teller)
        if failure is not None:
            return failure
        with tempfile.TemporaryDirectory(dir=tree) as name:
            room = Path(name)
            made = room / f"lib{crate}.a"
            with teller.step(f"building the archive over these {len(lines)} crates"):
                failure = build_archive(kit, tree, root, crate, made, place.log, jobs)
            if failure is None:
                for path in link_library(kit, made, room):
                    os.replace(path, place.folder / path.name)
                place.write_stamp(stamp_of(tree, lines, kit.line), kit.line)
    return failure
