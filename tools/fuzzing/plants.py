"""Bugs that are planted into copies of the sources, one line each, which --in-process has to find."""

import argparse
import tempfile
from dataclasses import dataclass
from itertools import count
from pathlib import Path

from building.places import TRIALS, Place
from building.ready import make
from building.tree import lay_tree
from common.faults import FILES, ToolFault
from common.files import write_over
from common.printing import emit
from fuzzing.in_process import NAME, run_block
from fuzzing.streams import CASES
from sources.crates import ROOT

# A bug that isn't found in so many cases is not found.
MOST = 1_000_000


@dataclass(frozen=True)
class Plant:
    """A file with a text that stands there once, and the one that takes its place."""

    file: str
    old: str
    new: str


PLANTS = {
    # The last glyph that a ligature replaces keeps its cluster from the others.
    "merge": Plant(
        "crates/buffer_lists/src/replacement.rt",
        "merge_input(glyphs, front, from, 0, count, level, known);\n    let end = put_handed",
        "merge_input(glyphs, front, from, 0, count.saturating_sub(1), level, known);\n    let end = put_handed",
    ),
    # A glyph after another one of its cluster keeps flags of its own.
    "flag": Plant(
        "crates/buffer_lists/src/flags.rt",
        "Some(glyph) if glyph.cluster == cluster => glyph.mask & DEFINED,",
        "Some(glyph) if glyph.cluster == cluster => glyphs[0].mask & DEFINED,",
    ),
    # The plan that serves one text alone has none of the features that are requested.
    "plan": Plant(
        "crates/shape_pipeline/src/shaping.rt",
        "features,\n    ) {\n        Ok(plan) => plan,\n        Err(_) => return Err(fault(",
        "&[],\n    ) {\n        Ok(plan) => plan,\n        Err(_) => return Err(fault(",
    ),
    # At one level a mark whose advance is zeroed isn't shifted back by it.
    "level": Plant(
        "crates/shape_pipeline/src/shape_stages.rt",
        "let adjusts = self.adjusts_marks(buffer.direction());\n        zero_mark",
        "let adjusts = self.adjusts_marks(buffer.direction())"
        " && buffer.cluster_level() != buffer_glyphs::level::BufferClusterLevel::Characters;\n        zero_mark",
    ),
    # A single substitution gives the glyph after the substitute, for the font's last one none of its glyphs.
    "number": Plant(
        "crates/layout_gsub/src/single.rt",
        "Some(glyph) => replace_glyph(ctx, glyph, buffer),",
        "Some(glyph) => replace_glyph(ctx, glyph.saturating_add(1), buffer),",
    ),
    # Glyphs that leave the list don't hand on that they are unsafe to break.
    "break": Plant(
        "crates/buffer_lists/src/handing.rt",
        "Some(cluster) => unsafe_flags(deleted, cluster),",
        "Some(cluster) => unsafe_flags(deleted, cluster) & 6,",
    ),
}


def run_plant(options: argparse.Namespace) -> int:
    """Compiles the sources with a planted bug, and runs cases until one is wrong; the status is 1 where none is."""
    with tempfile.TemporaryDirectory(prefix=f"planted-{options.plant}-") as folder:
        program = planted(Path(folder), options.plant)
        for number in count():
            if number * CASES >= (options.cases or MOST):
                break
            wrong = run_block(program, options.seed, number).wrong
            if wrong:
                told, _, case = wrong[0].rpartition(": tools/fuzz --in-process ")
                emit(f"{options.plant}: found by case {case.rpartition('=')[2]}: {told}\n")
                return 0
    emit(f"{options.plant}: not found in {number * CASES:,} cases\n")
    return 1


def planted(folder: Path, name: str) -> Path:
    """The program of the sources with a planted bug."""
    tree = folder / "tree"
    lay_tree(ROOT, tree, Place(TRIALS, False, ROOT).lines())
    plant(tree, name)
    place = Place(TRIALS, False, tree)
    make(place, NAME, f"compiling shape_trials with the planted bug {name}, without proofs")
    return place.file


def plant(tree: Path, name: str) -> None:
    """Plants a bug into a copy of the sources."""
    bug = PLANTS[name]
    text = (tree / bug.file).read_text(encoding="utf-8")
    if text.count(bug.old) != 1:
        raise ToolFault(FILES, f"{bug.file} has no place for the bug {name}")
    write_over(tree / bug.file, text.replace(bug.old, bug.new))
