"""The command line of must_fail."""

import argparse
import contextlib
import shutil
import signal
import subprocess
import sys
from pathlib import Path
from typing import Iterator

from common.faults import DATA, FILES, ToolFault
from common.files import faults_of
from common.parsing import Words
from sources.crates import ROOT

NAME = "must_fail"
# Edits of a crate NAME stand in edits/NAME; the gate tries those in crates/NAME/must-fail.
KEPT = "edits"
TRIED = "must-fail"
ABOUT = """Tries the edits of edits/CRATE, which the prover must refuse as it does those in the crate's must-fail: by rt
must-fail, over the libraries that are built in this clone, and what is not built is proved first. The gate leaves these
edits out, since each crate that has edits costs it one more check. They stand in the crate's must-fail while they are
tried, and its own are tried with them."""


def main(words: list[str]) -> int:
    """Tries the edits; its status is 1 where one was not refused."""
    parser = Words(prog=NAME, description=ABOUT, formatter_class=argparse.RawDescriptionHelpFormatter)
    parser.add_argument("crates", nargs="*", metavar="CRATE", help="the crates whose edits are tried (all that have some)")
    parser.add_argument("--list", action="store_true", help="try nothing, and list the edits")
    options = parser.parse_args(words)
    chosen = chosen_edits(options.crates)
    if options.list:
        for edit in [edit for edits in chosen.values() for edit in edits]:
            print(edit.relative_to(ROOT))
        return 0
    if shutil.which("rt") is None:
        raise ToolFault(FILES, "the Rattle kit's command rt is not on the path, and nothing is tried without it")
    signal.signal(signal.SIGTERM, lambda *_: sys.exit(143))
    return max([try_edits(crate, edits) for crate, edits in chosen.items()], default=0)


def chosen_edits(crates: list[str]) -> dict[str, list[Path]]:
    """The edits of each crate that is named, of all where none is."""
    folder = ROOT / KEPT
    there = {path.name: sorted(path.glob("*.edit")) for path in sorted(folder.iterdir())} if folder.is_dir() else {}
    for crate in crates:
        if crate not in there:
            raise ToolFault(DATA, f"{KEPT} has no folder {crate}")
    return {crate: edits for crate, edits in there.items() if not crates or crate in crates}


def try_edits(crate: str, edits: list[Path]) -> int:
    with laid(crate, edits):
        ran = subprocess.run(["rt", "must-fail", crate], cwd=ROOT, stdin=subprocess.DEVNULL, check=False)
    return 1 if ran.returncode else 0


@contextlib.contextmanager
def laid(crate: str, edits: list[Path]) -> Iterator[None]:
    """Puts copies of the edits where rt tries them, and takes these away again."""
    folder = ROOT / "crates" / crate / TRIED
    has_own = folder.is_dir()
    copies = [folder / edit.name for edit in edits]
    for copy in copies:
        if copy.exists():
            raise ToolFault(DATA, f"{copy.relative_to(ROOT)} is there already: an edit stands in one of the two folders")
    try:
        folder.mkdir(exist_ok=True)
        for edit, copy in zip(edits, copies, strict=True):
            with faults_of(copy):
                shutil.copyfile(edit, copy)
        yield
    finally:
        for copy in copies:
            copy.unlink(missing_ok=True)
        if not has_own:
            folder.rmdir()
