"""The command line of install."""

import argparse
import shutil
import sys
from pathlib import Path

from building.places import KUSPVELI, LIBRARY, PROGRAM, Place
from building.progress import end_by_exit
from common.faults import FILES, ToolFault
from common.parsing import Words
from common.plan import Entries
from common.printing import tell
from common.version import soname, version
from installing.layout import COMMANDS, check_prefix, layout
from installing.placing import SUMS, place_all, remove_all
from preload.shared_object import NEEDS, OBJECT
from sources.crates import ROOT

NAME = "install"
ABOUT = f"""Puts below PREFIX what is built: the commands {', '.join((KUSPVELI.name, *COMMANDS))}
into bin, the library for C into lib, include and lib/pkgconfig, and programs, tools and tables into lib/kuspveli. A
file that is there and that it did not put there is refused, and then nothing is changed; done again it replaces what
it put there before. {SUMS} has what it put there with its sums, and --uninstall removes
exactly that. It takes gcc, for a shared library with a version; kuspveli-instead also pkg-config and libharfbuzz-dev."""


def main(words: list[str]) -> int:
    """Installs; its status is 1 where --uninstall left a file that was changed."""
    parser = Words(prog=NAME, description=ABOUT, formatter_class=argparse.RawDescriptionHelpFormatter)
    parser.add_argument("prefix", type=Path, metavar="PREFIX", help="a folder, as /usr/local or ~/.local")
    unproved = "install what tools/build --unproved and tools/build_library --unproved made"
    parser.add_argument("--unproved", action="store_true", help=unproved)
    parser.add_argument("--uninstall", action="store_true", help="remove what was installed below PREFIX")
    options = parser.parse_args(words)
    prefix = options.prefix.absolute()
    end_by_exit()
    if options.uninstall:
        return uninstall(prefix)
    check_prefix(prefix)
    if not shutil.which("gcc"):
        raise ToolFault(FILES, "the command gcc is not on the path, and no shared library is linked without it")
    places = [Place(target, not options.unproved, ROOT) for target in (PROGRAM, LIBRARY, KUSPVELI)]
    for place in places:
        check_built(place)
    entries = layout(ROOT, prefix, *places)
    changed = put_entries(prefix, entries)
    how = "unproved, and its uses say so" if options.unproved else "proved"
    print(f"{len(entries)} files stand below {prefix} ({how}); {changed} of them changed")
    library = prefix / "lib" / soname(version())
    print(f"what is linked to {library} finds it after ldconfig, run by root, or by LD_LIBRARY_PATH={library.parent}")
    if not any(name.endswith(OBJECT) for name in entries):
        tell(NAME, f"kuspveli-instead has no {OBJECT}: {NEEDS}")
    return 0


def put_entries(prefix: Path, entries: Entries) -> int:
    """Puts the entries there. What a run wrote before it failed stands in its list."""
    try:
        return place_all(prefix, entries)
    except OSError as error:
        error.strerror = f"{error.strerror or error}; {NAME} run again completes it, --uninstall takes away what it wrote"
        raise


def check_built(place: Place) -> None:
    """Refuses what is not built, or not of the sources that stand here."""
    word = "" if place.is_proved else " --unproved"
    if place.stamp() is None:
        unproved = " (install --unproved takes one without proofs)" if place.is_proved else ""
        raise ToolFault(FILES, f"{place.target.name} is not built: {place.target.tool}{word} builds it{unproved}")
    if not place.is_current():
        raise ToolFault(
            FILES, f"{place.target.name} is built of older sources: {place.target.tool}{word} builds it anew"
        )


def uninstall(prefix: Path) -> int:
    removed, left = remove_all(prefix)
    for path in left:
        print(f"{NAME}: left, since it was changed: {path}", file=sys.stderr)
    print(f"{removed} files were removed below {prefix}")
    return 1 if left else 0
