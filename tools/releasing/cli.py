"""The command line of release."""

import argparse
import os
import tempfile
from pathlib import Path

from building.kit import need_commands
from common.faults import FILES, ToolFault
from common.files import write_over
from common.parsing import Words
from releasing.archives import tar_gz, write_tree
from releasing.contents import PROOFS, Built, built_places, tree
from releasing.crate import crate_files
from releasing.debian import write_packages
from releasing.library import link
from releasing.proofs import proofs_text, read_proved
from releasing.python import write_wheel
from releasing.sources import check_clean, read_source
from releasing.sums import list_of, sum_of
from sources.crates import ROOT

NAME = "release"
ABOUT = """Makes in FOLDER, which is new or empty, all that is published of this version, of what tools/build and
tools/build_library proved of a tree without changes: an archive, four packages for Debian, a wheel, a crate for Rust,
PROOFS.txt, and SHA256SUMS. Two runs over one tree make the same files. tools/try_release tries them."""
COMMANDS = ("git", "gcc", "pkg-config", "strip", "dpkg-deb", "dpkg-shlibdeps")
SUMS = "SHA256SUMS"
SYSTEM = "x86_64-linux"


def main(words: list[str], root: Path = ROOT) -> int:
    """Makes a release."""
    parser = Words(prog=NAME, description=ABOUT, formatter_class=argparse.RawDescriptionHelpFormatter)
    parser.add_argument("folder", type=Path, metavar="FOLDER", help="where it is made")
    unproved = "of what tools/build --unproved and tools/build_library --unproved made; each name says so"
    parser.add_argument("--unproved", action="store_true", help=unproved)
    options = parser.parse_args(words)
    need_commands(*COMMANDS)
    made = make(options.folder.absolute(), root, is_proved=not options.unproved)
    for name in made:
        print(f"{(options.folder / name).stat().st_size:>9}  {name}")
    return 0


def make(folder: Path, root: Path, *, is_proved: bool) -> list[str]:
    """Makes all files, or none; their names."""
    if folder.exists() and (not folder.is_dir() or any(folder.iterdir())):
        raise ToolFault(FILES, f"{folder} is there, and not empty")
    source = read_source(root)
    if is_proved:
        check_clean(source)
    *programs, archive = built_places(root, is_proved)
    library = link(root, archive.file, is_last=is_proved)
    built = Built(root, {place.target.name: place for place in programs}, archive, library)
    proofs = proofs_text(built, source, read_proved(built))
    folder.parent.mkdir(parents=True, exist_ok=True)
    with tempfile.TemporaryDirectory(dir=folder.parent, prefix=f".{folder.name}-") as name:
        room = Path(name) / "made"
        room.mkdir()
        entries = tree(built, proofs, source.time)
        top = f"kuspveli-{built.name}-{SYSTEM}"
        write_over(room / f"{top}.tar.gz", tar_gz(top, entries, source.time))
        write_packages(room, built, source, entries, proofs)
        write_wheel(room, built, source.time)
        write_crate(room, built, source.time)
        write_over(room / PROOFS, proofs)
        names = files_below(room)
        write_over(room / SUMS, list_of({each: sum_of(room / each) for each in names}))
        os.replace(room, folder)
    return [*names, SUMS]


def write_crate(folder: Path, built: Built, time: int) -> None:
    """Writes the crate as a folder, and packed."""
    name, files = f"kuspveli-{built.name}-rust", crate_files(built)
    (folder / name).mkdir()
    write_tree(folder / name, files, time)
    write_over(folder / f"{name}.tar.gz", tar_gz(name, files, time))


def files_below(folder: Path) -> list[str]:
    return sorted(str(path.relative_to(folder)) for path in folder.rglob("*") if path.is_file())
