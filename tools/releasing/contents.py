"""What a release has: the one list of its programs, commands and documents, and the tree that they make below a prefix."""

import gzip
import json
import os
import subprocess
import tempfile
from dataclasses import dataclass
from datetime import datetime, timezone
from functools import cache
from pathlib import Path

from building import places
from building.linking import call
from building.places import LIBRARY, PROGRAM, Place, Target
from common.faults import FILES, ToolFault
from common.plan import Entry
from common.version import version
from installing.layout import COMMANDS, OWN, layout
from preload.shared_object import NEEDS, OBJECT, can_make, object_over
from releasing.library import Library
from releasing.sums import sum_of_bytes

# The programs, by the names of their targets, each with the command that it is itself; without one a tool's command runs
# it. A program that isn't built is left out.
PROGRAMS = {"hb_shape": None, "kuspveli": "kuspveli"}
# Each command in a line, for its manual page.
ABOUT = {
    "kuspveli": "shapes a text in a font file",
    "kuspveli-shape": "shapes a text in a font file, and draws it",
    "kuspveli-hb-shape": "shapes a text in a font that is JSON",
    "kuspveli-instead": "runs a program that uses HarfBuzz, with Kuspveli in its place",
    "kuspveli-font-to-json": "writes a font file as JSON",
    "kuspveli-unicode-to-json": "writes the Unicode Character Database as JSON",
}
DOCUMENTS = (
    "README.md", "CHANGELOG.md", "SECURITY.md", "LICENSE", "data/LICENSE.txt", "docs/API.md", "docs/CONTRACTS.md",
    "docs/DIFFERENCES.md", "docs/SPEED.md", "docs/THEOREM.md", "docs/TOOLS.md", "docs/pictures/office.svg",
    "docs/pictures/shakti.svg", "docs/pictures/speed.svg",
)  # fmt: skip
EXAMPLES = ("font.json", "ligature_font.json", "ligature_text.txt", "paragraph.c", "paragraph.py", "tables.json")
DOC, MAN = "share/doc/kuspveli", "share/man/man1"
TABLES = "data/tables.json"
PROOFS = "PROOFS.txt"


@dataclass(frozen=True)
class Built:
    """What is built of the sources that stand here: the programs by the names of their targets, and the library."""

    root: Path
    programs: dict[str, Place]
    archive: Place
    library: Library

    @property
    def is_proved(self) -> bool:
        return self.archive.is_proved

    @property
    def places(self) -> list[Place]:
        return [*self.programs.values(), self.archive]

    @property
    def name(self) -> str:
        """The version, as files and packages have it."""
        return release_version(self.is_proved)

    @property
    def tables(self) -> bytes:
        return (self.root / TABLES).read_bytes()

    @property
    def licences(self) -> bytes:
        """That of the code, and that of the tables."""
        return b"\n".join((self.root / name).read_bytes() for name in ("LICENSE", "data/LICENSE.txt"))


def release_version(is_proved: bool) -> str:
    """The version, which says of what was not proved that it was not, in a form that Python and Rust have for it."""
    return version() if is_proved else f"{version()}+unproved"


def targets() -> list[Target]:
    """The targets of the programs that the list has."""
    known = {each.name: each for each in vars(places).values() if isinstance(each, Target)}
    return [known[name] for name in PROGRAMS if name in known]


def built_places(root: Path, is_proved: bool) -> list[Place]:
    """Where the programs and the library stand. Each has to be built of the sources that stand here; a program that is not
    built at all is left out, but for the first one."""
    found = [Place(target, is_proved, root) for target in targets()]
    found = [place for place in found if place.file.is_file() or place.target == PROGRAM]
    for place in (*found, Place(LIBRARY, is_proved, root)):
        check_built(place)
    return [*found, Place(LIBRARY, is_proved, root)]


def check_built(place: Place) -> None:
    stamp, word = place.stamp(), "" if place.is_proved else " --unproved"
    if stamp is None or not place.is_built(stamp.kit):
        what = "is not built" if stamp is None else "is built of older sources"
        raise ToolFault(FILES, f"{place.target.name} {what}: {place.target.tool}{word} builds it")


# ---- the tree


def tree(built: Built, proofs: str, time: int) -> dict[str, Entry]:
    """All files and links below a prefix, by their paths."""
    own = [place for name, place in built.programs.items() if own_command(name)]
    laid = layout(built.root, Path("/usr"), built.programs[PROGRAM.name], built.archive, *own)
    entries = {name: entry for name, entry in laid.items() if not name.startswith("lib/") or name.startswith(f"{OWN}/")}
    entries |= library_files("lib", built) | documents(built, proofs) | manuals(built, time)
    entries["lib/pkgconfig/kuspveli.pc"] = Entry(pkg_config("${pcfiledir}/../..", "lib", f"{OWN}/{TABLES}", built).encode())
    for place in built.programs.values():
        entries |= program_files(built.root, place)
    return entries | shared_object(built)


def own_command(name: str) -> str | None:
    """The command that a program is itself."""
    command = PROGRAMS[name]
    return None if command in COMMANDS else command


def library_files(folder: str, built: Built) -> dict[str, Entry]:
    """The archive, the shared library under its whole version, and the links by which it is loaded and linked."""
    shared = built.library
    return {
        f"{folder}/libkuspveli.a": Entry(built.archive.file.read_bytes()),
        f"{folder}/{shared.file}": Entry(shared.text),
        f"{folder}/{shared.soname}": Entry(link=shared.file),
        f"{folder}/libkuspveli.so": Entry(link=shared.soname),
    }


def shared_object(built: Built) -> dict[str, Entry]:
    """The shared object of kuspveli-instead, without its symbols."""
    if not can_make():
        raise ToolFault(FILES, f"{OBJECT} can't be made: {NEEDS}")
    made = object_over(built.archive)
    return {f"{OWN}/{made.relative_to(built.root)}": Entry(stripped(made), 0o644)}


def program_files(root: Path, place: Place) -> dict[str, Entry]:
    """A program without its symbols, and its stamp, which has the sum of what stands there now."""
    text = stripped(place.file)
    stamp = json.loads(place.stamp_file.read_text(encoding="utf-8"))
    stamp["made"] = {place.file.name: sum_of_bytes(text)}
    own = place.folder.relative_to(root)
    return {
        f"{OWN}/{own}/{place.file.name}": Entry(text, 0o755),
        f"{OWN}/{own}/{place.stamp_file.name}": Entry(f"{json.dumps(stamp, indent=1)}\n".encode()),
    }


@cache
def stripped(path: Path) -> bytes:
    """A program or a shared object without its symbols."""
    with tempfile.TemporaryDirectory() as folder:
        made = Path(folder) / path.name
        call("strip", "--remove-section=.comment", "--remove-section=.note", "-o", made, path)
        return made.read_bytes()


def documents(built: Built, proofs: str) -> dict[str, Entry]:
    """What is read, where the links in it lead: as in the repository, below a folder of its own."""
    names = (*DOCUMENTS, *(f"examples/{name}" for name in EXAMPLES))
    found = {f"{DOC}/{name}": Entry((built.root / name).read_bytes()) for name in names}
    return found | {f"{DOC}/{PROOFS}": Entry(proofs.encode())}


def pkg_config(prefix: str, libraries: str, tables: str, built: Built) -> str:
    """The file by which pkg-config finds header, library and tables."""
    about = "A text shaper that is proved right" + ("" if built.is_proved else "; this one was built without its proofs")
    return (
        f"prefix={prefix}\nlibdir=${{prefix}}/{libraries}\nincludedir=${{prefix}}/include\ntables=${{prefix}}/{tables}\n\n"
        f"Name: kuspveli\nDescription: {about}\nVersion: {version()}\n"
        "Libs: -L${libdir} -lkuspveli\nCflags: -I${includedir}\n"
    )


# ---- manual pages


def manuals(built: Built, time: int) -> dict[str, Entry]:
    """A page of each command, of what it says by --help."""
    found = {name: built.root / "tools" / tool for name, tool in COMMANDS.items()}
    found |= {command: place.file for name, place in built.programs.items() if (command := own_command(name))}
    return {f"{MAN}/{name}.1.gz": Entry(packed(manual(name, usage(path), time))) for name, path in sorted(found.items())}


def usage(path: Path) -> str:
    """What a command says by --help; of one that doesn't know the word where it is described."""
    words = {"COLUMNS": "80", "LC_ALL": "C.UTF-8", "PATH": os.environ["PATH"]}
    ran = subprocess.run([path, "--help"], stdin=subprocess.DEVNULL, capture_output=True, text=True, check=False, env=words)
    return ran.stdout if ran.returncode == 0 and ran.stdout else f"TOOLS.md describes {path.name}.\n"


def manual(name: str, said: str, time: int) -> str:
    """A manual page in the form of man(7)."""
    day = datetime.fromtimestamp(time, timezone.utc).strftime("%Y-%m-%d")
    lines = [line.replace("\\", "\\e").replace("-", "\\-") for line in said.rstrip("\n").split("\n")]
    shown = "\n".join(f"\\&{line}" if line[:1] in (".", "'") else line for line in lines)
    return (
        f'.TH {name.upper()} 1 "{day}" "Kuspveli {version()}" "Kuspveli"\n.SH NAME\n{name} \\- {ABOUT[name]}\n'
        f".SH DESCRIPTION\n.nf\n{shown}\n.fi\n.SH SEE ALSO\nThe documents below /usr/share/doc/kuspveli or kuspveli-tools.\n"
    )


def packed(text: str | bytes) -> bytes:
    """A text by gzip, without a name and a time."""
    return gzip.compress(text.encode() if isinstance(text, str) else text, 9, mtime=0)
