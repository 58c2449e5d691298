"""The shared object of bindings/harfbuzz, made over the library where it is older than that or than its sources."""

import os
import shutil
import subprocess
import tempfile
from pathlib import Path

from building.places import LIBRARY, Place
from building.ready import ready_place, tell_unproved
from common.faults import FILES, ToolFault
from sources.crates import ROOT

OBJECT = "libkuspveli-instead.so"
SOURCES = "bindings/harfbuzz"
HEADER = "include/kuspveli.h"
NEEDS = "it takes gcc, pkg-config and libharfbuzz-dev"
COMPILED = ("-std=c11", "-D_GNU_SOURCE", "-O2", "-fPIC", "-fvisibility=hidden", "-Wall", "-Wextra", "-Wpedantic")
# Nothing of the archive is seen by the program, which may have another one of its own.
LINKED = ("-shared", "-Wl,-z,defs", "-Wl,--exclude-libs,ALL", f"-Wl,-soname,{OBJECT}")


def ready_object(name: str, root: Path = ROOT) -> Path:
    """The shared object over the library of the sources that stand here, proved where that is built; where there are no
    sources, the one that was installed."""
    if (root / SOURCES).is_dir():
        return object_over(ready_place(name, LIBRARY, root))
    for is_proved in (True, False):
        installed = Place(LIBRARY, is_proved, root).folder / OBJECT
        if installed.is_file():
            if not is_proved:
                tell_unproved(name, LIBRARY.name, LIBRARY.tool)
            return installed
    raise ToolFault(FILES, f"{OBJECT} was not installed: tools/install makes it where it can ({NEEDS})")


def can_make() -> bool:
    """Whether the object can be compiled here."""
    if not (shutil.which("gcc") and shutil.which("pkg-config")):
        return False
    return subprocess.run(["pkg-config", "--exists", "harfbuzz"], check=False).returncode == 0


def object_over(place: Place) -> Path:
    """The shared object over a library that is built."""
    made = place.folder / OBJECT
    sources = sorted((place.root / SOURCES).glob("*.[ch]"))
    newest = max(path.stat().st_mtime_ns for path in (*sources, place.root / HEADER, place.file))
    if not made.is_file() or made.stat().st_mtime_ns < newest:
        make_object(place, sources, made)
    return made


def make_object(place: Place, sources: list[Path], made: Path) -> None:
    for command in ("gcc", "pkg-config"):
        if shutil.which(command) is None:
            raise ToolFault(FILES, f"the command {command} is not on the path: {NEEDS}")
    found = called(["pkg-config", "--cflags", "--libs", "harfbuzz"]).split()
    code = [path for path in sources if path.suffix == ".c"]
    with tempfile.TemporaryDirectory(dir=place.folder) as room:
        new = Path(room) / OBJECT
        include = f"-I{place.root / 'include'}"
        called(["gcc", *COMPILED, include, *code, place.file, *LINKED, *found, "-lm", "-ldl", "-o", new])
        os.replace(new, made)


def called(words: list[str | Path]) -> str:
    ran = subprocess.run(words, stdin=subprocess.DEVNULL, capture_output=True, text=True, errors="replace", check=False)
    if ran.returncode:
        raise ToolFault(FILES, f"{words[0]} failed ({NEEDS}): {ran.stderr.strip()[-2000:]}")
    return ran.stdout
