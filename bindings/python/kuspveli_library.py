"""Where the shared library is: the one that KUSPVELI_LIBRARY names, else that beside this file, that of the clone, or
an installed one, last of all that which the system's loader knows."""

import contextlib
import ctypes
import os
import stat
import sys
from pathlib import Path
from typing import Iterator, Optional

HERE = Path(__file__).resolve().parent
# Beside this file where pip put it: the library, and a file with the path of the clone that it was made of.
FOLDER, CLONE = "kuspveli.libs", "clone.txt"
LIBRARY, UNPROVED = "libkuspveli.so", "unproved"
VARIABLE = "KUSPVELI_LIBRARY"
# The name by which the loader knows a library with the calls that the module declares.
SONAME = "libkuspveli.so.0"
# What tools/install notes in lib/kuspveli, where it puts the tools and this file for them, and what stands there in any case.
INSTALLED = ("installed.sha256", "VERSION")
# Where tools/install mostly puts it, besides the folder of this Python.
SYSTEM = ("/usr/local", "/usr")
BUILT_BY = (
    "tools/build_library proves and builds it, tools/build_library --unproved builds it without proofs in minutes"
)


def find() -> str:
    """The library's path; where there is none the fault says where it was sought, and what builds it."""
    named = os.environ.get(VARIABLE)
    if named:
        if not Path(named).is_file():
            raise ImportError(f"{VARIABLE} names {named}, and no such file is there: {BUILT_BY}")
        return named
    for path in places():
        if path.is_file():
            if is_unproved(path):
                print(f"kuspveli: unproved: {path}; tools/build_library proves and builds it", file=sys.stderr)
            return str(path)
    with contextlib.suppress(OSError):
        ctypes.CDLL(SONAME)
        return SONAME
    sought = ", ".join(dict.fromkeys(str(path.parent) for path in places()))
    noted = noted_clone()
    unsafe = [str(path) for path in (built_places(noted) if noted else []) if path.is_file() and not is_safe(path)]
    passed = f"; passed over, since others may write there: {', '.join(unsafe)}" if unsafe else ""
    sought += f", and as {SONAME}{passed}"
    raise ImportError(f"{LIBRARY} is not there: {BUILT_BY}, and {VARIABLE} names another file (sought in {sought})")


def places() -> Iterator[Path]:
    """Where the library may be, the first ones first."""
    yield HERE / FOLDER / LIBRARY
    yield HERE / FOLDER / UNPROVED / LIBRARY
    root, noted = clone(), noted_clone()
    if root is not None:
        yield from built_places(root)
    elif noted is not None:
        yield from filter(is_safe, built_places(noted))
    if root is None and any((HERE.parent.parent / name).is_file() for name in INSTALLED):
        yield HERE.parent.parent.parent / LIBRARY
    for folder in os.environ.get("LD_LIBRARY_PATH", "").split(":"):
        if folder:
            yield Path(folder) / LIBRARY
    for prefix in (sys.prefix, *SYSTEM):
        yield Path(prefix) / "lib" / LIBRARY


def clone() -> Optional[Path]:
    """The clone that this file stands in."""
    root = HERE.parent.parent
    return root if (root / "tools" / "build_library").is_file() else None


def noted_clone() -> Optional[Path]:
    """The clone that pip made this file of. It may be gone, and its path somebody else's by now."""
    noted = HERE / FOLDER / CLONE
    return Path(os.fsdecode(noted.read_bytes().rstrip(b"\n"))) if noted.is_file() else None


def is_safe(path: Path) -> bool:
    """Whether nobody else can have put a library there: each folder above it belongs to root, to this user or to who
    owns this file, and no other one may write to it, unless what is in it stays its owner's (as in /tmp)."""
    users = {0, os.geteuid(), HERE.stat().st_uid}
    try:
        for each in (path, *path.parents):
            found = each.lstat()
            is_open = found.st_mode & (stat.S_IWGRP | stat.S_IWOTH) and not found.st_mode & stat.S_ISVTX
            if found.st_uid not in users or stat.S_ISLNK(found.st_mode) or is_open:
                return False
    except OSError:
        return False
    return True


def built_places(root: Path) -> list[Path]:
    return [root / "out" / LIBRARY, root / "out" / UNPROVED / LIBRARY]


def built_in(root: Path) -> Optional[Path]:
    """The library that is built in a clone, a proved one before an unproved one."""
    return next((path for path in built_places(root) if path.is_file()), None)


def is_unproved(path: Path) -> bool:
    """Whether it was built without proofs: by the folder where such a one is kept, or by what tools/install noted."""
    return path.parent.name == UNPROVED or (path.parent / "kuspveli" / "out" / UNPROVED).is_dir()


def version() -> str:
    """That of the clone or of the installed tools that this file stands among, or of what pip installed."""
    noted = HERE.parent.parent / "VERSION"
    if noted.is_file() and (HERE.parent.parent / "tools").is_dir():
        return noted.read_text(encoding="utf-8").strip()
    from importlib.metadata import version as installed

    return installed("kuspveli")
