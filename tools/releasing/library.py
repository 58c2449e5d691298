"""The shared library as it is released: with a soname and with versions of its symbols, and held to its header."""

import ctypes
import re
import tempfile
from dataclasses import dataclass
from pathlib import Path

from building.linking import call
from common.faults import DATA, FILES, ToolFault
from common.version import numbers_of, packed, soname, version

MAP = Path(__file__).parent / "kuspveli.map"
HEADER = "include/kuspveli.h"
NODE = re.compile(r"^KUSPVELI_(\d+\.\d+) \{(.*?)^\}", re.MULTILINE | re.DOTALL)
LISTED = re.compile(r"^ +(kus_\w+);$", re.MULTILINE)
# What the header declares, and not what it defines itself.
CALL = re.compile(r"^(?!static)\w[\w *]*?\b(kus_\w+) \([^;{]*\);", re.MULTILINE)
NUMBER = re.compile(r"#define KUS_VERSION_(?:MAJOR|MINOR|MICRO) (\d+)")
GLIBC = re.compile(rb"GLIBC_2\.(\d+)(?:\.\d+)?\0")


@dataclass(frozen=True)
class Library:
    """The shared library, with the version in which each of its calls came."""

    text: bytes
    number: str
    calls: dict[str, str]

    @property
    def file(self) -> str:
        return f"libkuspveli.so.{self.number}"

    @property
    def soname(self) -> str:
        return soname(self.number)

    @property
    def glibc(self) -> int:
        """The second number of the least glibc 2 that has what it calls."""
        return max(map(int, GLIBC.findall(self.text)))


def link(root: Path, archive: Path, *, is_last: bool = False) -> Library:
    """Links the archive's object, and holds the result to the header and to VERSION. Of what is no release yet, calls may be
    of the version after it; is_last refuses that."""
    number, calls = version(), read_map()
    check_calls((root / HEADER).read_text(encoding="utf-8"), calls, number)
    if is_last:
        check_newest(calls, number)
    with tempfile.TemporaryDirectory() as folder:
        made = Path(folder) / f"libkuspveli.so.{number}"
        whole = ("-Wl,--whole-archive", archive, "-Wl,--no-whole-archive")
        named = (f"-Wl,-soname,{soname(number)}", f"-Wl,--version-script={MAP}", "-Wl,-z,relro,-z,now,-z,defs")
        call("gcc", "-shared", *named, "-s", "-o", made, *whole)
        text = made.read_bytes()
        check_loaded(made, calls, number)
    return Library(text, number, calls)


def read_map() -> dict[str, str]:
    """The calls, each with the two numbers of the version in which it came."""
    text = MAP.read_text(encoding="utf-8")
    return {name: node for node, listed in NODE.findall(text) for name in LISTED.findall(listed)}


def check_calls(header: str, calls: dict[str, str], number: str) -> None:
    """Refuses a header of another version, and one whose calls aren't those of the map."""
    said = ".".join(NUMBER.findall(header))
    if said != number:
        raise ToolFault(DATA, f"VERSION is {number}, and {HEADER} has {said}")
    declared = set(CALL.findall(header))
    for name in sorted(declared - calls.keys()):
        raise ToolFault(DATA, f"{HEADER} has {name}, and {MAP.name} doesn't: it stands there under the version that brings it")
    for name in sorted(calls.keys() - declared):
        raise ToolFault(DATA, f"{MAP.name} has {name}, and {HEADER} doesn't: a call less raises the first number")


def check_newest(calls: dict[str, str], number: str) -> None:
    """Refuses calls of a version that comes later."""
    newest = max(calls.values(), key=lambda each: tuple(map(int, each.split("."))))
    if tuple(map(int, newest.split("."))) > numbers_of(number)[:2]:
        raise ToolFault(DATA, f"{MAP.name} has calls of {newest}, and VERSION is {number}")


def check_loaded(made: Path, calls: dict[str, str], number: str) -> None:
    """Loads the library: each call is there, and it answers the version."""
    loaded = ctypes.CDLL(str(made))
    for name in calls:
        if not hasattr(loaded, name):
            raise ToolFault(FILES, f"the library has no {name}")
    loaded.kus_version.restype = ctypes.c_uint32
    if (answered := loaded.kus_version()) != packed(number):
        raise ToolFault(DATA, f"VERSION is {number}, and kus_version answers {answered:#08x}")
