"""Values made once for a font file, in the user's cache folder."""

import contextlib
import functools
import hashlib
import json
import os
import stat
import tempfile
from pathlib import Path
from typing import Any, Callable, Iterator

from common.faults import FILES, ToolFault
from common.files import faults_of, new_name, replace_by, write_new
from common.writing import object_text
from fontjson.variations import Place

TOOLS = Path(__file__).parent.parent
SOURCES = ("common", "fontjson", "formats", "unicodejson", "syllables", "machines")
ENDING = ".json"
# Bytes of a name that are kept in it; a longer one is kept by its sum. A file's name has at most 255 on most systems.
MOST_NAME = 128
PRIVATE = 0o600
# The first key and the last one of a kept value: a file that was cut has not both.
STAMP, END = "cache", "end"


@contextlib.contextmanager
def cache_folder() -> Iterator[Path]:
    """The folder where values are kept: the user's, or one for this run alone where that isn't fit for it."""
    kept = user_folder()
    if kept is not None:
        yield kept
        return
    with tempfile.TemporaryDirectory() as folder:
        yield Path(folder)


def user_folder() -> Path | None:
    """The user's cache folder for this project, made where it is missing.

    None where it can't be made or written, is a link, or belongs to somebody else, who could change what is kept there.
    """
    base = os.environ.get("XDG_CACHE_HOME") or os.path.expanduser("~/.cache")
    if not os.path.isabs(base):
        return None
    folder = Path(base) / "kuspveli"
    try:
        folder.mkdir(parents=True, exist_ok=True)
        number = os.open(folder, os.O_RDONLY | os.O_DIRECTORY | os.O_NOFOLLOW)
        try:
            if os.fstat(number).st_uid != os.geteuid():
                return None
            os.fchmod(number, 0o700)
        finally:
            os.close(number)
        with tempfile.TemporaryFile(dir=folder):
            return folder
    except OSError:
        return None


@functools.cache
def spare_folder() -> "tempfile.TemporaryDirectory[str]":
    """A folder for this run alone, in place of one whose disk is full."""
    return tempfile.TemporaryDirectory()


def font_name(font: Path, index: int, place: Place | None = None) -> str:
    """The name under which a font's value is kept: that of its file, with a sum of where it is, and its coordinates."""
    where = hashlib.sha256(os.fsencode(font.resolve())).hexdigest()[:16]
    instance = "".join(f".{tag.strip()}={value:g}" for tag, value in (place or {}).items())
    name = os.fsencode(f"{font.name}.{index}{instance}")
    if len(name) > MOST_NAME:
        return f"{where}-{hashlib.sha256(name).hexdigest()}{ENDING}"
    return f"{where}-{os.fsdecode(name)}{ENDING}"


def fingerprint(*parts: object) -> str:
    """A stamp for what a value was made of: the parts, and the tools' own sources."""
    stamp = hashlib.sha256(repr(parts).encode())
    for folder in SOURCES:
        for path in sorted((TOOLS / folder).rglob("*")):
            if path.suffix in (".py", ".txt"):
                stamp.update(path.read_bytes())
    return stamp.hexdigest()


def cached(path: Path, stamp: str, make: Callable[[], dict[str, Any]]) -> Path:
    """The file with the value of that stamp, made where it is not there, is another, or was cut. Where it can't be written
    it is made for this run alone."""
    if has_stamp(path, stamp):
        return path
    content = object_text({STAMP: stamp, **make(), END: stamp}).encode()
    try:
        write_whole(path, content)
        return path
    except OSError:
        spare = Path(spare_folder().name) / path.name
        write_whole(spare, content)
        return spare


def has_stamp(path: Path, stamp: str) -> bool:
    """Whether the user's own file is there with that stamp at both ends.

    A pipe is not waited for, and a link not followed.
    """
    first, last = f"{{\n{json.dumps(STAMP)}:{json.dumps(stamp)}", f"{json.dumps(END)}:{json.dumps(stamp)}\n}}\n"
    try:
        number = os.open(path, os.O_RDONLY | os.O_NOFOLLOW | os.O_NONBLOCK)
        with open(number, "rb") as file:
            status = os.fstat(number)
            if not stat.S_ISREG(status.st_mode) or status.st_uid != os.geteuid():
                return False
            head = file.read(len(first))
            file.seek(-len(last), os.SEEK_END)
            return head == first.encode() and file.read() == last.encode()
    except OSError:
        return False


def write_whole(path: Path, content: bytes) -> None:
    """Writes a file under another name first, so that no half of it is ever read, whoever else writes it.

    What has the name already is replaced, but for a folder with files in it.
    """
    with faults_of(path):
        if path.is_dir() and not path.is_symlink():
            if any(path.iterdir()):
                raise ToolFault(FILES, f"{path}: a folder where a value is to be kept: remove it")
            path.rmdir()
        new = str(path.with_name(new_name()))
        replace_by(new, str(path), None, lambda: write_new(new, content, PRIVATE))


def part_of(path: Path, key: str, usual: Any) -> Any:
    """One key of a value that was written with a key on each line; what is usual where it has none."""
    start = f"{json.dumps(key)}:"
    with open(path, encoding="utf-8") as file:
        for line in file:
            if line.startswith(start):
                return json.loads(line.removeprefix(start).rstrip().rstrip(","))
    return usual
