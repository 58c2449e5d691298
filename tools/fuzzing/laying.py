"""Random trees for vendor and install, some of them laid against them, and runs that are ended at a call of the system.

A world is a folder with what a tool lays (two versions), what it lays it into, and what is outside. Of each run is
tested: nothing outside changes; what somebody else wrote stays unless the list has it with its sum; no file is half; a
second run completes one that was ended, as if it had never been; and --uninstall leaves nothing that install wrote."""

import contextlib
import errno
import hashlib
import io
import os
import shutil
import stat
from dataclasses import dataclass
from pathlib import Path, PurePosixPath
from random import Random
from typing import Any, Callable, Iterator
from unittest import mock

from common.faults import ToolFault
from common.files import NEW
from common.plan import Entries, Entry
from fuzzing.nasty import nasty_lines
from installing import placing
from vendoring import cli, copies

VERSIONS = ("old", "new")
VENDOR, INSTALL, UNINSTALL = "vendor", "install", "uninstall"
TO, OUTSIDE = "to", "outside"
LISTS = {VENDOR: copies.SUMS, INSTALL: placing.SUMS, UNINSTALL: placing.SUMS}
OWN_LINES = "# Mine.\nown: kuspveli\n"
CRATES = {"old": ("low:", "left: low", "kuspveli: left low"), "new": ("low: std", "right: low", "kuspveli: right low")}
ENTRIES: dict[str, Entries] = {
    "old": {
        "bin/tool": Entry(link="../lib/kuspveli/tools/tool"),
        "include/kuspveli.h": Entry(b"int old;\n", 0o644),
        "lib/libkuspveli.a": Entry(b"archive\n" * 2000, 0o644),
        "lib/kuspveli/tools/tool": Entry(b"#!/bin/sh\n", 0o755),
        "lib/kuspveli/tools/part/deep.py": Entry(b"x = 1\n", 0o644),
    },
    "new": {
        "bin/tool": Entry(link="../lib/kuspveli/tools/other"),
        "include/kuspveli.h": Entry(b"int new;\n", 0o644),
        "lib/libkuspveli.a": Entry(b"archive\n" * 2000, 0o644),
        "lib/kuspveli/tools/other": Entry(b"#!/bin/sh\necho\n", 0o755),
        "lib/kuspveli/tools/more/deep.py": Entry(b"x = 2\n", 0o644),
    },
}
# What stands at each path below a folder: its kind, and a file's bytes or what a link says.
Snapshot = dict[str, tuple[str, bytes | str]]


# ---- worlds


def sources_of(version: str) -> dict[str, str]:
    """The files of the repository that vendor copies from."""
    names = [line.partition(":")[0] for line in CRATES[version]]
    files = {f"crates/{name}/src/lib.rt": f"{name} {version}\n" for name in names if name != "low"}
    files |= {f"crates/{name}/specs/deep/Lib.antt": f"{name}\n" * 500 for name in names}
    return {**files, "crates/low/src/lib.rt": "low\n", "LICENSE": "MIT\n", "crates.txt": "\n".join(CRATES[version]) + "\n"}


def write_tree(root: Path, files: dict[str, str]) -> None:
    for name, text in files.items():
        path = root / name
        path.parent.mkdir(parents=True, exist_ok=True)
        path.write_text(text, encoding="utf-8")


def make_world(folder: Path) -> None:
    for version in VERSIONS:
        write_tree(folder / version, sources_of(version))
    write_tree(folder / OUTSIDE, {"id": "key\n", "deep/secret": "secret\n", "src/lib.rt": "low\n"})
    write_tree(folder / TO, {"crates.txt": OWN_LINES, "crates/own/src/main.rt": "own\n", "bin/own": "own\n", "src/main.rt": "x\n"})


def entries_of(step: "Step", folder: Path) -> Entries:
    """What a step lays."""
    if step.kind == VENDOR:
        names = [line.partition(":")[0] for line in CRATES[step.version]]
        return copies.entries_of(folder / step.version, names)
    return ENTRIES[step.version] if step.kind == INSTALL else {}


def snapshot(root: Path) -> Snapshot:
    """All that stands below a folder; no link is followed."""
    found: Snapshot = {}
    for here, folders, files in os.walk(root):
        for name in (*folders, *files):
            path = os.path.join(here, name)
            mode = os.lstat(path).st_mode
            at = os.path.relpath(path, root)
            if stat.S_ISLNK(mode):
                found[at] = "link", os.readlink(path)
            elif stat.S_ISDIR(mode):
                found[at] = "folder", ""
            elif stat.S_ISREG(mode):
                with open(path, "rb") as file:
                    found[at] = "file", file.read()
            else:
                found[at] = "other", ""
    return found


# ---- steps


@dataclass(frozen=True)
class Step:
    """A run of a tool: vendor or install of a version, or the removal of what was installed."""

    kind: str
    version: str = "old"

    @property
    def list(self) -> str:
        return LISTS[self.kind]


# How a run ends.
DONE, REFUSED, FAILED, ENDED = ENDS = "done", "refused", "failed", "ended"


class Ended(BaseException):
    """The end of a process by a signal that it can't know of."""


def run_step(step: Step, folder: Path) -> str:
    """Runs a step in this process; how it ended: done, refused, failed, or ended."""
    try:
        with contextlib.redirect_stdout(io.StringIO()):
            if step.kind == VENDOR:
                with mock.patch.object(cli, "ROOT", folder / step.version):
                    cli.main([str(folder / TO)])
            elif step.kind == INSTALL:
                placing.place_all(folder / TO, ENTRIES[step.version])
            else:
                placing.remove_all(folder / TO)
    except ToolFault:
        return REFUSED
    except OSError as error:
        return FAILED if error.filename else f"a fault without a name: {error}"
    except (Ended, KeyboardInterrupt, SystemExit):
        return ENDED
    return DONE


# ---- calls of the system that fail

CALLS = ("open", "write", "replace", "unlink", "mkdir", "rmdir", "symlink", "ftruncate", "fchmod", "lstat", "scandir", "dup")
# How a call ends: the process by a signal that it can't or can know of, or the call with a fault.
KILLED, INTERRUPTED, FULL, BROKEN = "killed", "interrupted", "full", "broken"
ENDINGS = (KILLED, INTERRUPTED, FULL, BROKEN)


class Calls:
    """Counts the calls of the system, and ends one of them; a write takes a half before."""

    def __init__(self, last: int | None = None, ending: str = KILLED) -> None:
        self.last, self.ending = last, ending
        self.count = 0

    def wrapped(self, name: str, real: Callable[..., Any]) -> Callable[..., Any]:
        def call(*words: Any, **more: Any) -> Any:
            self.count += 1
            if self.last is not None and (self.count == self.last or (self.count > self.last and self.ending == KILLED)):
                if name == "write" and self.count == self.last:
                    real(words[0], bytes(words[1])[: len(words[1]) // 2])
                raise self.fault(words[0])
            return real(*words, **more)

        return call

    def fault(self, first: Any) -> BaseException:
        """What a call is ended by; Python names a file that is given by its name."""
        faults = {KILLED: Ended(), INTERRUPTED: KeyboardInterrupt()}
        number = errno.ENOSPC if self.ending == FULL else errno.EIO
        names = () if isinstance(first, int) else (os.fspath(first),)
        return faults.get(self.ending) or OSError(number, os.strerror(number), *names)

    @contextlib.contextmanager
    def counted(self) -> Iterator["Calls"]:
        with mock.patch.multiple(os, **{name: self.wrapped(name, getattr(os, name)) for name in CALLS}):
            yield self


# ---- what is wrong


def identity_of(cell: tuple[str, bytes | str]) -> str | None:
    kind, content = cell
    if kind == "file":
        return hashlib.sha256(content if isinstance(content, bytes) else content.encode()).hexdigest()
    return f"-> {content}" if kind == "link" else None


def listed_in(found: Snapshot, name: str) -> set[tuple[str, str]]:
    """The pairs of paths and sums of a list, read without the tools."""
    kind, content = found.get(name, ("", b""))
    if kind != "file" or not isinstance(content, bytes):
        return set()
    pairs = set()
    for line in content.decode("utf-8", "surrogateescape").split("\n")[:-1]:
        if line.startswith("# link "):
            at, _, target = line.removeprefix("# link ").partition(" -> ")
            pairs.add((at, f"-> {target}"))
        else:
            made, _, at = line.partition("  ")
            pairs.add((at, made))
    return pairs


def wrong_of(step: Step, folder: Path, before: Snapshot, after: Snapshot, ended: str, is_killed: bool) -> Iterator[str]:
    """What a step did that it must not do."""
    entries, listed = entries_of(step, folder), listed_in(before, step.list)
    known = {(name, entry.identity) for name, entry in entries.items()}
    if ended not in ENDS:
        yield ended
    own = {step.list, "crates.txt"} if step.kind == VENDOR else {step.list}
    for name, cell in before.items():
        if cell[0] == "folder" or after.get(name) == cell or (name in own and ended != REFUSED):
            continue
        if is_kept(name, listed) or os.path.basename(name).startswith(NEW):
            continue
        if (name, identity_of(cell)) not in listed | known:
            yield f"{name} was not listed with its sum, and is changed or gone"
    for name, cell in after.items():
        if before.get(name) == cell or name in own or cell[0] == "folder":
            continue
        if (name, identity_of(cell)) in known:
            continue
        if not (is_killed and os.path.basename(name).startswith(NEW)):
            yield f"{name} is none of the entries, or half of one"
    if ended == REFUSED and without_empty(before) != without_empty(after):
        yield "refused, and something is changed"


def is_kept(name: str, listed: set[tuple[str, str]]) -> bool:
    """Whether a file is what Python keeps of a listed module."""
    path = PurePosixPath(name)
    module = f"{path.parent.parent}/{path.name.partition('.')[0]}.py"
    return path.parent.name == "__pycache__" and any(at == module for at, _ in listed)


def without_empty(found: Snapshot) -> Snapshot:
    """What stands there but folders."""
    return {name: cell for name, cell in found.items() if cell[0] != "folder"}


def result_of(step: Step, folder: Path) -> tuple[Snapshot, set[tuple[str, str]]]:
    """What stands in a world but folders, and what its list has of files: a folder that couldn't be removed may stay."""
    found = snapshot(folder / TO)
    listed = {(name, one) for name, one in listed_in(found, step.list) if name}
    return {name: cell for name, cell in without_empty(found).items() if name != step.list}, listed


@dataclass(frozen=True)
class Breaking:
    """A way to run a step that ends one of its calls: in words, whether the process can't know of its end, and how."""

    where: str
    is_killed: bool
    run: Callable[[Step, Path], str]


def breaking_by(calls: Calls) -> Breaking:
    """A run in this process."""

    def run(step: Step, folder: Path) -> str:
        with calls.counted():
            return run_step(step, folder)

    return Breaking(f"{calls.ending} at call {calls.last}", calls.last is not None and calls.ending == KILLED, run)


def tried(step: Step, folder: Path, how: Breaking | None = None) -> tuple[str, list[str]]:
    """Runs a step, with one of its calls ended where that is asked for; how it ended, and what is wrong."""
    before, outside = snapshot(folder / TO), snapshot(folder / OUTSIDE)
    ended = how.run(step, folder) if how else run_step(step, folder)
    wrong = list(wrong_of(step, folder, before, snapshot(folder / TO), ended, how is not None and how.is_killed))
    if snapshot(folder / OUTSIDE) != outside:
        wrong.append("something outside is changed")
    return ended, wrong


def copied(folder: Path, other: Path) -> Path:
    """The world once more."""
    shutil.rmtree(other, ignore_errors=True)
    other.mkdir()
    for name in (*VERSIONS, OUTSIDE):
        shutil.copytree(folder / name, other / name, symlinks=True)
    copy_tree(folder / TO, other / TO)
    return other


def copy_tree(here: Path, there: Path) -> None:
    """Copies a tree with its links and pipes."""
    there.mkdir()
    for entry in os.scandir(here):
        path = there / entry.name
        if entry.is_symlink():
            os.symlink(os.readlink(entry.path), path)
        elif entry.is_dir():
            copy_tree(Path(entry.path), path)
        elif entry.is_file():
            shutil.copy2(entry.path, path)
        else:
            os.mkfifo(path)


# ---- random trees

PLACES = (
    "crates", "crates.txt", "crates/kuspveli", "crates/low", "crates/low/src", "crates/low/src/lib.rt", "crates/left",
    "crates/kuspveli/vendored.sha256", "crates/kuspveli/LICENSE", "crates/right/specs", "crates/.vendor.new", "bin", "lib",
    "include", "bin/tool", "lib/kuspveli", "lib/kuspveli/tools", "lib/kuspveli/tools/part", "lib/kuspveli/installed.sha256",
    "include/kuspveli.h", "include/.kuspveli.h.new", "lib/libkuspveli.a", "crates/low/out", "crates/low/a\nb", "crates/own",
    "lib/kuspveli/tools/part/deep.py", "lib/kuspveli/tools/part/__pycache__/deep.cpython-311.pyc",
)  # fmt: skip
TARGETS = ("../outside", "../../outside", "../outside/id", "../../outside/id", "../../../outside/src", "/dev/zero", "none", ".")


def clear(path: Path) -> None:
    if path.is_dir() and not path.is_symlink():
        shutil.rmtree(path)
    else:
        path.unlink(missing_ok=True)


def disturb(draw: Random, folder: Path, step: Step) -> None:
    """Lays something against the tool: links, files, pipes, lists."""
    to = folder / TO
    path = to / draw.choice(PLACES)
    with contextlib.suppress(OSError):
        kind = draw.choice(("link", "link", "file", "right", "pipe", "folder", "gone", "edit", "list", "list", "cut", "bytes"))
        if kind in ("list", "cut", "bytes"):
            path = to / step.list
            if path.is_symlink() or not path.parent.is_dir() or (path.exists() and not path.is_file()):
                return
            whole = path.read_bytes() if path.is_file() else b""
            lines = {"list": whole + nasty_lines(draw, to), "cut": whole[: draw.randrange(len(whole) + 1)]}
            path.write_bytes(lines.get(kind, draw.randbytes(draw.randrange(200))))
            return
        if kind == "edit":
            path = draw.choice([each for each in sorted(to.rglob("*")) if each.is_file() and not each.is_symlink()])
            path.write_bytes(path.read_bytes() + b"edited")
            return
        clear(path)
        path.parent.mkdir(parents=True, exist_ok=True)
        if kind == "link":
            path.symlink_to(draw.choice(TARGETS))
        elif kind == "file":
            path.write_text("mine\n")
        elif kind == "right":
            path.write_bytes(draw.choice([*ENTRIES["old"].values()]).text)
        elif kind == "pipe":
            os.mkfifo(path)
        elif kind == "folder":
            path.mkdir()


def draw_world(draw: Random, folder: Path) -> Step:
    """A world, and the step that is tried in it."""
    make_world(folder)
    step = Step(draw.choice((VENDOR, VENDOR, INSTALL, UNINSTALL)), draw.choice(VERSIONS))
    if step.kind == UNINSTALL or draw.random() < 0.6:
        first = Step(VENDOR if step.kind == VENDOR else INSTALL, draw.choice(VERSIONS))
        calls = Calls(draw.randrange(1, 300), draw.choice(ENDINGS)) if draw.random() < 0.4 else Calls()
        with calls.counted():
            run_step(first, folder)
    for _ in range(draw.randrange(4)):
        disturb(draw, folder, step)
    return step


def try_case(seed: int, number: int, folder: Path) -> tuple[str, list[str]]:
    """A case by its number: a run in a random world, one that is ended in a copy of it, and what follows; how the first one
    ended, and what is wrong."""
    draw = Random(f"{seed} {number}")
    first = folder / "first"
    shutil.rmtree(first, ignore_errors=True)
    step = draw_world(draw, first)
    other = copied(first, folder / "other")
    counted = Calls()
    ended, wrong = tried(step, first, breaking_by(counted))
    calls = Calls(draw.randrange(1, counted.count + 1) if counted.count else 1, draw.choice(ENDINGS))
    return f"{step.kind} {ended}", [*wrong, *ended_case(step, first, other, ended, breaking_by(calls))]


def ended_case(step: Step, first: Path, other: Path, ended: str, how: Breaking) -> Iterator[str]:
    """What is wrong with a run that is ended at a call, and with those after it; `first` has the run that wasn't."""
    broken, wrong = tried(step, other, how)
    where = f"{step}, {how.where}"
    yield from (f"{where}: {each}" for each in wrong)
    if step.kind == INSTALL and broken != REFUSED:
        yield from (f"{where}: {each}" for each in removed(step, first, copied(other, other.parent / "third"), ended))
    again, wrong = tried(step, other)
    yield from (f"{where}, then again: {each}" for each in wrong)
    is_gone = step.kind == UNINSTALL and again == REFUSED
    if not is_gone and again != ended:
        yield f"{where}: then again: {again}, where it is {ended} at once"
    if result_of(step, first) != result_of(step, other):
        yield f"{where}: then again: the tree is another one"


def removed(step: Step, first: Path, third: Path, ended: str) -> Iterator[str]:
    """What is wrong with --uninstall after an install that was ended."""
    before = snapshot(third / TO)
    done, wrong = tried(Step(UNINSTALL), third)
    yield from (f"then --uninstall: {each}" for each in wrong)
    left = {name: cell for name, cell in snapshot(third / TO).items() if cell[0] != "folder"}
    for name, entry in ENTRIES[step.version].items():
        is_listed = (name, entry.identity) in listed_in(before, step.list)
        if done == DONE and is_listed and name in left and identity_of(left[name]) == entry.identity:
            yield f"then --uninstall: {name} is left"
    if done == DONE and any(os.path.basename(name).startswith(NEW) for name in left):
        yield "then --uninstall: a new name is left"
