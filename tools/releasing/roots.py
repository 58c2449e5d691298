"""Fresh roots of Debian's packages alone, made by debootstrap once, and laid under what each way writes."""

import contextlib
import ctypes
import os
import shutil
import subprocess
from dataclasses import dataclass
from pathlib import Path
from typing import Iterator

from common.faults import FILES, ToolFault
from common.files import write_over

SUITE, MIRROR = "bookworm", "http://deb.debian.org/debian"
# What is in all roots, beside the least that apt needs.
FONTS = ("fonts-dejavu-core", "fonts-noto-core")
PATH = "/usr/local/sbin:/usr/local/bin:/usr/sbin:/usr/bin:/sbin:/bin"
ENVIRONMENT = {"PATH": PATH, "HOME": "/root", "LC_ALL": "C.UTF-8", "DEBIAN_FRONTEND": "noninteractive"}
APT = ("apt-get", "-q", "-y", "--no-install-recommends")
# What apt and dpkg write for themselves.
OWN = ("var/cache", "var/log", "var/lib/apt", "var/lib/dpkg", "tmp", "proc", "dev", "given")
# unshare(2) and mount(2)
CLONE_NEWNS, MS_REC, MS_PRIVATE = 0x20000, 0x4000, 0x40000


def own_mounts() -> None:
    """Keeps the mounts of this process, and of those that it starts, from all others; they end with it."""
    if os.geteuid():
        raise ToolFault(FILES, "roots are made and entered by root alone")
    system = ctypes.CDLL(None, use_errno=True)
    if system.unshare(CLONE_NEWNS) or system.mount(b"none", b"/", None, MS_REC | MS_PRIVATE, None):
        raise OSError(ctypes.get_errno(), "no mounts of its own")


def base_of(roots: Path) -> Path:
    """The root that is below all others, made where it isn't there yet."""
    base, done = roots / "base", roots / "base.made"
    if not done.is_file():
        shutil.rmtree(base, ignore_errors=True)
        roots.mkdir(parents=True, exist_ok=True)
        run(["debootstrap", "--variant=minbase", "--include=ca-certificates", SUITE, str(base), MIRROR])
        policy = base / "usr/sbin/policy-rc.d"
        write_over(policy, "#!/bin/sh\nexit 101\n")
        policy.chmod(0o755)
        # A root that is to be thrown away needs no waiting for the disk.
        write_over(base / "etc/dpkg/dpkg.cfg.d/quick", "force-unsafe-io\n")
        with entered(base):
            Root(base).run([*APT, "install", *FONTS])
            Root(base).run(["apt-get", "clean"])
        done.touch()
    return base


@contextlib.contextmanager
def fresh(roots: Path, name: str, given: dict[str, Path]) -> Iterator["Root"]:
    """A root like the base, in which folders that are given stand below /given, read-only. All that is written there is
    gone after it."""
    base, room = base_of(roots), roots / name
    if room.exists():
        remove(room)
    upper, work, root, packages = room / "upper", room / "work", room / "root", roots / "packages"
    for folder in (upper, work, root, packages):
        folder.mkdir(parents=True, exist_ok=True)
    layers = f"lowerdir={base},upperdir={upper},workdir={work}"
    with contextlib.ExitStack() as mounts:
        mounts.enter_context(mounted(["-t", "overlay", "overlay", "-o", layers], root))
        mounts.enter_context(entered(root))
        for place, folder in given.items():
            (root / "given" / place).mkdir(parents=True)
            mounts.enter_context(mounted(["--bind", "-o", "ro", str(folder)], root / "given" / place))
        # What apt takes from the mirror is kept for the next root.
        mounts.enter_context(mounted(["--bind", str(packages)], root / "var/cache/apt/archives"))
        made = Root(root)
        made.run(["apt-get", "-q", "update"])
        yield made
    remove(room)


def remove(room: Path) -> None:
    """Removes a folder; one below which something is still mounted stays, since that is not the root's own."""
    for line in Path("/proc/self/mounts").read_text(encoding="utf-8").splitlines():
        if line.split(" ")[1].startswith(f"{room}/"):
            raise ToolFault(FILES, f"{line.split(' ')[1]} is still mounted")
    shutil.rmtree(room)


@contextlib.contextmanager
def entered(root: Path) -> Iterator[None]:
    """With what programs need of the system, and its names of hosts for apt."""
    shutil.copy("/etc/resolv.conf", root / "etc/resolv.conf")
    with mounted(["-t", "proc", "proc"], root / "proc"), mounted(["--rbind", "/dev"], root / "dev"):
        yield


@contextlib.contextmanager
def mounted(what: list[str], where: Path) -> Iterator[None]:
    run(["mount", *what, str(where)])
    try:
        yield
    finally:
        run(["umount", "--recursive", "--lazy", str(where)])


def run(words: list[str], more: dict[str, str] | None = None) -> str:
    ran = subprocess.run(
        words, stdin=subprocess.DEVNULL, capture_output=True, text=True, errors="replace", check=False, env=more
    )
    if ran.returncode:
        said = (ran.stderr or ran.stdout).strip()[-2000:]
        raise ToolFault(FILES, f"{' '.join(words[:6])} ended with {ran.returncode}: {said}")
    return ran.stdout


@dataclass(frozen=True)
class Root:
    """A root that commands are run in."""

    folder: Path

    def run(self, words: list[str], *, has_network: bool = True, **more: str) -> str:
        """What a command prints; it has to succeed. Without network no other host is there for it."""
        apart = [] if has_network else ["unshare", "--net"]
        return run([*apart, "chroot", str(self.folder), *words], ENVIRONMENT | more)

    def has(self, command: str) -> bool:
        return any((self.folder / folder.lstrip("/") / command).exists() for folder in PATH.split(":"))

    def files(self) -> set[str]:
        """All paths below it, but for what apt and dpkg keep for themselves."""
        found: set[str] = set()
        for folder, folders, files in os.walk(self.folder):
            below = os.path.relpath(folder, self.folder)
            folders[:] = [name for name in folders if os.path.normpath(f"{below}/{name}") not in OWN]
            found |= {os.path.normpath(f"{below}/{name}") for name in (*folders, *files)}
        return found
