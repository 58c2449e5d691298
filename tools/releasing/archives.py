"""Archives that are the same bytes whenever and wherever they are made: sorted, of one time, of one owner, without paths."""

import io
import os
import stat
import tarfile
import time as clock
import zipfile
from pathlib import Path, PurePosixPath
from typing import Iterable

from common.files import write_over
from common.plan import Entry
from releasing.contents import packed

FOLDER, LINK, FILE = 0o755, 0o777, 0o644
# A zip file has no earlier time.
FIRST = 315532800


def folders_of(names: Iterable[str]) -> list[str]:
    """The folders that files stand in, each before what it has in it."""
    return sorted({str(folder) for name in names for folder in PurePosixPath(name).parents} - {"."})


def mode_of(entry: Entry) -> int:
    """A file's mode, whatever the process's mask is."""
    return FILE if entry.mode is None else entry.mode


def tar_gz(top: str, entries: dict[str, Entry], time: int) -> bytes:
    """A packed tar archive with one folder at its top."""
    named = {f"{top}/{name}": entry for name, entry in entries.items()}
    made = io.BytesIO()
    with tarfile.open(fileobj=made, mode="w", format=tarfile.GNU_FORMAT) as archive:
        for name in sorted({*named, *folders_of(named)}):
            entry = named.get(name)
            member = tarfile.TarInfo(name)
            member.mtime, member.uname, member.gname = time, "root", "root"
            if entry is None:
                member.type, member.mode = tarfile.DIRTYPE, FOLDER
            elif entry.link:
                member.type, member.mode, member.linkname = tarfile.SYMTYPE, LINK, entry.link
            else:
                member.mode, member.size = mode_of(entry), len(entry.text)
            archive.addfile(member, io.BytesIO(entry.text) if entry and not entry.link else None)
    return packed(made.getvalue())


def zip_file(files: dict[str, Entry], time: int) -> bytes:
    """A zip archive of files, in their given order."""
    made = io.BytesIO()
    when = clock.gmtime(max(time, FIRST))[:6]
    with zipfile.ZipFile(made, "w", zipfile.ZIP_DEFLATED, compresslevel=9) as archive:
        for name, entry in files.items():
            member = zipfile.ZipInfo(name, when)
            member.create_system, member.compress_type = 3, zipfile.ZIP_DEFLATED
            member.external_attr = (stat.S_IFREG | mode_of(entry)) << 16
            archive.writestr(member, entry.text)
    return made.getvalue()


def write_tree(folder: Path, entries: dict[str, Entry], time: int) -> None:
    """Writes entries below a folder that is new or empty, with their modes and one time, whatever the process's mask is."""
    for name in folders_of(entries):
        (folder / name).mkdir(exist_ok=True)
    for name, entry in entries.items():
        path = folder / name
        if entry.link:
            path.symlink_to(entry.link)
        else:
            write_over(path, entry.text)
            path.chmod(mode_of(entry))
        os.utime(path, (time, time), follow_symlinks=False)
    for name in reversed(folders_of(entries)):
        (folder / name).chmod(FOLDER)
        os.utime(folder / name, (time, time))
