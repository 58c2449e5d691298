"""Releasing: what a log of the gate says, what is refused, and what stands in each file, the same bytes twice."""

import hashlib
import io
import os
import shutil
import subprocess
import tarfile
import tempfile
import time
import tomllib
import unittest
import zipfile
from pathlib import Path
from unittest import mock

from support import HAS_FONTS, write_files

from building.places import KUSPVELI, LIBRARY, PROGRAM, Place
from building.tree import stamp_of
from common.faults import ToolFault
from common.plan import Entry
from common.version import packed, soname, symbol_version, version
from installing.layout import COMMANDS
from preload.shared_object import OBJECT, can_make
from releasing import cli, contents, debian, gates, library, python, trying
from releasing.archives import tar_gz, zip_file
from releasing.crate import OUTSIDE
from releasing.sources import crate_sum, read_source
from sources.crates import ROOT

VERSION = version()
NEEDED = ("git", "gcc", "pkg-config", "strip", "dpkg-deb", "dpkg-shlibdeps")
IS_NEEDED = all(map(shutil.which, NEEDED)) and can_make()
PACKAGES = ("libkuspveli0", "libkuspveli-dev", "kuspveli-tools", "python3-kuspveli")
IS_BUILT = all(Place(target, False, ROOT).is_current() for target in (PROGRAM, KUSPVELI, LIBRARY))
PROVED = """\
rt: top: trying its must-fail edits (1)
== low
fn low::f: proved
logic=proved functions=3 sum=dac8 native=nat
rt: low proved
== low: its tests
logic=proved functions=9 sum=dac8 native=nat
rt: low: its tests are proved
rt: left is kept: an earlier run on this machine proved the same files over the same libraries
== top
logic=proved functions=12 sum=dac8 native=nat
rt: top proved
rt: ok; handles allowed: none; every proof and must-fail edit was done in this run
3 passed, 0 failed
"""
OWN = "fn kuspveli_c::f: proved\nlogic=proved functions=20 sum=dac8 native=nat\n"


def logged(text: str) -> gates.Log:
    with tempfile.TemporaryDirectory() as folder:
        path = Path(folder) / "out.log"
        path.write_text(text, encoding="utf-8")
        return gates.read_log(path)


class Versions(unittest.TestCase):
    def test_rule(self) -> None:
        """The soname has the first number, a symbol the first two, kus_version all in bytes."""
        rows = {
            "0.1.0": ("libkuspveli.so.0", "KUSPVELI_0.1", 0x000100),
            "1.12.3": ("libkuspveli.so.1", "KUSPVELI_1.12", 0x010C03),
        }
        self.assertEqual({each: (soname(each), symbol_version(each), packed(each)) for each in rows}, rows)

    def test_binding(self) -> None:
        """The module for Python asks the loader for this soname."""
        self.assertEqual(python.library.SONAME, soname(VERSION))

    @unittest.skipUnless(shutil.which("dpkg"), "needs dpkg")
    def test_unproved(self) -> None:
        """What was not proved is older than what was, for Debian."""
        built = mock.Mock(name="built")
        built.name = contents.release_version(False)
        words = ["dpkg", "--compare-versions", debian.debian_version(built), "lt", f"{VERSION}-{debian.REVISION}"]
        subprocess.run(words, check=True)
        self.assertEqual((contents.release_version(True), built.name), (VERSION, f"{VERSION}+unproved"))


class Calls(unittest.TestCase):
    """The header, the versions of its calls, and VERSION."""

    def header(self, calls: str = "", number: str = "0.2.0") -> str:
        names = zip(("MAJOR", "MINOR", "MICRO"), number.split("."))
        numbers = "".join(f"#define KUS_VERSION_{name} {each}\n" for name, each in names)
        defined = "static inline bool\nkus_text (int a)\n{\n  return f (a);\n}\n"
        return f"{numbers}uint32_t kus_version (void);\n{defined}{calls}"

    def test_own(self) -> None:
        """Each call that the header declares came in a version, and no other one did."""
        library.check_calls((ROOT / library.HEADER).read_text(encoding="utf-8"), library.read_map(), VERSION)

    def test_refused(self) -> None:
        calls, new = {"kus_version": "0.1"}, "void kus_new (int a,\n  int b);\n"
        library.check_calls(self.header(), calls, "0.2.0")
        rows = [
            ("VERSION is 0.2.1, and include/kuspveli.h has 0.2.0", self.header(), calls, "0.2.1"),
            ("kus_new, and kuspveli.map doesn't: it stands there under", self.header(new), calls, "0.2.0"),
            ("kuspveli.map has kus_old", self.header(), {**calls, "kus_old": "0.1"}, "0.2.0"),
        ]  # fmt: skip
        for told, header, listed, number in rows:
            with self.assertRaisesRegex(ToolFault, told):
                library.check_calls(header, listed, number)
        library.check_newest({"kus_version": "0.9"}, "0.10.0")
        with self.assertRaisesRegex(ToolFault, "has calls of 0.10, and VERSION is 0.9.2"):
            library.check_newest({"kus_version": "0.10"}, "0.9.2")


class Logs(unittest.TestCase):
    def test_read(self) -> None:
        """Each crate with its own number of functions, not that of its tests; None where it was kept."""
        log = logged(PROVED)
        self.assertEqual(log.crates, {"low": 3, "left": None, "top": 12})
        self.assertEqual((log.last, log.own, log.has_passed), ("3 passed, 0 failed", None, True))
        self.assertTrue(log.done.startswith("ok; handles allowed: none; "))
        self.assertEqual(logged(PROVED + OWN).own, 20)

    def test_failed(self) -> None:
        """A run that failed, or that did not end."""
        self.assertFalse(logged(PROVED.replace("3 passed, 0 failed", "2 passed, 1 failed")).has_passed)
        self.assertFalse(logged(PROVED.replace("3 passed, 0 failed\n", "")).has_passed)
        self.assertEqual(logged(PROVED.replace("rt: low proved", "rt: low NOT PROVED")).crates, {"left": None, "top": 12})

    def test_gate(self) -> None:
        """The log of a target: it is there, of a run that passed all crates, and older than the stamp."""
        with tempfile.TemporaryDirectory() as folder:
            place = Place(LIBRARY, True, Path(folder))
            place.folder.mkdir()
            with mock.patch.object(Place, "lines", lambda _: {"low": "low:", "top": "top: low"}):
                self.assertRaisesRegex(ToolFault, "libkuspveli.log is missing", gates.gate_of, place)
                rows = {
                    PROVED.replace("0 failed", "1 failed") + OWN: "no log of a run that passed",
                    PROVED.replace("rt: low proved\n", "") + OWN: "it lacks low",
                    PROVED: "no line by which the archive was proved",
                }
                for text, told in rows.items():
                    place.log.write_text(text, encoding="utf-8")
                    self.assertRaisesRegex(ToolFault, told, gates.gate_of, place)
                place.log.write_text(PROVED + OWN, encoding="utf-8")
                place.stamp_file.touch()
                self.assertEqual(gates.gate_of(place).crates["top"], 12)
                os.utime(place.log, (time.time() + 60,) * 2)
                self.assertRaisesRegex(ToolFault, "of another run", gates.gate_of, place)

    def test_numbers(self) -> None:
        """The number of the newest log that has one; none of a log that is older than the crate."""
        with tempfile.TemporaryDirectory() as folder:
            root = Path(folder)
            write_files(root, {f"crates/{name}/src/lib.rt": "" for name in ("low", "left", "top")})
            write_files(root, {"crates.txt": "low:\nleft: low\ntop: left\n", "HANDLES": ""})
            older = PROVED.replace("functions=12", "functions=11").replace("rt: left is kept: ", "rt: other is kept: ")
            write_files(root, {"out/ci.log": PROVED, "out/first.log": older})
            now = time.time()
            os.utime(root / "out/first.log", (now + 10, now + 10))
            os.utime(root / "out/ci.log", (now + 20, now + 20))
            self.assertEqual(gates.functions(root), {"low": 3, "top": 12})
            os.utime(root / "crates/left/src/lib.rt", (now + 15, now + 15))
            self.assertEqual(gates.functions(root), {"low": 3, "top": 12})
            os.utime(root / "crates/left/src/lib.rt", (now + 30, now + 30))
            self.assertEqual(gates.functions(root), {"low": 3})
            self.assertRaisesRegex(ToolFault, "older than the crates", gates.whole_gate, root)


class Archives(unittest.TestCase):
    ENTRIES = {"b/tool": Entry(b"#!/bin/sh\n", 0o755), "a": Entry(b"x"), "b/link": Entry(link="tool")}

    def test_tar(self) -> None:
        """Sorted, with folders, modes, one time and one owner; the order of the entries makes no difference."""
        made = tar_gz("top", self.ENTRIES, 1000)
        self.assertEqual(made, tar_gz("top", dict(reversed(self.ENTRIES.items())), 1000))
        with tarfile.open(fileobj=io.BytesIO(made)) as archive:
            members = archive.getmembers()
        self.assertEqual([member.name for member in members], ["top", "top/a", "top/b", "top/b/link", "top/b/tool"])
        self.assertEqual([oct(member.mode) for member in members], ["0o755", "0o644", "0o755", "0o777", "0o755"])
        self.assertEqual({(member.mtime, member.uid, member.gid, member.uname) for member in members}, {(1000, 0, 0, "root")})
        self.assertEqual(made[4:8], bytes(4), "a packed archive has no time of its own")

    def test_zip(self) -> None:
        """In UTC, whatever the zone is."""
        files = {"a": Entry(b"x"), "b": Entry(b"y", 0o755)}
        made = zip_file(files, 1700000000)
        with mock.patch.dict(os.environ, {"TZ": "Asia/Tokyo"}):
            time.tzset()
            self.assertEqual(zip_file(files, 1700000000), made)
        time.tzset()
        with zipfile.ZipFile(io.BytesIO(made)) as archive:
            self.assertEqual([info.external_attr >> 16 & 0o777 for info in archive.infolist()], [0o644, 0o755])
            self.assertEqual(archive.infolist()[0].date_time, (2023, 11, 14, 22, 13, 20))


class Contents(unittest.TestCase):
    def test_lists(self) -> None:
        """Each command has a line for its page; each document is there; ten texts in ten scripts."""
        self.assertEqual({*COMMANDS, *filter(None, contents.PROGRAMS.values())} - contents.ABOUT.keys(), set())
        names = (*contents.DOCUMENTS, *(f"examples/{name}" for name in contents.EXAMPLES))
        self.assertEqual([name for name in names if not (ROOT / name).is_file()], [])
        self.assertEqual(len({case.script for case in trying.cases()}), 10)
        self.assertIn(PROGRAM, contents.targets())

    def test_manual(self) -> None:
        """What a command says stands in its page as it is."""
        page = contents.manual("kuspveli-shape", ".a\n  --b \\c\n", 0)
        self.assertTrue(page.startswith('.TH KUSPVELI-SHAPE 1 "1970-01-01"'))
        self.assertIn("\n.nf\n\\&.a\n  \\-\\-b \\ec\n.fi\n", page)

    def test_manifest(self) -> None:
        """The crate's manifest leaves out what stands elsewhere, and nothing else."""
        text = '[package]\nname = "a"\n\n[[example]]\nname = "b"\npath = "../b.rs"\n\n[features]\nc = []\n'
        self.assertEqual(OUTSIDE.sub("", text), '[package]\nname = "a"\n\n[features]\nc = []\n')
        own = OUTSIDE.sub("", (ROOT / "bindings/rust/Cargo.toml").read_text(encoding="utf-8"))
        self.assertEqual(tomllib.loads(own).keys(), {"package", "dependencies"})

    def test_sum(self) -> None:
        """The sum of a crate is what the command that PROOFS.txt names prints."""
        command = "git ls-files -z crates/buffer_rows | LC_ALL=C sort -z | xargs -0 sha256sum | sha256sum"
        ran = subprocess.run(["sh", "-c", command], cwd=ROOT, capture_output=True, text=True, check=True)
        self.assertEqual(ran.stdout.split()[0], crate_sum(ROOT, "buffer_rows"))

    @unittest.skipUnless(HAS_FONTS and shutil.which("hb-shape"), "needs hb-shape and the fonts")
    def test_lines(self) -> None:
        """The lines that releases are held to are hb-shape's."""
        for case in trying.cases():
            words = ["hb-shape", "--no-glyph-names", "--utf8-clusters", "--shapers=ot", case.font, case.text]
            ran = subprocess.run(words, capture_output=True, text=True, check=True, env={**os.environ, "LC_ALL": "C.UTF-8"})
            self.assertEqual(ran.stdout, f"[{case.line}]\n", case.script)


class Refused(unittest.TestCase):
    def test_folder(self) -> None:
        """A folder that has something in it stays as it is."""
        with tempfile.TemporaryDirectory() as folder:
            write_files(Path(folder), {"own": "x"})
            with self.assertRaisesRegex(ToolFault, "is there, and not empty"):
                cli.make(Path(folder), ROOT, is_proved=False)
            self.assertEqual(os.listdir(folder), ["own"])

    def test_sums(self) -> None:
        """What is tried is what was released."""
        with tempfile.TemporaryDirectory() as folder:
            self.assertRaisesRegex(ToolFault, "no SHA256SUMS", trying.check_sums, Path(folder))
            write_files(Path(folder), {"a": "x", "SHA256SUMS": f"{hashlib.sha256(b'y').hexdigest()}  a\n"})
            self.assertRaisesRegex(ToolFault, "a is not the file", trying.check_sums, Path(folder))

    def test_words(self) -> None:
        self.assertRaisesRegex(ToolFault, "flatpak is no way", trying.main, ["folder", "roots", "flatpak"])


def release(folder: Path, **more: str) -> None:
    """Runs the tool as another process, so that its mask, zone and folders are its own."""
    mask = f'umask {more.pop("umask", "022")}; exec "$0" "$@"'
    words = ["sh", "-c", mask, ROOT / "tools" / "release", "--unproved", folder]
    ran = subprocess.run(words, capture_output=True, text=True, check=False, env={**os.environ, **more})
    if ran.returncode:
        raise AssertionError(ran.stderr)


def files_of(folder: Path) -> dict[str, bytes]:
    return {str(path.relative_to(folder)): path.read_bytes() for path in folder.rglob("*") if path.is_file()}


@unittest.skipUnless(IS_NEEDED, f"needs {', '.join(NEEDED)} and libharfbuzz-dev")
@unittest.skipUnless(IS_BUILT, "needs tools/build --unproved and tools/build_library --unproved")
class Made(unittest.TestCase):
    """What is made of what is built here without proofs."""

    @classmethod
    def setUpClass(cls) -> None:
        cls.folder = Path(cls.enterClassContext(tempfile.TemporaryDirectory()))
        cls.made = cls.folder / "made"
        release(cls.made)
        cls.name = contents.release_version(False)

    def members(self, pattern: str) -> dict[str, bytes]:
        """The files in an archive."""
        [path] = self.made.glob(pattern)
        if path.suffix == ".whl":
            with zipfile.ZipFile(path) as wheel:
                return {name: wheel.read(name) for name in wheel.namelist()}
        text = path.read_bytes()
        if path.suffix == ".deb":
            text = subprocess.run(["dpkg-deb", "--fsys-tarfile", path], capture_output=True, check=True).stdout
        with tarfile.open(fileobj=io.BytesIO(text)) as archive:
            found = {member.name: archive.extractfile(member) for member in archive.getmembers() if member.isfile()}
            return {name: file.read() for name, file in found.items() if file is not None}

    def test_twice(self) -> None:
        """In another folder, of another name, with another mask, zone and language, the same bytes."""
        other, room = self.folder / "other" / "elsewhere", self.folder / "room"
        room.mkdir()
        release(other, umask="077", TZ="Asia/Tokyo", LC_ALL="C", COLUMNS="200", TMPDIR=str(room))
        self.assertEqual(files_of(other), files_of(self.made))
        self.assertEqual(list(room.iterdir()), [])

    def test_names(self) -> None:
        """Each file says that it is unproved, and sha256sum reads the list."""
        names = {path.name for path in self.made.iterdir()} - {"PROOFS.txt", "SHA256SUMS"}
        self.assertEqual([name for name in names if "unproved" not in name], [])
        self.assertEqual(len([name for name in names if name.endswith(".deb")]), 4)
        subprocess.run(["sha256sum", "-c", "--quiet", "SHA256SUMS"], cwd=self.made, check=True)
        self.assertIn("UNPROVED. No proof", (self.made / "PROOFS.txt").read_text())

    def test_paths(self) -> None:
        """No file has a path of the clone or of a folder that was made for it."""
        for pattern in ("*-linux.tar.gz", "*-rust.tar.gz", "*.whl", *(f"{name}_*" for name in PACKAGES)):
            for name, text in self.members(pattern).items():
                self.assertNotIn(os.fsencode(ROOT) + b"/", text, f"{pattern}: {name}")
                self.assertNotIn(os.fsencode(tempfile.gettempdir()) + b"/tmp", text, f"{pattern}: {name}")

    def test_archive(self) -> None:
        """Unpacked elsewhere, the commands run, and pkg-config answers by where it stands."""
        [path] = self.made.glob("*-linux.tar.gz")
        place = self.folder / "own place"
        place.mkdir()
        subprocess.run(["tar", "-xzf", path, "-C", place, "--strip-components=1"], check=True)
        files = [ROOT / "examples" / name for name in ("tables.json", "ligature_font.json", "ligature_text.txt")]
        words = [place / "bin" / "kuspveli-hb-shape", "--no-glyph-names", *files]
        ran = subprocess.run(words, capture_output=True, text=True, check=True)
        self.assertEqual(ran.stdout, "1=0+500|7=1+520\n")
        self.assertIn("hb_shape is unproved", ran.stderr)
        font = ROOT / "crates" / "kuspveli_program" / "data" / "font.ttf"
        for command, words in (("kuspveli", [font, "fi"]), ("kuspveli-shape", [font, "fi"])):
            ran = subprocess.run([place / "bin" / command, *words], capture_output=True, text=True, check=True)
            self.assertEqual((ran.stdout, "kuspveli is unproved" in ran.stderr), ("f_i=0+520\n", True))
        if shutil.which("pkg-config"):
            found = {**os.environ, "PKG_CONFIG_PATH": str(place / "lib" / "pkgconfig")}
            words = ["pkg-config", "--variable=tables", "kuspveli"]
            tables = subprocess.run(words, capture_output=True, text=True, check=True, env=found).stdout.strip()
            self.assertEqual(Path(tables.replace("\\", "")).read_bytes(), (ROOT / "data/tables.json").read_bytes())

    def test_library(self) -> None:
        """One shared library in all, with its soname and versions; the archive is the one that was built."""
        debs, tar, wheel = self.members("libkuspveli0_*"), self.members("*-linux.tar.gz"), self.members("*.whl")
        own = debs[f"./usr/lib/x86_64-linux-gnu/libkuspveli.so.{VERSION}"]
        self.assertEqual(own, tar[f"kuspveli-{self.name}-x86_64-linux/lib/libkuspveli.so.{VERSION}"])
        self.assertEqual(own, wheel["kuspveli.libs/unproved/libkuspveli.so"])
        archive = self.members("*-rust.tar.gz")[f"kuspveli-{self.name}-rust/lib/unproved/libkuspveli.a"]
        self.assertEqual(archive, Place(LIBRARY, False, ROOT).file.read_bytes())
        shared = self.folder / "shared.so"
        shared.write_bytes(own)
        listed = subprocess.run(["readelf", "-dsW", shared], capture_output=True, text=True, check=True).stdout
        self.assertIn(f"[{soname(VERSION)}]", listed)
        self.assertIn("kus_shape@@KUSPVELI_0.1", listed)

    def test_wheel(self) -> None:
        """A typed package, whose list has each other file with its sum; the tag names the glibc that it needs."""
        files = self.members("*.whl")
        [record] = [name for name in files if name.endswith("/RECORD")]
        rows = dict(line.split(",", 1) for line in files[record].decode().splitlines())
        self.assertEqual(rows.keys(), files.keys())
        for name in files.keys() - {record}:
            self.assertEqual(rows[name], f"sha256={python.digest(files[name])},{len(files[name])}", name)
        self.assertLessEqual({"kuspveli/py.typed", "kuspveli/tables.json", "kuspveli/__init__.py"}, files.keys())
        self.assertRegex(next(self.made.glob("*.whl")).name, r"-py3-none-manylinux_2_\d+_x86_64\.whl$")

    def test_packages(self) -> None:
        """Fields and files of each package; its own list has the sums of all."""
        for package in PACKAGES:
            [path] = self.made.glob(f"{package}_*")
            fields = subprocess.run(["dpkg-deb", "-f", path], capture_output=True, text=True, check=True).stdout
            heads = f"Package: {package}\nSource: kuspveli\nVersion: {VERSION}~unproved-1\n"
            self.assertTrue(fields.startswith(heads), fields)
            sums = subprocess.run(["dpkg-deb", "-I", path, "md5sums"], capture_output=True, text=True, check=True).stdout
            found = {f"./{line[34:]}": line[:32] for line in sums.splitlines()}
            files = self.members(f"{package}_*")
            made = {name: hashlib.md5(text, usedforsecurity=False).hexdigest() for name, text in files.items()}
            self.assertEqual(found, made)
            self.assertIn(f"./usr/share/doc/{package}/copyright", files)
        self.assertIn(f"./usr/lib/kuspveli/out/unproved/{OBJECT}", self.members("kuspveli-tools_*"))
        [path] = self.made.glob("kuspveli-tools_*")
        fields = subprocess.run(["dpkg-deb", "-f", path, "Depends"], capture_output=True, text=True, check=True).stdout
        self.assertIn("libharfbuzz0b", fields)
        [path] = self.made.glob("libkuspveli0_*")
        symbols = subprocess.run(["dpkg-deb", "-I", path, "symbols"], capture_output=True, text=True, check=True).stdout
        self.assertTrue(symbols.startswith(f"{soname(VERSION)} libkuspveli0 #MINVER#\n"))

    @unittest.skipUnless(shutil.which("lintian"), "needs lintian")
    def test_lintian(self) -> None:
        words = ["lintian", "--allow-root", "--fail-on", "error", *self.made.glob("*.deb")]
        ran = subprocess.run(words, capture_output=True, text=True, check=False)
        self.assertEqual(ran.returncode, 0, ran.stdout)

    @unittest.skipUnless(os.environ.get("KUSPVELI_ROOTS"), "needs KUSPVELI_ROOTS, a folder for fresh roots, and to be root")
    def test_roots(self) -> None:
        """Each way in a fresh root."""
        words = [ROOT / "tools" / "try_release", self.made, os.environ["KUSPVELI_ROOTS"]]
        ran = subprocess.run(words, capture_output=True, text=True, check=False)
        self.assertEqual(ran.returncode, 0, ran.stderr)
        self.assertEqual([line.partition(":")[0] for line in ran.stdout.splitlines()], list(trying.WAYS))


@unittest.skipUnless(IS_NEEDED, f"needs {', '.join(NEEDED)} and libharfbuzz-dev")
@unittest.skipUnless(IS_BUILT, "needs tools/build --unproved and tools/build_library --unproved")
class Proved(unittest.TestCase):
    """A clone in which what was compiled without proofs stands in for what was proved, with logs as rt ci writes them."""

    @classmethod
    def setUpClass(cls) -> None:
        cls.folder = Path(cls.enterClassContext(tempfile.TemporaryDirectory()))
        cls.root = cls.folder / "clone"
        subprocess.run(["git", "clone", "-q", ROOT, cls.root], check=True)
        for target in (PROGRAM, KUSPVELI, LIBRARY):
            cls.stand_in(Place(target, True, cls.root))

    @classmethod
    def stand_in(cls, place: Place) -> None:
        place.folder.mkdir(exist_ok=True)
        for path in Place(place.target, False, ROOT).files:
            shutil.copy(path, place.folder)
        lines = place.lines()
        log = "".join(f"== {name}\nlogic=proved functions=2 sum=\nrt: {name} proved\n" for name in lines)
        own = OWN if place.target == LIBRARY else ""
        place.log.write_text(f"{log}rt: ok; handles allowed: none\n{len(lines)} passed, 0 failed\n{own}", encoding="utf-8")
        place.write_stamp(stamp_of(cls.root, lines, "rattle-kit-0"), "rattle-kit-0")

    def make(self, name: str = "none") -> None:
        cli.make(self.folder / name, self.root, is_proved=True)

    def test_proved(self) -> None:
        """No name says unproved; PROOFS.txt has commit, kit, the crates with their numbers, and the last lines."""
        self.make("made")
        names = [path.name for path in (self.folder / "made").iterdir()]
        self.assertEqual([name for name in names if "unproved" in name], [])
        self.assertIn(f"libkuspveli0_{VERSION}-1_amd64.deb", names)
        told = (self.folder / "made" / "PROOFS.txt").read_text(encoding="utf-8")
        crates = Place(LIBRARY, True, self.root).lines()
        for line in (f"commit   {read_source(ROOT).commit}", "kit      rattle-kit-0", f"    {len(crates)} passed, 0 failed"):
            self.assertIn(f"{line}\n", told)
        self.assertRegex(told, r"(?m)^  [0-9a-f]{64} +2  buffer_rows$")
        self.assertRegex(told, r"(?m)^  [0-9a-f]{64} +20  kuspveli_c$")

    def test_refused(self) -> None:
        """Files that no commit has, a log that is missing, and sources that changed: nothing is made then."""
        place = Place(PROGRAM, True, self.root)
        self.addCleanup(self.stand_in, place)
        write_files(self.root, {"docs/new.md": "x"})
        self.assertRaisesRegex(ToolFault, "files differ from the commit: docs/new.md$", self.make)
        (self.root / "docs/new.md").unlink()
        text = place.log.read_text(encoding="utf-8")
        place.log.unlink()
        self.assertRaisesRegex(ToolFault, "out/hb_shape.log is missing", self.make)
        place.log.write_text(text, encoding="utf-8")
        place.stamp_file.write_text(place.stamp_file.read_text().replace('"sources": "', '"sources": "0'), encoding="utf-8")
        self.assertRaisesRegex(ToolFault, "hb_shape is built of older sources: tools/build builds it", self.make)
        place.stamp_file.unlink()
        self.assertRaisesRegex(ToolFault, "hb_shape is not built: tools/build builds it", self.make)
        self.assertFalse((self.folder / "none").exists())


@unittest.skipUnless(os.environ.get("KUSPVELI_LONG"), "needs KUSPVELI_LONG=1, since it builds all twice")
class Again(unittest.TestCase):
    def test_clones(self) -> None:
        """Two builds of one commit in two folders make the same files."""
        with tempfile.TemporaryDirectory() as name:
            made = []
            for place in ("first", "other/place"):
                clone = Path(name) / place
                subprocess.run(["git", "clone", "-q", ROOT, clone], check=True)
                for words in (["build"], ["build_library"], ["release", str(Path(name) / f"{clone.name}-made")]):
                    subprocess.run([clone / "tools" / words[0], "--unproved", *words[1:]], check=True, capture_output=True)
                made.append(files_of(Path(name) / f"{clone.name}-made"))
            self.assertEqual(*made)


if __name__ == "__main__":
    unittest.main()
