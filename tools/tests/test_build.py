"""The build, over a small repository and a stand-in for rt."""

import contextlib
import fcntl
import io
import os
import re
import shutil
import signal
import subprocess
import tempfile
import threading
import time
import unittest
from pathlib import Path
from unittest import mock

from support import TOOLS, copy_tools, interruptible, write_files

from building import cli
from building.places import KUSPVELI, PROGRAM, Place
from building.tree import files_of, needed_lines
from common.faults import ToolFault
from sources.crates import ROOT, read_crates

CRATES = """# Lowest first.
low:
left: low # beside right
right: low std_thing

hb_shape: left right
beside: low
"""
# Notes the tree and the jobs that it was called with. Proves crates in the order of crates.txt, and the program last.
STAND_IN = """#!/bin/bash
[ "$1" = version ] && { echo kit 1; exit 0; }
[ "$1" = help ] && { echo "rt ci [--anew]" >&2; exit 2; }
[ "$1" = doc ] && { echo "$BUILD_TEST/kit/START-HERE.md"; exit 0; }
echo "$* jobs=$RT_JOBS" >> "$BUILD_TEST/called"
find . | sort > "$BUILD_TEST/tree"
cat crates.txt > "$BUILD_TEST/list"
for name in $(sed 's/:.*//' crates.txt); do
    has() { grep -q "$1" crates/$name/src/*.rt; }
    has kept && { echo "rt: $name is kept: an earlier run proved the same files"; continue; }
    has slow && exec sleep 60
    echo "== $name"
    echo "fn $name::f: proved"
    if has wrong || { has large && [ "$RT_JOBS" != 1 ]; }; then
        has large && echo "rt: the check was killed, most likely for memory: once more"
        echo "$PWD/crates/$name/src/lib.rt:1: error"
        echo "rt: $name NOT PROVED"
        exec sleep 60
    fi
    echo "rt: $name proved"
done
has note && echo "rt: note: the disk has 7 MB left"
has edited && echo edited >> "$BUILD_TEST/work/crates/low/src/lib.rt"
has other && { echo "rt: hb_shape: the program ended with status 1, and not 0"; echo "4 passed, 1 failed"; exit 1; }
mkdir crates/hb_shape/out
printf '#!/bin/sh\\n' > crates/hb_shape/out/hb_shape
chmod +x crates/hb_shape/out/hb_shape
has lost && rm crates/hb_shape/out/hb_shape
echo "4 passed, 0 failed"
"""


class Built(unittest.TestCase):
    def setUp(self) -> None:
        folder = tempfile.TemporaryDirectory()
        self.addCleanup(folder.cleanup)
        self.notes = Path(folder.name)
        self.root = self.notes / "work"
        self.place = Place(PROGRAM, True, self.root)
        for crate in ("low", "left", "right", "hb_shape", "beside"):
            self.write(crate, "fn f() {}\n")
        write_files(self.root, {"crates.txt": CRATES, "HANDLES": "Handles allowed: none.\n"})
        write_files(self.notes, {"bin/rt": STAND_IN})
        (self.notes / "bin/rt").chmod(0o755)
        path = f"{self.notes}/bin:{os.environ['PATH']}"
        for patch in (
            mock.patch.object(tempfile, "tempdir", folder.name),
            mock.patch.dict(os.environ, {"BUILD_TEST": folder.name, "TMPDIR": folder.name, "PATH": path}),
        ):
            patch.start()
            self.addCleanup(patch.stop)
        os.environ.pop("RT_JOBS", None)  # as the gate sets it; the patch of the environment gives it back

    def write(self, crate: str, text: str) -> None:
        write_files(self.root, {f"crates/{crate}/src/lib.rt": text})

    def build(self, *words: str) -> tuple[int, str]:
        """The status, and what was told, with 0:00 for each time. No tree is left."""
        with contextlib.redirect_stderr(io.StringIO()) as told, contextlib.redirect_stdout(io.StringIO()) as shown:
            status = cli.main(["hb_shape", *words], self.root)
        self.assertEqual(self.trees(), [])
        return status, re.sub(r"\d+:\d\d", "0:00", told.getvalue() + shown.getvalue())

    def trees(self) -> list[Path]:
        """The private folders of trees that are there."""
        return list(self.notes.glob("hb_shape-build-*"))

    def called(self) -> list[str]:
        """With what rt was called since the last question."""
        path = self.notes / "called"
        calls = path.read_text().splitlines() if path.exists() else []
        path.unlink(missing_ok=True)
        return calls

    def test_tree(self) -> None:
        """The gate sees the program's crates alone, with their own lines, and no must-fail edits."""
        write_files(self.root / "crates/low", {"specs/Lib.antt": "", "must-fail/a.edit": "", "out/rlib/stamp": ""})
        write_files(self.root / "crates/hb_shape", {"args": "a", "stdout": "b", "data/font.json": "{}"})
        status, told = self.build()
        self.assertEqual(status, 0, told)
        self.assertEqual(self.called(), ["ci jobs="])
        tree = set((self.notes / "tree").read_text().splitlines())
        files = {"low/specs/Lib.antt", "hb_shape/args", "hb_shape/stdout", "hb_shape/data/font.json"}
        self.assertLessEqual({"./HANDLES", "./.git", *(f"./crates/{file}" for file in files)}, tree)
        self.assertFalse([path for path in tree if "must-fail" in path or "out" in path.split("/") or "beside" in path])
        lines = ["low:", "left: low # beside right", "right: low std_thing", "hb_shape: left right"]
        self.assertEqual((self.notes / "list").read_text().splitlines(), lines)

    def test_told(self) -> None:
        """A line for each crate, and the notes of rt; the program is there at the end."""
        self.write("left", "kept\n")
        self.write("hb_shape", "note\n")
        status, told = self.build()
        self.assertEqual(status, 0, told)
        begin = (
            "4 crates to prove, about 1 minute where none is kept from an earlier run",
            "it may be stopped at any time: what passed is kept, and the next run goes on from there",
            "[1/4] 0:00 low proved",
            "[2/4] 0:00 left is kept",
        )
        self.assertEqual(told.splitlines()[:4], [f"build: {line}" for line in begin])
        self.assertIn(
            "build: [4/4] 0:00 hb_shape proved\nbuild: note: the disk has 7 MB left\nbuild: done in 0:00\n", told
        )
        self.assertTrue(told.endswith("built out/hb_shape\n"), told)
        self.assertTrue(os.access(self.place.file, os.X_OK))
        self.assertIn("fn low::f: proved\n", self.place.log.read_text())

    def test_logs(self) -> None:
        """Each program that one run built has the run's log, which a release reads."""
        self.build()
        other, tree = Place(KUSPVELI, True, self.root), self.notes / "laid"
        crates = {"crates.txt": f"{CRATES}kuspveli_program: low\n", "crates/kuspveli_program/src/lib.rt": "fn f() {}\n"}
        write_files(self.root, crates)
        write_files(tree, {"crates/kuspveli_program/out/kuspveli_program": "#!/bin/sh\n"})
        with mock.patch.object(cli, "stamp_of", return_value="sum"):
            cli.take_program(other, tree, mock.Mock(line="kit 1"), 1.0, self.place.log)
        self.assertEqual(other.log.read_text(), self.place.log.read_text())
        self.assertLessEqual(other.log.stat().st_mtime_ns, other.stamp_file.stat().st_mtime_ns)

    def test_again(self) -> None:
        """What is built of the same sources stays; an edit, another kit and another program build it anew."""
        self.build()
        self.called()
        os.utime(self.place.file, (1, 1))
        self.assertEqual(self.build()[0], 0)
        self.assertEqual(self.called(), [])
        self.assertGreater(self.place.file.stat().st_mtime, 1)
        self.write("beside", "fn g() {}\n")
        self.build()
        self.assertEqual(self.called(), [])
        changes = (
            lambda: self.write("left", "fn g() {}\n"),
            lambda: (self.notes / "bin/rt").write_text(STAND_IN.replace("kit 1", "kit 2")),
            lambda: self.place.file.write_text("#!/bin/sh\necho another\n"),
            lambda: self.place.file.unlink(),
        )
        for number, change in enumerate(changes):
            change()
            self.assertEqual(self.build()[0], 0)
            self.assertEqual(len(self.called()), 1, number)

    def test_copied(self) -> None:
        """A program that was copied in, without a stamp or over another's, is not said to be built."""
        self.build()
        self.called()
        stamp = self.place.stamp_file.read_text()
        for number, text in enumerate(
            ("", "{}", "[]", stamp.replace('"made"', '"other"'), stamp.replace("hb_shape", "x"))
        ):
            self.place.stamp_file.write_text(text)
            self.assertIsNone(self.place.stamp())
            self.build()
            self.assertEqual(len(self.called()), 1, number)
        self.place.stamp_file.unlink()
        self.assertFalse(self.place.is_current())
        self.build()
        self.assertEqual(len(self.called()), 1)

    def test_current(self) -> None:
        """Before a run what stands there is looked at by its time, and its sources are read where one is newer."""
        self.assertFalse(self.place.is_current())
        self.build()
        self.assertTrue(self.place.is_current())
        self.write("low", "fn f() {}\n")
        self.assertTrue(self.place.is_current())
        changes = (
            lambda: self.write("low", "fn g() {}\n"),
            lambda: self.write("low", "fn f() {}\n"),
            lambda: (self.root / "crates/low/src/lib.rt").unlink(),
        )
        found = []
        for change in changes:
            change()
            found.append(self.place.is_current())
        self.assertEqual(found, [False, True, False])

    def test_fault(self) -> None:
        """A crate that is not proved is told with what rt said of it, and at once; the program that was there stays."""
        self.build()
        self.called()
        self.write("left", "wrong\n")
        status, told = self.build()
        self.assertEqual(status, 1)
        where = f"{self.root}/crates/left/src/lib.rt:1: error"
        said = f"low proved\n== left\nfn left::f: proved\n{where}\nrt: left NOT PROVED\nbuild: left did not pass"
        self.assertIn(f"{said}, so nothing was built: see out/hb_shape.log\n", told)
        self.assertTrue(self.place.file.exists())
        self.assertEqual(self.called(), ["ci jobs="])
        self.write("left", "fn f() {}\n")
        self.assertEqual(self.build()[0], 0)
        self.assertEqual(self.called(), [])

    def test_other_fault(self) -> None:
        """Another fault of rt is told by the last lines that it printed; so is a program that was not made."""
        self.write("hb_shape", "other\n")
        status, told = self.build()
        self.assertEqual(status, 1)
        said = "rt: hb_shape: the program ended with status 1, and not 0\n4 passed, 1 failed\nbuild: rt ci did not pass"
        self.assertIn(said, told)
        self.write("hb_shape", "lost\n")
        self.assertRaisesRegex(ToolFault, "rt ci passed and built no hb_shape", self.build)
        self.assertFalse(self.place.file.exists())

    def test_memory(self) -> None:
        """Where a check was killed, the rest is tried once more with one check at a time."""
        self.write("left", "large\n")
        status, told = self.build("--jobs", "2")
        self.assertEqual(status, 0)
        self.assertEqual(self.called(), ["ci jobs=2", "ci jobs=1"])
        self.assertIn("build: left was killed, most likely for memory: once more, one check at a time\n", told)
        self.assertIn("[4/4]", told)
        self.write("right", "wrong large\n")
        self.assertEqual(self.build("--jobs", "1")[0], 1)
        self.assertEqual(self.called(), ["ci jobs=1"])

    def test_edited(self) -> None:
        """A file that is edited while it is built is newer than the program, and is built by the next build."""
        self.write("hb_shape", "edited\n")
        self.build()
        self.called()
        self.assertLess(self.place.file.stat().st_mtime, (self.root / "crates/low/src/lib.rt").stat().st_mtime)
        self.build()
        self.assertEqual(len(self.called()), 1)

    def test_killed(self) -> None:
        """The tree that a killed build left is removed, and nothing else that stands in the note's place."""
        left, note = self.notes / "hb_shape-build-x1", self.place.tree_note
        write_files(left, {"tree/crates/left/src/old.rt": ""})
        write_files(note.parent, {note.name: f"{left}\n"})
        self.assertEqual(self.build()[0], 0)
        self.assertFalse(left.exists() or note.exists())
        own, link = self.notes / "own", self.notes / "linked" / "hb_shape-build-x2"
        write_files(own, {"file": "own"})
        write_files(link.parent, {"other": ""})
        link.symlink_to(own)
        for named in (own, link):
            write_files(note.parent, {note.name: f"{named}\n"})
            self.write("low", f"{named}\n")
            self.assertEqual(self.build()[0], 0)
            self.assertEqual((own / "file").read_text(), "own")

    def test_private(self) -> None:
        """The tree's folder is nobody else's, and has another name each time."""
        found = []

        def lay(root: Path, tree: Path, lines: dict[str, str]) -> None:
            found.append((tree, tree.parent.stat().st_mode & 0o777))
            raise ToolFault(6, "laid")

        with mock.patch.object(cli, "lay_tree", lay):
            for _ in range(2):
                self.assertRaises(ToolFault, cli.main, ["hb_shape"], self.root)
        self.assertEqual([mode for _, mode in found], [0o700, 0o700])
        self.assertNotEqual(found[0][0], found[1][0])
        self.assertEqual(self.trees(), [])

    def test_ended(self) -> None:
        """A build that is ended ends rt, tells how far it was, and removes its tree."""
        self.write("low", "slow\n")
        copy_tools(self.root)
        for sent, status in ((signal.SIGTERM, 143), (signal.SIGHUP, 129), (signal.SIGINT, 130)):
            (self.notes / "list").unlink(missing_ok=True)
            command, streams = [self.root / "tools" / "build", "hb_shape"], {"stderr": subprocess.PIPE, "text": True}
            with subprocess.Popen(command, preexec_fn=interruptible, **streams) as run:
                while not (self.notes / "list").exists():
                    self.assertIsNone(run.poll())
                    time.sleep(0.05)
                self.assertEqual(len(self.trees()), 1)
                run.send_signal(sent)
                _, told = run.communicate(timeout=120)
                self.assertEqual(run.returncode, status)
            self.assertEqual(self.trees(), [])
            last = (
                r"build: stopped after 0:\d\d: 0 of 4 crates passed, which are kept: the next run goes on from there\n$"
            )
            self.assertRegex(told, last)

    def test_beside(self) -> None:
        """A build waits for other builds of the same, and not for rt, which clears crates/hb_shape/out."""
        with self.place.alone("other"):
            held = os.open(self.place.folder / ".hb_shape.lock", os.O_RDONLY)
            self.assertRaises(BlockingIOError, fcntl.flock, held, fcntl.LOCK_EX | fcntl.LOCK_NB)
        fcntl.flock(held, fcntl.LOCK_EX)
        threading.Timer(0.3, os.close, [held]).start()
        status, told = self.build()
        self.assertEqual(status, 0)
        self.assertIn("build: waiting for another build of hb_shape\n", told)

    def test_refused(self) -> None:
        """Before any proof: no rt, wrong words, a folder that can't be made."""
        with mock.patch.dict(os.environ, {"PATH": "/nowhere"}):
            self.assertRaisesRegex(ToolFault, "rt is not on the path", self.build)
        self.assertRaisesRegex(ToolFault, "no number above 0: '0'", self.build, "--jobs", "0")
        (self.root / "out").write_text("")
        self.assertRaises(OSError, self.build)
        self.assertRaisesRegex(ToolFault, "nothing is proved with --unproved", self.build, "--unproved", "--jobs=2")
        self.assertEqual(self.called(), [])

    def test_list(self) -> None:
        status, told = self.build("--list")
        self.assertEqual(status, 0)
        self.assertTrue(told.endswith("right: low std_thing\nhb_shape: left right\n4 crates\n"), told)
        self.assertEqual(self.called(), [])


SEVEN = """//! A number.
#![tactic(auto)]

ghost use Rattle.std.specs.Prelude.{◌≡◌};

/// The number.
pub fn seven() -> u32
    ensures { result ≡ 7 }
{
    7
}
"""
PRINTED = """//! Prints the number.
#![tactic(auto)]

use low::seven;
use std::io;

fn main(rt: HostRuntime) -> io::Result<()> {
    let number = seven();
    println!(rt; "{number}")?;
    Ok(())
}
"""


@unittest.skipUnless(os.environ.get("KUSPVELI_LONG"), "takes minutes (KUSPVELI_LONG=1)")
@unittest.skipUnless(shutil.which("rt"), "needs the kit")
class Stopped(unittest.TestCase):
    def test_goes_on(self) -> None:
        """By the kit itself: a build that is stopped once a crate passed takes that crate over the next time."""
        with tempfile.TemporaryDirectory() as name:
            root = Path(name)
            files = {"low/src/lib.rt": SEVEN, "hb_shape/src/main.rt": PRINTED, "hb_shape/stdout": "7\n"}
            write_files(root, {f"crates/{path}": text for path, text in files.items()})
            write_files(root, {"crates.txt": "low:\nhb_shape: low\n", "HANDLES": "Handles allowed: none.\n"})
            # No earlier run of this test has kept it.
            write_files(root, {"crates/low/specs/Lib.antt": f"-- {os.urandom(8).hex()}\n"})
            copy_tools(root)
            with subprocess.Popen([root / "tools" / "build", "hb_shape"], stderr=subprocess.PIPE, text=True) as run:
                for line in run.stderr or ():
                    if "[1/2]" in line:
                        run.send_signal(signal.SIGINT)
                        break
                self.assertIn("build: stopped after ", "".join(run.stderr or ()))
                self.assertEqual(run.wait(), 130)
            ran = subprocess.run([root / "tools" / "build", "hb_shape"], capture_output=True, text=True, check=True)
            self.assertRegex(ran.stderr, r"\[1/2\] \d+:\d\d low is kept\n")
            self.assertRegex(ran.stderr, r"\[2/2\] \d+:\d\d hb_shape proved")
            self.assertEqual(ran.stdout, "built out/hb_shape\n")
            printed = subprocess.run([root / "out" / "hb_shape"], capture_output=True, text=True, check=True)
            self.assertEqual(printed.stdout, "7\n")


class Whole(unittest.TestCase):
    def test_crates(self) -> None:
        """Of this repository: each crate's libraries are there, and the program with what it is run on."""
        lines = needed_lines(ROOT, "hb_shape")
        crates = read_crates(ROOT)
        for name in lines:
            self.assertLessEqual({needed for needed in crates[name] if needed in crates}, set(lines), name)
        files = {str(path.relative_to(ROOT)) for path in files_of(ROOT, lines)}
        program = {f"crates/hb_shape/{name}" for name in ("src/main.rt", "args", "stdout", "data/font.json")}
        self.assertLessEqual({"HANDLES", *program}, files)
        self.assertFalse([path for path in files if "/must-fail/" in path or "/out/" in path])

    def test_command(self) -> None:
        ran = subprocess.run([TOOLS / "build", "--help"], capture_output=True, text=True, check=False)
        self.assertEqual(ran.returncode, 0)
        self.assertIn("tools/build --jobs 2", ran.stdout)


if __name__ == "__main__":
    unittest.main()
