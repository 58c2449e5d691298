"""vendor and install in random trees, and ended at calls of the system: nothing outside, nothing half, nothing that stays."""

import os
import subprocess
import tempfile
import unittest
from pathlib import Path

from support import TOOLS, write_files

from common.below import Below
from common.faults import ToolFault
from common.plan import Listed, Tops, read_list
from fuzzing import laying, traced
from fuzzing.many import work_folder
from fuzzing.laying import ENDINGS, INSTALL, TO, UNINSTALL, VENDOR, Calls, Step, breaking_by, copied, ended_case, make_world, run_step, tried

CASES, POINTS = 40, 6
SUM = "0" * 64


class Worlds(unittest.TestCase):
    def setUp(self) -> None:
        self.folder = Path(self.enterContext(work_folder()))

    def test_random_trees(self) -> None:
        """The first cases of one seed; tools/fuzz --laying runs more."""
        for number in range(CASES):
            self.assertEqual(laying.try_case(4, number, self.folder)[1], [], number)

    def test_each_call(self) -> None:
        """An install over an older one, its removal and a vendoring, each ended at each of its calls, one in some of them."""
        for first, step, every in (
            (Step(INSTALL, "old"), Step(INSTALL, "new"), 7),
            (Step(INSTALL, "new"), Step(UNINSTALL), 7),
            (Step(VENDOR, "old"), Step(VENDOR, "new"), 31),
        ):
            world, done = self.folder / "world", self.folder / "done"
            make_world(world)
            run_step(first, world)
            counted = Calls()
            ended, wrong = tried(step, copied(world, done), breaking_by(counted))
            self.assertEqual((ended, wrong), ("done", []))
            for ending in ENDINGS:
                for last in range(1, counted.count + 1, every):
                    other = copied(world, self.folder / "other")
                    found = list(ended_case(step, done, other, ended, breaking_by(Calls(last, ending))))
                    self.assertEqual(found, [], (step, ending, last))
            laying.clear(world)

    @unittest.skipUnless(traced.has_strace(), "needs strace")
    def test_traced(self) -> None:
        """Processes that are ended at a call; tools/fuzz --traced tries more."""
        for case in traced.chosen(self.folder, POINTS, 1):
            self.assertEqual(traced.try_point(case, self.folder)[1], [], case)

    def test_judged(self) -> None:
        """A tool that writes outside, takes what isn't listed, or leaves half a file is found."""
        world, step = self.folder / "world", Step(INSTALL, "old")
        bad = {
            "something outside is changed": lambda root: (root / laying.OUTSIDE / "id").write_text("x"),
            "bin/own was not listed": lambda root: (root / TO / "bin/own").unlink(),
            "include/kuspveli.h is none of the entries": lambda root: write_files(root / TO, {"include/kuspveli.h": "int"}),
        }
        for wanted, do in bad.items():
            make_world(world)
            how = laying.Breaking("", False, lambda step, root: [do(root), "done"][1])
            self.assertIn(wanted, " ".join(tried(step, world, how)[1]))
            laying.clear(world)


class Lists(unittest.TestCase):
    """What no list may say."""

    def setUp(self) -> None:
        self.folder = Path(self.enterContext(tempfile.TemporaryDirectory()))
        self.tops = Tops(("crates",), 3)

    def read(self, content: bytes) -> Listed:
        (self.folder / "list").write_bytes(content)
        with Below(self.folder) as below:
            return read_list(below, "list", self.tops)

    def test_refused(self) -> None:
        rows = ("assets/id", "crates/one", "one", "/etc/passwd", "crates/../../x/y", "crates//a/b", "crates/./a/b", "crates/a/b\0c")
        for name in rows:
            self.assertRaisesRegex(ToolFault, "line 2 is no sum and name", self.read, f"{SUM}  crates/a/b\n{SUM}  {name}\n".encode())
        for line in ("x", SUM, f"{SUM} crates/a/b", f"{'g' * 64}  crates/a/b", "# folder ..", "# unfinished ../x", "# above -1"):
            self.assertRaisesRegex(ToolFault, "line 1 is no sum and name", self.read, f"{line}\n".encode())
        self.assertRaisesRegex(ToolFault, "no UTF-8 at byte 1, and nothing is changed", self.read, b"a\xff\n")

    def test_read(self) -> None:
        """A file may have several sums while a run goes on; a last line that was cut is none."""
        other = "1" * 64
        text = f"# unfinished .kuspveli-{'a' * 32}\n# above 2\n# folder crates/a\n{SUM}  crates/a/b\n{other}  crates/a/b\n{SUM}  cra"
        listed = self.read(text.encode())
        self.assertEqual(listed.files, {"crates/a/b": {SUM, other}})
        self.assertEqual((listed.folders, listed.above, listed.new), ({"crates/a"}, 2, f".kuspveli-{'a' * 32}"))
        self.assertEqual(listed.text(), text.removesuffix(f"{SUM}  cra"))

    def test_links_in_the_way(self) -> None:
        (self.folder / "inner").mkdir()
        (self.folder / "link").symlink_to("inner")
        (self.folder / "inner" / "file").symlink_to("../list")
        with Below(self.folder) as below:
            for name in ("link/x", "link"):
                self.assertRaisesRegex(ToolFault, "link: a link stands in the way", below.files, name)
            self.assertRaisesRegex(ToolFault, "link: a link stands in the way", below.write, "link/x", "new", b"")
            self.assertRaisesRegex(ToolFault, "file: a link stands there", below.read, "inner/file")
            self.assertEqual(below.identity("inner/file"), "-> ../list")


class Commands(unittest.TestCase):
    """The tools as commands, in the trees of another's clone."""

    def setUp(self) -> None:
        self.folder = Path(self.enterContext(tempfile.TemporaryDirectory()))
        write_files(self.folder, {"r/crates.txt": "#\n", "r/src/main.rt": "own\n", "p/id": "key\n"})
        (self.folder / "r/crates/kuspveli").mkdir(parents=True)

    def refused(self, says: str) -> None:
        ran = subprocess.run([TOOLS / "vendor", self.folder / "r"], capture_output=True, text=True, check=False)
        self.assertEqual((ran.returncode, ran.stdout, ran.stderr.count("\n")), (3, "", 1), ran.stderr)
        self.assertIn(says, ran.stderr)
        for name, text in (("r/src/main.rt", "own\n"), ("p/id", "key\n")):
            self.assertEqual((self.folder / name).read_text(), text)
        self.assertEqual(os.listdir(self.folder / "p"), ["id"])

    def test_lists(self) -> None:
        (self.folder / "r/assets").symlink_to("../p")
        sums = self.folder / "r/crates/kuspveli/vendored.sha256"
        for name in ("assets/id", "src/main.rt", "one"):
            sums.write_text(f"{SUM}  {name}\n")
            self.refused("line 1 is no sum and name of a file below crates")
        sums.write_bytes(b"\xff\n")
        self.refused("vendored.sha256: no UTF-8 at byte 0")
        sums.unlink()
        write_files(self.folder, {"r/crates.txt": ""})
        (self.folder / "r/crates.txt").write_bytes(b"\xff\n")
        self.refused("crates.txt: no UTF-8 at byte 0")

    def test_links(self) -> None:
        for name, target in (("crates/kuspveli/vendored.sha256", "../../../p/id"), ("crates.txt", "../p/id"), ("crates", "../p")):
            path = self.folder / "r" / name
            laying.clear(path)
            path.symlink_to(target)
            self.refused(f"{name}: a link stands")
            path.unlink()
            write_files(self.folder, {"r/crates.txt": "#\n"})


if __name__ == "__main__":
    unittest.main()
