"""Installing: what stands below the prefix, what is refused and left, and what is installed as it is used."""

import contextlib
import io
import json
import os
import shutil
import subprocess
import tempfile
import unittest
from pathlib import Path
from unittest import mock

from support import DEJAVU, NASKH, write_files

from building.places import KUSPVELI, LIBRARY, PROGRAM, Place, standing
from common.faults import ToolFault
from common.version import soname, version
from installing import cli, layout, placing
from common.plan import Entry
from installing.layout import COMMANDS, check_prefix, pkg_config
from preload.shared_object import OBJECT, can_make
from sources.crates import ROOT

VERSION = version()
# The version in which the calls came that the program here makes.
SYMBOLS = "KUSPVELI_0.1"
NEEDED = ("gcc", "pkg-config")
# The words that a shell reads of what pkg-config prints, each with a byte 0 after it.
PRINTED = """eval "printf '%s\\\\0' $(pkg-config --cflags --libs kuspveli)\""""
# Shapes one letter of a font without rules.
OWN_C = """#include <kuspveli.h>
#include <stdio.h>
#include <string.h>
#define READ(text) (const uint8_t *) text, strlen (text)
int main (void) {
  kus_font_t font = KUS_FONT_INIT; kus_text_t text = kus_text ("a", 1); size_t n = 0;
  kus_glyph_info_t glyph; kus_glyph_position_t at;
  if (kus_font_create (&font, READ ("{}"), READ ("{\\"upem\\":9,\\"cmap\\":[[97,3]],\\"h\\":[[3,5]]}"))) return 1;
  if (kus_shape (&font, &text, &glyph, 1, &at, 1, &n) || n != 1) return 2;
  printf ("%u+%d\\n", glyph.codepoint, at.x_advance);
}
"""


def call(words: list[str | Path], **more: str) -> str:
    """What a command prints; it has to succeed."""
    ran = subprocess.run(words, capture_output=True, text=True, check=False, env={**os.environ, **more})
    if ran.returncode:
        raise AssertionError(f"{words}: status {ran.returncode}: {ran.stderr[-2000:]}")
    return ran.stdout


def files_below(folder: Path) -> set[str]:
    return {str(path.relative_to(folder)) for path in folder.rglob("*") if path.is_symlink() or path.is_file()}


class Placing(unittest.TestCase):
    """Entries below a prefix."""

    def setUp(self) -> None:
        folder = tempfile.TemporaryDirectory()
        self.addCleanup(folder.cleanup)
        self.prefix = Path(folder.name) / "prefix"
        write_files(self.prefix, {"bin/own": "own", "include/own.h": "own"})
        self.before = files_below(self.prefix)
        self.entries = {
            "bin/tool": Entry(link="../lib/kuspveli/tools/tool"),
            "lib/kuspveli/tools/tool": Entry(b"#!/bin/sh\n", 0o755),
            "lib/kuspveli/tools/part/deep.py": Entry(b"x = 1\n", 0o644),
        }

    def test_placed(self) -> None:
        """Files with their modes and links; a second time nothing changes; sha256sum reads the list."""
        self.assertEqual(placing.place_all(self.prefix, self.entries), 3)
        noted = {placing.SUMS}
        self.assertEqual(files_below(self.prefix), self.before | set(self.entries) | noted)
        self.assertTrue(os.access(self.prefix / "bin/tool", os.X_OK))
        self.assertEqual(os.readlink(self.prefix / "bin/tool"), "../lib/kuspveli/tools/tool")
        self.assertEqual(placing.place_all(self.prefix, self.entries), 0)
        subprocess.run(["sha256sum", "-c", "--quiet", placing.SUMS], cwd=self.prefix, check=True)

    def test_removed(self) -> None:
        """What was put there goes with its folders and what Python kept; what was there before stays."""
        placing.place_all(self.prefix, self.entries)
        write_files(self.prefix, {"lib/kuspveli/tools/part/__pycache__/deep.pyc": ""})
        self.assertEqual(placing.remove_all(self.prefix), (3, []))
        self.assertEqual(files_below(self.prefix), self.before)
        self.assertEqual({path.name for path in self.prefix.iterdir()}, {"bin", "include"})
        self.assertRaisesRegex(ToolFault, "install put nothing there", placing.remove_all, self.prefix)

    def test_changed(self) -> None:
        """A file that was changed is left by a removal, and refused by a second run."""
        placing.place_all(self.prefix, self.entries)
        changed = self.prefix / "lib/kuspveli/tools/part/deep.py"
        changed.write_text("x = 2\n")
        newer = {**self.entries, "lib/kuspveli/tools/part/deep.py": Entry(b"x = 3\n")}
        self.assertRaisesRegex(
            ToolFault, "deep.py was changed since it was installed", placing.place_all, self.prefix, newer
        )
        self.assertEqual(placing.remove_all(self.prefix), (2, [changed]))
        self.assertEqual(files_below(self.prefix), self.before | {"lib/kuspveli/tools/part/deep.py"})

    def test_strangers(self) -> None:
        """What stands in the way and was not put there is refused, and nothing is written."""
        for stranger in ("bin/tool", "lib/kuspveli/tools/tool"):
            write_files(self.prefix, {stranger: "own"})
            with self.assertRaisesRegex(ToolFault, f"{stranger} was not put there by install"):
                placing.place_all(self.prefix, self.entries)
            self.assertEqual(files_below(self.prefix), self.before | {stranger})
            (self.prefix / stranger).unlink()

    def test_newer(self) -> None:
        """A newer version replaces what changed, and removes what it lacks."""
        placing.place_all(self.prefix, self.entries)
        newer = {name: entry for name, entry in self.entries.items() if "deep" not in name}
        newer["lib/kuspveli/tools/tool"] = Entry(b"#!/bin/sh\nnew\n", 0o755)
        self.assertEqual(placing.place_all(self.prefix, newer), 1)
        self.assertFalse((self.prefix / "lib/kuspveli/tools/part/deep.py").exists())
        self.assertEqual(placing.remove_all(self.prefix), (2, []))
        self.assertEqual(files_below(self.prefix), self.before)

    def test_cut_short(self) -> None:
        """A run that was ended before its list was written is done again."""
        placing.place_all(self.prefix, self.entries)
        (self.prefix / placing.SUMS).unlink()
        self.assertEqual(placing.place_all(self.prefix, self.entries), 0)


class Words(unittest.TestCase):
    def test_pkg_config(self) -> None:
        text = pkg_config(Path("/opt/a b"), "0.1.0", is_proved=False)
        self.assertIn(b"prefix=/opt/a\\ b\n", text)
        self.assertIn(b"built without its proofs", text)
        self.assertNotIn(b"without", pkg_config(Path("/opt"), "0.1.0", is_proved=True))

    @unittest.skipUnless(shutil.which("pkg-config"), "needs pkg-config")
    def test_prefixes(self) -> None:
        """Of each character that a folder's name may have, a prefix is refused, or pkg-config prints it for a shell."""
        refused = []
        with tempfile.TemporaryDirectory() as folder:
            for character in [*map(chr, range(1, 127)), "é", "字", "\udcff", "# $"]:
                if character == "/":
                    continue
                prefix = Path(f"/opt/a{character}b")
                try:
                    check_prefix(prefix)
                except ToolFault:
                    refused.append(character)
                    continue
                (Path(folder) / "kuspveli.pc").write_bytes(pkg_config(prefix, "0.1.0", is_proved=True))
                words = ["/bin/bash", "-c", PRINTED]
                ran = subprocess.run(words, capture_output=True, check=True, env={**os.environ, "PKG_CONFIG_PATH": folder})
                wanted = [f"-I{prefix}/include", f"-L{prefix}/lib", "-lkuspveli"]
                self.assertEqual(ran.stdout.split(b"\0")[:-1], list(map(os.fsencode, wanted)), repr(character))
        self.assertEqual(refused, ["\n", "\r", "$", "(", ")", "# $"])

    def test_not_built(self) -> None:
        """What is not built, or of older sources, is named with what builds it, and nothing is written."""
        with tempfile.TemporaryDirectory() as folder:
            places = {True: Place(PROGRAM, True, Path(folder)), False: Place(PROGRAM, False, Path(folder))}
            with self.assertRaisesRegex(ToolFault, "hb_shape is not built: tools/build builds it .*--unproved"):
                cli.check_built(places[True])
            with self.assertRaisesRegex(ToolFault, "not built: tools/build --unproved builds it$"):
                cli.check_built(places[False])
            with mock.patch.multiple(Place, stamp=lambda _: object(), is_current=lambda _: False):
                with self.assertRaisesRegex(ToolFault, "older sources: tools/build builds it anew"):
                    cli.check_built(places[True])

    def test_tools(self) -> None:
        """The commands come with each package that they import, and without tests and what Python keeps."""
        names = {str(path.relative_to(ROOT / "tools")) for path in layout.tool_files(ROOT / "tools")}
        wanted = {*COMMANDS.values(), "common/faults.py", "fontjson/program.py", "preload/cli.py", "machines/indic.txt"}
        self.assertLessEqual({*wanted, "unicodejson/data/thai.txt"}, names)
        self.assertFalse([name for name in names if name.startswith("tests/") or name.endswith(".pyc")])


@unittest.skipUnless(all(map(shutil.which, NEEDED)), "needs gcc and pkg-config")
@unittest.skipUnless(
    all(standing(target).is_current() for target in (PROGRAM, LIBRARY, KUSPVELI)), "needs tools/build and tools/build_library"
)
class Installed(unittest.TestCase):
    """What is built here, proved or not, below a prefix, used from another folder."""

    @classmethod
    def setUpClass(cls) -> None:
        cls.folder = Path(cls.enterClassContext(tempfile.TemporaryDirectory()))
        cls.prefix = cls.folder / "prefix"
        places = [standing(target) for target in (PROGRAM, LIBRARY, KUSPVELI)]
        placing.place_all(cls.prefix, layout.layout(ROOT, cls.prefix, *places))
        cls.found = {"PKG_CONFIG_PATH": str(cls.prefix / "lib" / "pkgconfig"), "XDG_CACHE_HOME": str(cls.folder)}

    def test_c(self) -> None:
        """A program in C by pkg-config, which is loaded by the soname and wants the symbols' version."""
        source, made = self.folder / "own.c", self.folder / "own"
        source.write_text(OWN_C, encoding="utf-8")
        self.assertEqual(call(["pkg-config", "--modversion", "kuspveli"], **self.found), f"{VERSION}\n")
        flags = call(["pkg-config", "--cflags", "--libs", "kuspveli"], **self.found).split()
        call(["gcc", "-Wall", "-Werror", source, *flags, "-o", made])
        self.assertEqual(call([made], LD_LIBRARY_PATH=str(self.prefix / "lib")), "3+5\n")
        needs = call(["readelf", "-dV", "--wide", made])
        self.assertIn(f"[{soname(VERSION)}]", needs)
        self.assertIn(SYMBOLS, needs)

    def test_symbols(self) -> None:
        """The shared library defines the header's calls and nothing else."""
        listed = call(["nm", "-D", "--defined-only", "--format=just-symbols", self.prefix / "lib" / "libkuspveli.so"])
        names = {line.partition("@")[0] for line in listed.split()}
        self.assertLessEqual({"kus_shape", SYMBOLS}, names)
        self.assertEqual([name for name in names if not name.startswith(("kus_", "KUSPVELI_"))], [])

    def test_commands(self) -> None:
        """Each command answers by itself, and shapes with the installed program and tables."""
        for name in COMMANDS:
            self.assertIn("usage", call([self.prefix / "bin" / name, "--help"], **self.found), name)
        files = [ROOT / "examples" / name for name in ("tables.json", "ligature_font.json", "ligature_text.txt")]
        shaped = call([self.prefix / "bin" / "kuspveli-hb-shape", "--no-glyph-names", *files])
        self.assertEqual(shaped, "1=0+500|7=1+520\n")
        if Path(DEJAVU).is_file():
            shaped = call([self.prefix / "bin" / "kuspveli-shape", DEJAVU, "office"], **self.found)
            self.assertEqual(shaped, "o=0+1253|uniFB03=1+1980|c=4+1126|e=5+1260\n")

    @unittest.skipUnless(Path(NASKH).is_file(), "needs fonts-noto-core")
    def test_library(self) -> None:
        """A letter before another one, which the program has no word for, is the second glyph of both in their line."""
        shape = [self.prefix / "bin" / "kuspveli-shape", NASKH, "--no-glyph-names", "--no-clusters"]
        both = call([*shape, "لل"], **self.found).rstrip()
        initial = call([*shape, "ل", "--text-after=ل"], **self.found).rstrip()
        self.assertEqual(both.split("|")[1:], [initial])

    @unittest.skipUnless(can_make() and shutil.which("hb-shape") and Path(DEJAVU).is_file(), "needs libharfbuzz-dev and hb-shape")
    def test_instead(self) -> None:
        """A program's texts are shaped by Kuspveli, by the installed object."""
        [shared] = self.prefix.glob(f"lib/kuspveli/out/**/{OBJECT}")
        self.assertEqual(shared.stat().st_mode & 0o777, 0o644)
        words = [self.prefix / "bin" / "kuspveli-instead", "--report", "hb-shape", "--no-glyph-names", DEJAVU, "office"]
        ran = subprocess.run(words, capture_output=True, text=True, check=True)
        self.assertEqual(ran.stdout, "[82=0+1253|5044=1+1980|70=4+1126|72=5+1260]\n")
        self.assertIn("instead: hb-shape: 1 of 1 texts shaped by Kuspveli, of 6 characters\n", ran.stderr)

    def test_font(self) -> None:
        """The converter's program stands beside it."""
        font = ROOT / "crates" / "kuspveli_program" / "data" / "font.ttf"
        value = json.loads(call([self.prefix / "bin" / "kuspveli-font-to-json", font], **self.found))
        self.assertEqual((value["format"], value["upem"]), ("kuspveli-font", 1000))

    def test_away(self) -> None:
        """No installed tool names the clone: the folder may go."""
        program = self.prefix / "lib" / "kuspveli"
        words = [
            "/usr/bin/python3",
            "-c",
            f"import sys; sys.path.insert(0, '{program}/tools'); from sources import crates; print(crates.ROOT)",
        ]
        self.assertEqual(call(words).strip(), str(program))

    def test_again(self) -> None:
        """install and --uninstall as commands."""
        prefix = self.folder / "other"
        words = [] if standing(PROGRAM).is_proved and standing(LIBRARY).is_proved else ["--unproved"]
        with contextlib.redirect_stdout(io.StringIO()) as shown:
            self.assertEqual(cli.main([str(prefix), *words]), 0)
            self.assertIn(f"what is linked to {prefix}/lib/{soname(VERSION)} finds it after ldconfig", shown.getvalue())
            self.assertEqual(cli.main([str(prefix), "--uninstall"]), 0)
        self.assertEqual("unproved" in shown.getvalue(), bool(words))
        self.assertFalse(prefix.exists())


if __name__ == "__main__":
    unittest.main()
