"""tools/instead: its words, what it reports, and a program that shapes in many ways, with Kuspveli and without."""

import contextlib
import io
import json
import os
import re
import shutil
import subprocess
import tempfile
import unittest
import unittest.mock
from pathlib import Path
from typing import Any
from xml.etree import ElementTree

from support import DEJAVU, NASKH, TOOLS, needs_fonts, run

from building.places import LIBRARY, standing
from beside.sets import SETS
from clients import cli as client_cli
from clients import texts
from clients.runs import CLIENTS, Client, run_client
from clients.texts import Paragraph
from common.faults import ToolFault
from preload import cli
from preload.reports import OWN, difference_lines, report_lines, rows_of, summed
from preload.shared_object import COMPILED, OBJECT, SOURCES, can_make, object_over, ready_object

CLIENT = TOOLS.parent / "bindings" / "harfbuzz" / "test" / "client.c"
PLACE = standing(LIBRARY)
needs_library = unittest.skipUnless(
    can_make() and PLACE.file.is_file() and Path(DEJAVU).is_file() and Path(NASKH).is_file(),
    "needs gcc, pkg-config, libharfbuzz-dev, fonts-dejavu-core, fonts-noto-core and a library that is built",
)
# By how much a number may differ from one that is rounded otherwise.
ROUNDING = 1
# A glyph as HarfBuzz writes it: number, cluster, offsets where there are some, advances.
GLYPH = re.compile(r"(\d+)=(\d+)(?:@(-?\d+),(-?\d+))?\+(-?\d+)(?:,(-?\d+))?")


def row(program: str = "p", **changed: Any) -> dict[str, Any]:
    """A process's report."""
    plain = {
        "program": program, "process": 1, "characters": 10, "fonts": 1, "font_ns": 2_000_000,
        "calls": {OWN: 3}, "patches": {}, "differences": {},
    }  # fmt: skip
    return {**plain, **changed}


DEVICES = """
markClass acute <anchor 101 303 <device 12 2> <device 12 -3>> @TOP;
markClass grave <anchor 77 355> @TOP;
feature kern {
    pos a b <3 5 -31 0 <device 12 1> <device NULL> <device 11 -1, 12 -2> <device NULL>>;
} kern;
feature mark {
    pos base a <anchor 203 507 <device 11 7, 12 -5> <device NULL>> mark @TOP;
    pos base b <anchor 203 507> mark @TOP;
} mark;
feature mkmk { pos mark acute <anchor 99 613> mark @TOP; } mkmk;
"""


MARKS = """
markClass acute <anchor 101 303> @TOP;
feature mark { pos base a <anchor 203 507> mark @TOP; pos base b <anchor 203 507> mark @TOP; } mark;
"""


def write_font(path: Path, features: str, kern: dict[tuple[str, str], int] | None = None) -> str:
    """A font of two letters and two marks."""
    from fontTools.feaLib.builder import addOpenTypeFeaturesFromString
    from fontTools.fontBuilder import FontBuilder
    from fontTools.pens.ttGlyphPen import TTGlyphPen
    from fontTools.ttLib import newTable
    from fontTools.ttLib.tables._k_e_r_n import KernTable_format_0

    names = [".notdef", "a", "b", "acute", "grave"]
    font = FontBuilder(1000, isTTF=True)
    font.setupGlyphOrder(names)
    font.setupCharacterMap({ord("a"): "a", ord("b"): "b", 0x301: "acute", 0x300: "grave"})
    font.setupGlyf({name: TTGlyphPen(None).glyph() for name in names})
    font.setupHorizontalMetrics({name: (503, 10) for name in names})
    font.setupHorizontalHeader(ascent=800, descent=-200)
    font.setupOS2()
    font.setupNameTable({"familyName": "Marks"})
    font.setupPost()
    addOpenTypeFeaturesFromString(font.font, features)
    if kern:
        font.font["kern"] = table = newTable("kern")
        pairs = KernTable_format_0()
        pairs.coverage, pairs.kernTable, pairs.apple = 1, kern, False
        table.version, table.kernTables = 0, [pairs]
    font.save(path)
    return str(path)


class Words(unittest.TestCase):
    def test_words(self) -> None:
        given = cli.read_words(["--report", "--compare=d", "p", "--report", "x"])
        self.assertEqual((given.program, given.report, given.compare), (["p", "--report", "x"], "", "d"))
        given = cli.read_words(["--", "-p"])
        self.assertEqual((given.program, given.report, given.compare), (["-p"], None, None))

    def test_faults(self) -> None:
        for words, status, told in (
            ((), 2, b"instead: no program is named (tools/instead --help)\n"),
            (("--report",), 2, b"instead: no program is named (tools/instead --help)\n"),
            (("--reports", "p"), 2, b"instead: no option: --reports (tools/instead --help)\n"),
            (("--report=", "p"), 2, b"instead: no option: --report= (tools/instead --help)\n"),
            (("no-such-program",), 6, b"instead: no-such-program: no such program\n"),
        ):
            with self.subTest(words):
                ran = run("instead", *words)
                self.assertEqual((ran.returncode, ran.stdout, ran.stderr), (status, b"", told))
        ran = run("instead", "--help")
        self.assertEqual((ran.returncode, ran.stderr), (0, b""))
        self.assertIn(b"PROGRAM [ARGUMENT ..]", ran.stdout)

    def test_preloaded(self) -> None:
        """What is preloaded already stays."""
        with unittest.mock.patch.dict(os.environ, {"LD_PRELOAD": "/x.so"}):
            self.assertEqual(cli.preloaded(Path("/o.so"))["LD_PRELOAD"], "/o.so:/x.so")

    def test_spaces(self) -> None:
        """The loader parts what is preloaded at spaces: an object below such a folder is found by its name."""
        with unittest.mock.patch.dict(os.environ, {"LD_PRELOAD": "", "LD_LIBRARY_PATH": "/y"}):
            found = cli.preloaded(Path("/a b/o.so"))
            self.assertEqual((found["LD_PRELOAD"], found["LD_LIBRARY_PATH"]), ("o.so", "/a b:/y"))
            self.assertRaisesRegex(ToolFault, "/a:b/o.so: nothing is preloaded", cli.preloaded, Path("/a:b/o.so"))


class Reports(unittest.TestCase):
    def test_sums(self) -> None:
        """The processes of a program are summed, and a cut line is passed over."""
        with tempfile.TemporaryDirectory() as name:
            path = Path(name) / "reports"
            lines = [json.dumps(each) for each in (row(), row(calls={OWN: 1, "clusters fall": 2}), row("q"))]
            path.write_text("\n".join([*lines, '{"program":"p","call']))
            reports = summed(rows_of(path))
        self.assertEqual([(name, each.own, each.all) for name, each in reports.items()], [("p", 4, 6), ("q", 3, 3)])
        self.assertEqual(report_lines(reports)[:3], [
            "p: 4 of 6 texts shaped by Kuspveli, of 20 characters", "2 by HarfBuzz: clusters fall", "2 fonts read in 4.0 ms",
        ])  # fmt: skip

    def test_nothing(self) -> None:
        self.assertEqual(rows_of(Path("/no/such/file")), [])
        self.assertRegex(report_lines({})[0], "no process shaped a text by libharfbuzz")

    def test_differences(self) -> None:
        """Texts that are the same but for rounding, and how a difference is told."""
        report = summed([row(differences={"equal": 5, "within 1 unit": 2, "glyphs": 1})])["p"]
        self.assertEqual((report.same, report.differences.total()), (7, 8))
        told = {
            "what": "glyphs", "text": [111, 102], "font": "F", "script": "Latn", "direction": "ltr", "language": "en",
            "features": "", "before": [65], "after": [], "kuspveli": "[1=0+5]", "harfbuzz": "[2=0+5]",
        }  # fmt: skip
        self.assertEqual(difference_lines(told), [
            "glyphs differ in 'of' (F; Latn, ltr, en, before 'A')", "Kuspveli [1=0+5]", "HarfBuzz [2=0+5]",
        ])  # fmt: skip


class Installed(unittest.TestCase):
    def test_installed(self) -> None:
        """Without sources the object that was installed is taken, and told where its library is unproved."""
        with tempfile.TemporaryDirectory() as name, contextlib.redirect_stderr(io.StringIO()) as told:
            root = Path(name)
            self.assertRaisesRegex(ToolFault, "was not installed", ready_object, "instead", root)
            for folder, line in (("out/unproved", "instead: libkuspveli is unproved"), ("out", "")):
                path = root / folder / OBJECT
                path.parent.mkdir(exist_ok=True, parents=True)
                path.touch()
                told.truncate(0)
                self.assertEqual(ready_object("instead", root), path)
                self.assertIn(line, told.getvalue())
                self.assertEqual(bool(line), bool(told.getvalue()))


@needs_library
class Programs(unittest.TestCase):
    """A program that prints its glyphs: with Kuspveli it prints what HarfBuzz does, but for rounding."""

    folder: "tempfile.TemporaryDirectory[str]"

    @classmethod
    def setUpClass(cls) -> None:
        cls.folder = tempfile.TemporaryDirectory()
        cls.addClassCleanup(cls.folder.cleanup)
        cls.object = object_over(PLACE)
        cls.client = Path(cls.folder.name) / "client"
        flags = subprocess.run(["pkg-config", "--cflags", "--libs", "harfbuzz"], capture_output=True, text=True, check=True)
        words = ["gcc", "-std=c11", "-D_GNU_SOURCE", "-Wall", "-Wextra", "-Wpedantic", "-Werror", CLIENT, "-o", cls.client]
        subprocess.run([*words, *flags.stdout.split()], check=True)

    def shaped(self, *words: str, is_own: bool = True) -> tuple[str, dict[str, int], dict[str, int]]:
        """What a program prints, and the calls and patches that it reports."""
        reports = Path(self.folder.name) / "reports"
        reports.unlink(missing_ok=True)
        environment = dict(os.environ)
        if is_own:
            environment |= {"LD_PRELOAD": str(self.object), "KUSPVELI_REPORT": str(reports)}
        ran = subprocess.run(words, env=environment, capture_output=True, text=True, check=False)
        self.assertEqual((ran.returncode, ran.stderr), (0, ""))
        calls: dict[str, int] = {}
        patches: dict[str, int] = {}
        for each in rows_of(reports):
            for to, key in ((calls, "calls"), (patches, "patches")):
                for name, count in each[key].items():
                    to[name] = to.get(name, 0) + count
        return ran.stdout, calls, patches

    def both(self, case: str, font: str = DEJAVU) -> tuple[dict[str, int], dict[str, int]]:
        """Runs a case both ways, and compares the lines: all but numbers are the same, and these but for rounding."""
        return self.alike(str(self.client), font, case)

    def alike(self, *words: str) -> tuple[dict[str, int], dict[str, int]]:
        own, calls, patches = self.shaped(*words)
        theirs, _, _ = self.shaped(*words, is_own=False)
        self.assertEqual(GLYPH.sub("#", own), GLYPH.sub("#", theirs))
        self.assertIn("#", GLYPH.sub("#", theirs))
        for left, right in zip(GLYPH.findall(own), GLYPH.findall(theirs), strict=True):
            self.assertEqual(left[:2], right[:2], f"{own}\n{theirs}")
            for number, other in zip(left[2:], right[2:]):
                self.assertLessEqual(abs(int(number or 0) - int(other or 0)), ROUNDING, f"{own}\n{theirs}")
        return calls, patches

    def test_warnings(self) -> None:
        """The sources are compiled without a warning."""
        found = subprocess.run(["pkg-config", "--cflags", "harfbuzz"], capture_output=True, text=True, check=True)
        words = ["gcc", *COMPILED, "-Werror", "-fsyntax-only", f"-I{TOOLS.parent / 'include'}", *found.stdout.split()]
        ran = subprocess.run(
            [*words, *sorted((TOOLS.parent / SOURCES).glob("*.c"))], capture_output=True, text=True, check=False
        )
        self.assertEqual((ran.returncode, ran.stderr), (0, ""))

    def test_shaped(self) -> None:
        """What Kuspveli shapes whole: by a file and by tables, by each call, in each direction, with contexts."""
        for case, count in (("file", 5), ("tables", 5), ("contexts", 8), ("vertical", 2), ("slant", 5), ("scale", 20), ("bare", 3)):
            with self.subTest(case):
                self.assertEqual(self.both(case)[0], {OWN: count})
        for case, count in (("contexts", 8), ("file", 5)):
            with self.subTest(case, font=NASKH):
                self.assertEqual(self.both(case, NASKH)[0], {OWN: count})

    def test_client(self) -> None:
        """A client's advances, also below marks; its glyphs for missing characters. Invisible glyphs also where clusters fall,
        and a not-found glyph to which the font's rules apply."""
        calls, patches = self.both("advances")
        self.assertEqual(calls, {OWN: 5})
        self.assertEqual(patches["texts with the client's advances"] + patches["texts in the client's units"], 5)
        self.assertGreater(patches["texts in the client's units"], 2)
        calls, patches = self.both("missing")
        self.assertEqual((calls, patches["clusters with the client's glyphs for missing characters"]), ({OWN: 1}, 3))
        self.assertEqual(self.both("settings"), ({OWN: 9}, {}))

    def test_left(self) -> None:
        """What is left to HarfBuzz, and why."""
        for case, expected in (
            ("calls", {OWN: 2, "another shaper is asked for": 1}),
            ("clusters", {OWN: 3, "a character is no Unicode scalar value": 1}),
            ("messages", {"the client follows the steps of shaping": 1}),
            ("stack", {OWN: 1, "the thread's stack is too small": 1}),
            ("wide", {OWN: 2, "text: NoGlyph": 1}),
            ("nothing", {OWN: 1, "the face has no tables": 1}),
        ):
            with self.subTest(case):
                self.assertEqual(self.both(case)[0], expected)

    def test_threads(self) -> None:
        """Threads shape in one font at the same time. A child of a fork counts its own calls, and waits for no thread that it
        hasn't."""
        self.assertEqual(self.both("threads")[0], {OWN: 8000})
        self.assertEqual(self.both("fork")[0], {OWN: 6})
        self.assertEqual(set(self.both("forks")[0]), {OWN})

    @needs_fonts
    @unittest.skipUnless(shutil.which("hb-shape"), "needs libharfbuzz-bin")
    def test_instances(self) -> None:
        """A variable font at its default, and away from it: there it has other lookups, or values of its own."""
        from test_variations import write_font as write_varied

        font = write_varied(Path(self.folder.name) / "varied.ttf")
        for variations, expected in (
            ("wght=650", {"the font is an instance of a variable font": 1}),
            ("wght=450", {OWN: 1}),
            ("wght=400", {OWN: 1}),
        ):
            with self.subTest(variations):
                words = ("hb-shape", "--no-glyph-names", f"--variations={variations}", font, "ab")
                own, calls, _ = self.shaped(*words)
                self.assertEqual((own, calls), (self.shaped(*words, is_own=False)[0], expected))

    @unittest.skipUnless(shutil.which("hb-shape"), "needs libharfbuzz-bin")
    def test_devices(self) -> None:
        """At sizes in pixels values and anchors have what their device tables say, also where a mark stands on a mark."""
        font = write_font(Path(self.folder.name) / "devices.ttf", DEVICES)
        for pixels in (0, 11, 12):
            with self.subTest(pixels):
                sizes = (f"--font-size={64 * (pixels or 12)}", f"--font-ppem={pixels}")
                words = ("hb-shape", "--no-glyph-names", *sizes, font, "aba\u0301b\u0301\u0300")
                self.assertEqual(self.alike(*words)[0], {OWN: 1})

    @unittest.skipUnless(shutil.which("hb-shape"), "needs libharfbuzz-bin")
    def test_kern(self) -> None:
        """A value of kern is halved between a pair's glyphs, also where it has more than 16 bits in the font's units."""
        font = write_font(Path(self.folder.name) / "kern.ttf", MARKS, {("a", "b"): -61, ("b", "a"): 133})
        for size in (832, 12029, 21845, 200000):
            with self.subTest(size):
                words = ("hb-shape", "--no-glyph-names", f"--font-size={size}", font, "aba\u0301b\u0301")
                self.assertEqual(self.alike(*words)[0], {OWN: 1})

    @unittest.skipUnless(shutil.which("hb-shape"), "needs libharfbuzz-bin")
    def test_compared(self) -> None:
        """By both shapers the line is Kuspveli's, and the comparison is counted; a difference is written."""
        with tempfile.TemporaryDirectory() as name:
            found = Path(name) / "differences"
            environment = {
                **os.environ, "LD_PRELOAD": str(self.object), "KUSPVELI_COMPARE": str(found),
                "KUSPVELI_REPORT": f"{name}/reports",
            }  # fmt: skip
            # Arabic in a font without GSUB: HarfBuzz substitutes by Unicode's forms, as DIFFERENCES.md says.
            for text in ("office", "\u0645\u062d\u0645\u062f"):
                words = ["hb-shape", "--no-glyph-names", DEJAVU, text]
                subprocess.run(words, env=environment, check=True, capture_output=True)
            report = summed(rows_of(Path(name) / "reports"))["hb-shape"]
            self.assertEqual((report.own, report.differences.total()), (2, 2))
            self.assertEqual(len(rows_of(found)), report.differences.total() - report.differences["equal"])

    def test_tool(self) -> None:
        """The tool runs a program with its streams and status, and tells the report after it."""
        words = ["/usr/bin/python3", "-c", RUNNER, self.object, "--report", self.client, DEJAVU, "file"]
        ran = subprocess.run(words, cwd=TOOLS, capture_output=True, text=True, check=False)
        self.assertEqual(ran.returncode, 0, ran.stderr)
        self.assertIn("instead: client: 5 of 5 texts shaped by Kuspveli, of 38 characters\n", ran.stderr)
        words = ["/usr/bin/python3", "-c", RUNNER, self.object, self.client, "/no/such/font"]
        ran = subprocess.run(words, cwd=TOOLS, capture_output=True, check=False)
        self.assertEqual((ran.returncode, ran.stdout, ran.stderr), (2, b"", b""))


@needs_fonts
class Clients(unittest.TestCase):
    """bench/programs: its texts, its pictures, and a client that stands in for a program."""

    def setUp(self) -> None:
        folder = tempfile.TemporaryDirectory()
        self.addCleanup(folder.cleanup)
        self.folder = Path(folder.name)

    def test_texts(self) -> None:
        """Each file has the paragraphs' lines, by a reader of its kind where Python has one."""
        each = Paragraph("Hebrew", Path("/f.ttf"), "A & B", "he", True, "a<b & c " * 20)
        self.assertGreater(len(each.lines), 3)
        self.assertLessEqual(max(map(len, each.lines)), texts.WIDTH)
        lines = [node.text for node in ElementTree.fromstring(texts.svg_of([each])).iter() if node.tag.endswith("}text")]
        self.assertEqual(lines, each.lines[:3])
        rows = [node.text for node in ElementTree.fromstring(texts.fodt_of([each])).iter() if node.tag.endswith("}p")]
        self.assertEqual(rows, [each.text])
        self.assertIn("a&lt;b &amp; c", texts.html_of([each]))
        self.assertIn(f"0:00:01.00,0:00:02.00,Hebrew,,0,0,0,,{each.lines[0]}", texts.subtitles_of([each, each]))
        # Ten fonts have names of their own, none of which TeX has.
        names = re.findall(r"\\font\\(\w+)=", texts.tex_of([each] * 10))
        self.assertEqual(len(set(names)), 10)
        self.assertNotIn("fi", names)

    def test_pictures(self) -> None:
        """Equal pictures, pixels that differ, two sizes, and one that is missing."""
        import cairo
        from clients.pictures import Compared

        paths = []
        for number, (width, grey) in enumerate(((4, 0.0), (4, 0.0), (4, 1.0), (6, 0.0))):
            surface = cairo.ImageSurface(cairo.FORMAT_RGB24, width, 3)
            context = cairo.Context(surface)
            context.set_source_rgb(grey, grey, grey)
            context.rectangle(1, 1, 2, 1)
            context.fill()
            paths.append(self.folder / f"{number}.png")
            surface.write_to_png(str(paths[-1]))
        for other, expected in ((1, (1, 1, 12, 0, 0)), (2, (1, 0, 12, 2, 255)), (3, (1, 0, 18, 18, 255))):
            found = Compared()
            found.add(paths[0], paths[other])
            self.assertEqual((found.pictures, found.equal, found.pixels, found.differing, found.worst), expected)
        found = Compared()
        found.add(paths[0], self.folder / "none.png")
        self.assertEqual((found.pictures, found.equal), (1, 0))

    def test_run(self) -> None:
        """A client has settings in its environment; one that fails is told."""
        for status in (0, 3):
            work = lambda folder, paragraphs: [["sh", "-c", f'echo "$KUSPVELI_REPORT" >said; exit {status}']]
            client = Client("C", "sh", "dash", work)
            with contextlib.redirect_stderr(io.StringIO()) as told:
                self.assertIs(run_client(client, self.folder / str(status), [], {"KUSPVELI_REPORT": "r"}), not status)
            self.assertEqual((self.folder / str(status) / "said").read_text(), "r\n")
            self.assertEqual(told.getvalue(), "C: sh ended with 3: \n" if status else "")
        self.assertFalse(Client("C", "no-such-program", "p", work).is_there())

    def test_times(self) -> None:
        """Programs run both ways in turn, and the table has the least time of each way."""
        ran = self.folder / "ran"
        busy = f'i=0; while [ $i -lt 9000 ]; do i=$((i+1)); done; echo "$LD_PRELOAD" >>"{ran}"'
        work = lambda folder, paragraphs: [["sh", "-c", busy]]
        with contextlib.redirect_stdout(io.StringIO()) as told, unittest.mock.patch.object(client_cli, "paragraphs"):
            self.assertEqual(client_cli.tell_times([Client("C", "sh", "dash", work)], Path("/no/object.so"), 2), 0)
        self.assertEqual([line[-6:] for line in ran.read_text().splitlines()], ["", "ect.so"] * 2)
        self.assertRegex(told.getvalue().splitlines()[-1], r"^\| C \| \d+\.\d\d \| \d+\.\d\d \| \d+\.\d\d \|$")

    def test_hinted(self) -> None:
        """Each set has lines enough, and its own font."""
        work = next(client for client in CLIENTS if client.name == "hb-shape, hinted").work(self.folder, [])
        for words in work:
            [text] = [word.partition("=")[2] for word in words if word.startswith("--text-file=")]
            self.assertEqual(len(Path(text).read_text(encoding="utf-8").splitlines()), texts.HINTED)
        self.assertEqual(len(work), len(SETS))


# Runs the tool with an object that is there.
RUNNER = """
import sys
from pathlib import Path
from common.faults import ToolFault
from preload import cli
shared = Path(sys.argv[1])
cli.ready_object = lambda name: shared
sys.exit(cli.main(sys.argv[2:]))
"""


if __name__ == "__main__":
    unittest.main()
