"""Faces by bytes and by JSON: what is told of stand-ins for the program, and the converter of another commit."""

import copy
import json
import tempfile
import unittest
from pathlib import Path
from typing import Any, Callable
from unittest import mock

from support import DEJAVU, needs_fonts, told_by, write_stand_in

from beside import faces_cli
from beside.faces_try import CONVERTER, differences, indices, meaning
from common.faults import ToolFault

REFUSED = "echo kuspveli: F1 Short in cmap at 12 >&2; exit 3"
VALUE = {"format": "kuspveli-font", "source": {}, "upem": 1000, "ascender": 800, "h": [[0, 500], [1, 500], [2, 0], [3, 500]]}
# A stand-in for font_to_json of a commit.
CONVERTING = """case $3 in *cut.ttf) echo "font_to_json: $3: the font is cut short" >&2; exit 3;; esac
cat {folder}/value"""


@needs_fonts
class Faces(unittest.TestCase):
    def setUp(self) -> None:
        folder = tempfile.TemporaryDirectory()
        self.addCleanup(folder.cleanup)
        self.folder = Path(folder.name)
        (self.folder / "fonts").mkdir()
        (self.folder / "fonts" / "a.ttf").write_bytes(small())
        (self.folder / "fonts" / "cut.ttf").write_bytes(small()[:100])
        (self.folder / "value").write_text(json.dumps(VALUE))
        write_stand_in(self.folder / CONVERTER, CONVERTING.format(folder=folder.name))
        self.enterContext(mock.patch.object(faces_cli, "tools_of", lambda commit: self.folder))

    def told(self, body: str, *words: str) -> tuple[int, list[str]]:
        program = write_stand_in(self.folder / "kuspveli", body)
        by = words if "--alone" in words else ("--converter=HEAD", *words)
        status, out = told_by(faces_cli.main, str(self.folder / "fonts"), f"--program={program}", *by)
        return status, sorted(out.splitlines())

    def printing(self, change: Callable[[Any], None] = lambda value: None) -> str:
        """A stand-in that prints for each font what the converter makes of the whole one, with a change."""
        value = copy.deepcopy(VALUE)
        change(value)
        (self.folder / "printed").write_text(json.dumps(value))
        return f"cat {self.folder}/printed"

    def test_ends(self) -> None:
        """Each font ends as the same, as another, or as refused by one of the two or by both."""
        cut = f"{self.folder}/fonts/cut.ttf 0"
        status, lines = self.told(self.printing())
        self.assertEqual(lines[0], "2 files, 2 fonts: 1 same, 0 differs, 0 refused, 1 not converted, 0 refused by both")
        self.assertEqual(status, 0)
        self.assertTrue(lines[1].startswith(f"not converted: {cut}: font_to_json: the font is cut short"), lines)
        whole = f"{self.folder}/fonts/a.ttf 0"
        for change, where in (
            (lambda value: value.update(upem=999), "upem: 999 where the converter has 1000"),
            (lambda value: value.pop("ascender"), "ascender: None where the converter has 800"),
            (lambda value: value.pop("h"), "h[0]: None where the converter has [0, 500]"),
            (lambda value: value["h"].pop(), "h[3]: None where the converter has [3, 500]"),
            (lambda value: value["h"][1].append(2), "h[1][2]: 2 where the converter has None"),
        ):
            status, lines = self.told(self.printing(change))
            self.assertEqual(status, 1)
            self.assertTrue(lines[1].startswith(f"differs: {whole}: {where}"), lines)
        status, lines = self.told(REFUSED)
        self.assertEqual(status, 0)
        self.assertTrue(lines[2].startswith(f"refused: {whole}: kuspveli: F1 Short in cmap at 12"), lines)
        both = f"refused by both: {cut}: kuspveli: F1 Short in cmap at 12; font_to_json: "
        self.assertTrue(lines[1].startswith(both), lines)

    def test_alone(self) -> None:
        """Without the converter a font is read or refused."""
        status, lines = self.told("case $3 in *cut.ttf) exit 3;; esac", "--alone")
        refused = f"refused: {self.folder}/fonts/cut.ttf 0: status 3"
        self.assertEqual((status, lines[0]), (0, "2 files, 2 fonts: 1 read, 1 refused"))
        self.assertTrue(lines[1].startswith(refused), lines)

    def test_meaning(self) -> None:
        """What is written in two ways is the same: no rows, no flags, coverages and first glyphs in another order."""
        rule, in_order = [[[2, 1]], [[1], [3, 2]], [], []], [[[1, 2]], [[1], [2, 3]], [], []]
        lookups = [
            {"type": "chain", "subtables": [{"format": "coverage", "rules": [rule]}]},
            {"type": "context", "subtables": [{"format": "classes", "first": [2, 1, 1], "rules": []}]},
            {"type": "reverse", "subtables": [[[[2, 1]], [], [[1, 2]]]]},
        ]
        other = [
            {"type": "chain", "flags": 0, "subtables": [{"format": "coverage", "rules": [in_order]}]},
            {"type": "context", "flags": 0, "subtables": [{"format": "classes", "first": [1, 2], "rules": []}]},
            {"type": "reverse", "flags": 0, "subtables": [[[[1, 2]], [], [[1, 2]]]]},
        ]
        value = {"format": "kuspveli-font", "upem": 1, "cmap": [], "gdef": {"attach": []}, "gsub": {"lookups": lookups}}
        written = {"source": {}, "upem": 1, "gsub": {"lookups": other}}
        self.assertEqual(list(differences(meaning(value), meaning(written))), [])
        found = list(differences(meaning({"gdef": {"classes": []}}), meaning({})))
        self.assertEqual(found, ["gdef classes: [] where the converter has None"])

    def test_kept(self) -> None:
        """What is kept of a font is not tried again."""
        kept = self.folder / "kept"
        self.told(self.printing(), f"--keep={kept}", "--most=99")
        self.assertFalse(kept.exists())
        self.told(self.printing(), f"--keep={kept}")
        ends = sorted(json.loads(line)["end"] for line in kept.read_text().splitlines())
        self.assertEqual(ends, ["not converted", "same"])
        self.assertEqual(self.told(REFUSED, f"--keep={kept}")[1], self.told(self.printing(), f"--keep={kept}")[1])

    def test_collection(self) -> None:
        """Each font of a collection is one."""
        path = self.folder / "some.ttc"
        path.write_bytes(b"ttcf\0\1\0\0\0\0\0\3")
        self.assertEqual((list(indices(path)), list(indices(Path(DEJAVU)))), ([0, 1, 2], [0]))


class Converter(unittest.TestCase):
    def test_words(self) -> None:
        for words in ([], ["--alone", "--converter=HEAD"]):
            with self.assertRaisesRegex(ToolFault, "--converter=COMMIT, or nothing: --alone"):
                faces_cli.main(["--program=none", *words])

    def test_none(self) -> None:
        with self.assertRaisesRegex(ToolFault, "--converter: no commit none"):
            faces_cli.tools_of("none")


def small() -> bytes:
    from fuzzing.converted import font_of_cff

    return font_of_cff()


if __name__ == "__main__":
    unittest.main()
