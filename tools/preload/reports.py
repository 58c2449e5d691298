"""What the processes of a run report, summed for each program, and differences as lines."""

import json
from collections import Counter
from dataclasses import dataclass, field
from pathlib import Path
from typing import Any, Iterable

OWN = "shaped by Kuspveli"
# Of what kinds of differences glyphs and positions are the same, but for rounding.
SAME = ("equal", "within 1 unit", "flags", "clusters")


@dataclass
class Report:
    """The counts of a program: of calls by what came of them, of what was changed afterwards, of differences."""

    calls: Counter[str] = field(default_factory=Counter)
    patches: Counter[str] = field(default_factory=Counter)
    differences: Counter[str] = field(default_factory=Counter)
    characters: int = 0
    fonts: int = 0
    font_ns: int = 0

    @property
    def own(self) -> int:
        """Calls that Kuspveli shaped."""
        return self.calls[OWN]

    @property
    def all(self) -> int:
        return self.calls.total()

    @property
    def same(self) -> int:
        """Calls of which both shapers gave the same glyphs and positions, but for rounding."""
        return sum(self.differences[name] for name in SAME)

    def add(self, row: dict[str, Any]) -> None:
        for counts in ("calls", "patches", "differences"):
            getattr(self, counts).update(row[counts])
        for number in ("characters", "fonts", "font_ns"):
            setattr(self, number, getattr(self, number) + row[number])


def rows_of(path: Path) -> list[dict[str, Any]]:
    """The lines of JSON of a file, but for one that a process that was killed left cut."""
    rows = []
    if path.is_file():
        for line in path.read_text(encoding="utf-8", errors="replace").splitlines():
            try:
                rows.append(json.loads(line))
            except ValueError:
                continue
    return rows


def summed(rows: Iterable[dict[str, Any]]) -> dict[str, Report]:
    """The reports of all processes of each program."""
    found: dict[str, Report] = {}
    for row in rows:
        found.setdefault(row["program"], Report()).add(row)
    return found


def report_lines(reports: dict[str, Report]) -> list[str]:
    """Reports as a person reads them."""
    if not reports:
        return ["no process shaped a text by libharfbuzz: it may have a copy of its own, or none"]
    lines = []
    for name, report in reports.items():
        lines.append(f"{name}: {report.own:,} of {report.all:,} texts {OWN}, of {report.characters:,} characters")
        rest = [(why, count) for why, count in report.calls.most_common() if why != OWN]
        lines += [f"{count:,} by HarfBuzz: {why}" for why, count in rest]
        lines += [f"{count:,} {what}" for what, count in report.patches.most_common()]
        if report.fonts:
            lines.append(f"{report.fonts:,} fonts read in {report.font_ns / 1e6:,.1f} ms")
        if report.differences:
            counts = ", ".join(f"{count:,} {what}" for what, count in report.differences.most_common())
            lines.append(f"compared: {counts}")
    return lines


def difference_lines(row: dict[str, Any]) -> list[str]:
    """A difference as a person reads it."""
    text = "".join(map(chr, row["text"]))
    settings = [row["script"], row["direction"], row["language"], row["features"]]
    around = [f"{side} {''.join(map(chr, row[side]))!r}" for side in ("before", "after") if row[side]]
    told = ", ".join(filter(None, [*settings, *around]))
    return [
        f"{row['what']} differ in {text!r} ({row['font']}; {told})",
        f"Kuspveli [{row['kuspveli'].strip('[]')}]",
        f"HarfBuzz [{row['harfbuzz'].strip('[]')}]",
    ]
