"""The command line of unicode_to_json."""

import argparse
from pathlib import Path
from typing import Any, Callable

from common.faults import DATA, WORDS, ToolFault
from common.notes import Progress
from common.parsing import Words
from common.printing import emit, tell
from common.writing import object_text
from formats.named import KEY, TABLES
from unicodejson import forms, indic, lists, normal, universal
from unicodejson.lawful import law_fault
from unicodejson.ucd import Ucd, version_of
from unicodejson.universal import unknown_values

NAME = "unicode_to_json"
DEBIAN = Path("/usr/share/unicode")
# The version of the crate `unicode`, from which the program has the general categories.
CRATE_VERSION = "18.0.0"
ABOUT = f"""Writes the Unicode Character Database and the shapers' machines as the JSON value that hb_shape reads as
TABLES, on standard output. The files are those of Debian's unicode-data unless a folder with others is named; of a
version after {CRATE_VERSION}, which the program's crate `unicode` has, newer characters are left out."""

MAKERS: dict[str, Callable[[Ucd], Any]] = {
    "splits": normal.split_rows,
    "pairs": normal.pair_rows,
    "classes": normal.class_rows,
    "mirrored": forms.mirrored_rows,
    "vertical": forms.vertical_rows,
    "pictographic": forms.pictographic_rows,
    "joining": forms.joining_rows,
    "indic": indic.indic_rows,
    "universal": universal.universal_rows,
    "thai": lambda ucd: lists.thai_rows(),
    "languages": lambda ucd: lists.language_rows(),
    "syllables": lambda ucd: {shaper: lists.machine_value(shaper) for shaper in lists.KINDS},
}


def parser() -> argparse.ArgumentParser:
    words = Words(prog=NAME, description=ABOUT)
    words.add_argument("--ucd", type=Path, default=DEBIAN, metavar="FOLDER", help=f"the UCD's files ({DEBIAN})")
    words.add_argument("--only", metavar="KEYS", help=f"these keys alone, with commas: {','.join(MAKERS)}")
    words.add_argument("--quiet", action="store_true", help="don't tell the version and what it loses")
    return words


def main(words: list[str]) -> int:
    """Makes the tables; its status is 0."""
    options = parser().parse_args(words)
    progress = Progress(NAME)
    try:
        value = make_tables(options.ucd, kept_keys(options.only), progress)
    finally:
        progress.end()
    emit(object_text(value))
    for line in value["unicode"]["lost"] if not options.quiet else []:
        tell(NAME, line)
    return 0


def kept_keys(text: str | None) -> list[str]:
    named = list(MAKERS) if text is None else [key for key in text.split(",") if key]
    for key in named:
        if key not in MAKERS:
            raise ToolFault(WORDS, f"--only: no key {key!r}; the keys are {', '.join(MAKERS)}")
    return [key for key in MAKERS if key in named]


def make_tables(folder: Path, keys: list[str], progress: Progress) -> dict[str, Any]:
    """The keys with what they were made of in front, which readers of the format pass over."""
    ucd = Ucd(folder, version_of(CRATE_VERSION))
    value: dict[str, Any] = {KEY: TABLES, "unicode": {}}
    for key in keys:
        progress.step(key)
        try:
            value[key] = MAKERS[key](ucd)
        except (ValueError, IndexError, KeyError) as error:
            raise ToolFault(DATA, f"{folder}: the files for {key} are damaged: {error}") from error
    value["unicode"] = about(ucd) if ucd.versions else {"lost": []}
    fault = law_fault(value, ucd.category) if ucd.versions else None
    if fault is not None:
        raise ToolFault(DATA, f"{folder}: the tables are not lawful: {fault}")
    return value


def about(ucd: Ucd) -> dict[str, Any]:
    """Which version was read, which the program has, and what is lost between the two."""
    version = ucd.version()
    lost = [f"made from Unicode {version}; the crate `unicode` has {CRATE_VERSION}"]
    if version_of(version) < version_of(CRATE_VERSION):
        lost.append(
            f"lost: characters since {version} have no class, split, pair, mirror image, joining type or category here"
        )
    if version_of(version) > version_of(CRATE_VERSION):
        newer = sum(1 for age in ucd.ages.values() if age > ucd.newest)
        lost.append(f"lost: {newer} characters after {CRATE_VERSION}, which the crate leaves unassigned")
    if "IndicSyllabicCategory.txt" in ucd.versions:
        lost += [f"lost: the syllabic category {value}, for which there is no rule" for value in unknown_values(ucd)]
    return {"version": version, "crate": CRATE_VERSION, "lost": lost}
