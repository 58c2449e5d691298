"""A part of a font's value: some keys, some features, some lookups."""

from dataclasses import dataclass
from typing import Any

from common.faults import WORDS, ToolFault
from common.notes import Notes
from formats.named import KEY

KEYS = ("upem", "ascender", "cmap", "variants", "h", "v", "origins", "extents", "names", "gdef", "gsub", "gpos")
LAYOUT_KEYS = ("gsub", "gpos")


@dataclass(frozen=True)
class Kept:
    """Which keys, features and types of lookups stay; None is all. Lookups of a type that is named have no flags."""

    keys: tuple[str, ...] = KEYS
    features: tuple[str, ...] | None = None
    plain_lookups: tuple[str, ...] | None = None


def kept_keys(text: str | None) -> tuple[str, ...]:
    """The keys of a list with commas, in the order of the format."""
    if text is None:
        return KEYS
    named = text.split(",") if text else []
    for key in named:
        if key not in KEYS:
            raise ToolFault(WORDS, f"--only: no key {key!r}; the keys are {', '.join(KEYS)}")
    return tuple(key for key in KEYS if key in named)


def listed(text: str | None) -> tuple[str, ...] | None:
    return None if text is None else tuple(part for part in text.split(",") if part)


def kept_value(value: dict[str, Any], kept: Kept, notes: Notes) -> dict[str, Any]:
    """The format's name and the keys that stay, in the order of the format."""
    found = {KEY: value[KEY]}
    for key in kept.keys:
        if key in value:
            found[key] = keep_layout(value[key], kept, notes) if key in LAYOUT_KEYS else value[key]
    return found


def keep_layout(table: dict[str, Any], kept: Kept, notes: Notes) -> dict[str, Any]:
    """The features that stay with the lookups that they can reach, by new indices."""
    if kept.features is None and kept.plain_lookups is None:
        return table
    features = [n for n, row in enumerate(table["features"]) if kept.features is None or row[0] in kept.features]
    lookups = [n for n in reachable(table, features) if stays(table["lookups"][n], kept)]
    notes.left_out_as_asked("lookups", len(table["lookups"]) - len(lookups))
    notes.left_out_as_asked("features", len(table["features"]) - len(features))
    new_feature = {old: new for new, old in enumerate(features)}
    new_lookup = {old: new for new, old in enumerate(lookups)}
    return {
        "scripts": [keep_script(row, new_feature) for row in table["scripts"]],
        "features": [[table["features"][n][0], renumbered(table["features"][n][1], new_lookup)] for n in features],
        "lookups": [renumber_nested(table["lookups"][n], new_lookup) for n in lookups],
    }


def stays(lookup: dict[str, Any], kept: Kept) -> bool:
    return kept.plain_lookups is None or (lookup["type"] in kept.plain_lookups and not lookup.get("flags"))


def reachable(table: dict[str, Any], features: list[int]) -> list[int]:
    """The lookups that features name, and those that their contexts call, rising."""
    found: set[int] = set()
    waiting = [lookup for feature in features for lookup in table["features"][feature][1]]
    while waiting:
        lookup = waiting.pop()
        if lookup not in found:
            found.add(lookup)
            waiting.extend(nested(table["lookups"][lookup]))
    return sorted(found)


def nested(lookup: dict[str, Any]) -> list[int]:
    if lookup["type"] not in ("context", "chain"):
        return []
    return [called for subtable in lookup["subtables"] for rule in subtable["rules"] for _, called in rule[3]]


def renumbered(indices: list[int], new: dict[int, int]) -> list[int]:
    return [new[index] for index in indices if index in new]


def renumber_nested(lookup: dict[str, Any], new: dict[int, int]) -> dict[str, Any]:
    if lookup["type"] not in ("context", "chain"):
        return lookup
    subtables = [{**subtable, "rules": renumber_rules(subtable["rules"], new)} for subtable in lookup["subtables"]]
    return {**lookup, "subtables": subtables}


def renumber_rules(rules: list[Any], new: dict[int, int]) -> list[Any]:
    return [[*rule[:3], [[place, new[called]] for place, called in rule[3] if called in new]] for rule in rules]


def keep_script(row: list[Any], new: dict[int, int]) -> list[Any]:
    tag, default, systems = row
    kept_default = None if default is None else keep_system(default, new)
    return [tag, kept_default, [[system_tag, keep_system(system, new)] for system_tag, system in systems]]


def keep_system(system: dict[str, Any], new: dict[int, int]) -> dict[str, Any]:
    value: dict[str, Any] = {}
    if system.get("required") in new:
        value["required"] = new[system["required"]]
    value["features"] = renumbered(system["features"], new)
    return value
