"""Instances of variable fonts: coordinates from words, and the font at them."""

import re
from dataclasses import dataclass
from typing import Any

from common.faults import WORDS, ToolFault

SETTING = re.compile(
    r"""\s*(?P<quote>["']?)(?P<tag>\w{1,4})(?P=quote)\s*(?:=\s*|(?<=[\s"']))(?P<value>\S+)\s*""", re.ASCII
)
Place = dict[str, float]
NUMBER = re.compile(r"[+-]?(\d+\.?\d*|\.\d+)")


@dataclass(frozen=True)
class Wanted:
    """What is wanted of a variable font: a named instance or its index, and coordinates beside it, in user units."""

    instance: str | None = None
    coordinates: tuple[tuple[str, float], ...] = ()

    def __bool__(self) -> bool:
        return self.instance is not None or bool(self.coordinates)


def read_variations(text: str) -> tuple[tuple[str, float], ...]:
    """The coordinates of a list with commas, as wght=700,wdth=80; of an axis that stands twice the last one."""
    found: dict[str, float] = {}
    for part in text.split(","):
        setting = SETTING.fullmatch(part)
        if setting is None or NUMBER.fullmatch(setting["value"]) is None:
            raise ValueError(f"no variation: {part!r}; variations are as wght=700 or slnt=-7.5, with commas")
        found[setting["tag"].ljust(4)] = float(setting["value"])
    return tuple(found.items())


def place_of(path: str, font: Any, wanted: Wanted) -> tuple[Place, list[str]]:
    """Where the wanted instance is on each axis, and which coordinates were outside their axis.

    A font without axes is refused, and so are an axis and an instance that it lacks.
    """
    if "fvar" not in font:
        raise ToolFault(WORDS, f"{path}: no instances: the font has no variations")
    axes = {axis.axisTag: axis for axis in font["fvar"].axes}
    place = {tag: axis.defaultValue for tag, axis in axes.items()}
    told = []
    if wanted.instance is not None:
        place |= named(path, font, wanted.instance).coordinates
    for tag, value in wanted.coordinates:
        if tag not in axes:
            raise ToolFault(WORDS, f"{path}: no axis {tag!r}: the axes are {', '.join(map(shown, axes.values()))}")
        axis = axes[tag]
        place[tag] = min(max(value, axis.minValue), axis.maxValue)
        if place[tag] != value:
            told.append(f"{tag}={value:g} is outside {shown(axis)}: {place[tag]:g} is taken")
    return place, told


def shown(axis: Any) -> str:
    return f"{axis.axisTag} from {axis.minValue:g} to {axis.maxValue:g}"


def named(path: str, font: Any, wanted: str) -> Any:
    """The instance of an index, or of a name, however that is written."""
    instances = font["fvar"].instances
    names = [font["name"].getDebugName(instance.subfamilyNameID) or "" for instance in instances]
    if wanted.isascii() and wanted.isdigit() and int(wanted) < len(instances):
        return instances[int(wanted)]
    for name, instance in zip(names, instances):
        if name.casefold() == wanted.casefold():
            return instance
    said = ", ".join(f"{number} {name}" for number, name in enumerate(names)) or "none"
    raise ToolFault(WORDS, f"{path}: no instance {wanted!r}: the instances are {said}")


def instantiate(font: Any, place: Place) -> None:
    """Applies the variations of all tables, and drops them."""
    if "CFF2" in font:
        from fontTools.varLib.mutator import instantiateVariableFont

        instantiateVariableFont(font, place, inplace=True)
    else:
        from fontTools.varLib.instancer import OverlapMode, instantiateVariableFont

        instantiateVariableFont(font, place, inplace=True, overlap=OverlapMode.KEEP_AND_DONT_SET_FLAGS)
