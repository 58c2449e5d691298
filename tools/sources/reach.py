"""Which definitions contracts cite, and which those rest on."""

import re
from pathlib import Path

from sources.crates import read_crates
from sources.specs import USE, Definition, Module, Place, names_of, read_specs

GHOST_USE = re.compile(r"^\s*ghost (use [^;]*);", re.MULTILINE)
WORD = re.compile(r"(?:([A-Za-z_]\w*)\.)?([A-Za-z_]\w*)")


class Sources:
    """The specs of all crates, and what their contracts cite."""

    def __init__(self, root: Path) -> None:
        self.root = root
        self.modules: dict[tuple[str, str], Module] = {}
        for crate in read_crates(root):
            for name, module in read_specs(root / "crates" / crate, crate).items():
                self.modules[crate, name] = module

    def find(self, place: Place) -> Definition | None:
        """The definition that a name stands for, also where its module has it from another."""
        module = self.modules.get((place.crate, place.module))
        if module is None:
            return None
        if place.name in module.definitions:
            return module.definitions[place.name]
        further = module.exported.get(place.name)
        return None if further is None or further == place else self.find(further)

    def cited(self) -> list[Definition]:
        """The definitions that the `ghost use` lines of the code name."""
        found = []
        for crate in read_crates(self.root):
            for path in sorted((self.root / "crates" / crate / "src").rglob("*.rt")):
                text = path.read_text(encoding="utf-8")
                names: dict[str, Place] = {}
                aliases: dict[str, tuple[str, str]] = {}
                for line in GHOST_USE.findall(text):
                    used = USE.match(" ".join(line.split()))
                    if used is not None:
                        names_of(used, names, aliases)
                places = [*names.values(), *through(aliases, text)]
                found.extend(one for one in map(self.find, places) if one is not None)
        return found

    def named_by(self, one: Definition) -> list[Definition]:
        """The definitions that the text of one names."""
        module = self.modules[one.place.crate, one.place.module]
        found = []
        for before, name in WORD.findall(one.text):
            if before in module.aliases:
                place = Place(*module.aliases[before], name)
            elif name in module.definitions:
                place = Place(module.crate, module.name, name)
            elif name in module.imported:
                place = module.imported[name]
            else:
                continue
            other = self.find(place)
            if other is not None:
                found.append(other)
        return found

    def reached(self) -> set[Place]:
        """What contracts cite, with all that it rests on."""
        waiting = [one for one in self.cited() if not one.is_lemma]
        met = {one.place for one in waiting}
        while waiting:
            for other in self.named_by(waiting.pop()):
                if other.place not in met and not other.is_lemma:
                    met.add(other.place)
                    waiting.append(other)
        return met


def through(aliases: dict[str, tuple[str, str]], text: str) -> list[Place]:
    """The names that a text has of modules under other names."""
    return [Place(*aliases[before], name) for before, name in WORD.findall(text) if before in aliases]
