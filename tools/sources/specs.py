"""The definitions of specs/, with their comments, and what each file names of others."""

import re
from dataclasses import dataclass, field
from pathlib import Path
from typing import Iterator

KEYWORDS = ("abbrev", "record", "data", "unfoldable")
STARTS = re.compile(r"(abbrev|pub|record|data|unfoldable|class|def|mutual|syntax)\b")
SIGNATURE = re.compile(r"([A-Za-z_][\w-]*) :")
MEMBER = re.compile(r"\s+(?:pub )?(?P<name>\w+) :")
USE = re.compile(
    r"(?P<public>pub )?use Rattle\.(?P<crate>\w+)\.specs\.(?P<module>[\w.]+?)"
    r"(?:\.\{(?P<names>[^}]*)\}| as (?P<alias>\w+))?;?\s*$"
)
SECTION = "----"


@dataclass(frozen=True)
class Place:
    """A name in a module of a crate's specs."""

    crate: str
    module: str
    name: str


@dataclass
class Definition:
    """A definition, or a lemma: the statement and proof of something about definitions."""

    place: Place
    path: Path
    line: int
    is_lemma: bool
    section: str
    comment: str
    text: str
    members: list[tuple[str, str]] = field(default_factory=list)


@dataclass
class Module:
    """A file of specs: its heading, its definitions, and what it names of other files."""

    crate: str
    name: str
    path: Path
    heading: str = ""
    definitions: dict[str, Definition] = field(default_factory=dict)
    imported: dict[str, Place] = field(default_factory=dict)
    aliases: dict[str, tuple[str, str]] = field(default_factory=dict)
    exported: dict[str, Place] = field(default_factory=dict)


def read_specs(folder: Path, crate: str) -> dict[str, Module]:
    """The modules of a crate's specs, in the order in which Lib.antt and the modules above them name them."""
    return {module.name: module for module in ordered(folder / "specs", "", crate)}


def ordered(folder: Path, above: str, crate: str) -> Iterator[Module]:
    """The modules that a folder's own file names, each with those below it."""
    own = folder / "Lib.antt" if not above else folder.with_suffix(".antt")
    if not own.is_file():
        return
    for line in own.read_text(encoding="utf-8").splitlines():
        named = re.match(r"(?:pub )?mod (\w+)", line)
        if named:
            name = f"{above}{named[1]}"
            path = folder / f"{named[1]}.antt"
            if path.is_file():
                yield read_module(path, crate, name)
                yield from ordered(folder / named[1], f"{name}.", crate)


def read_module(path: Path, crate: str, name: str) -> Module:
    module = Module(crate, name, path)
    lines = path.read_text(encoding="utf-8").splitlines()
    comment: list[str] = []
    section = ""
    for number, line in enumerate(lines):
        if line.startswith("--"):
            said = line[2:].strip()
            if said.startswith(SECTION):
                section = said.strip("- ")
            else:
                comment.append(said)
            continue
        if take_use(line, module):
            module.heading = module.heading or " ".join(comment)
        elif STARTS.match(line) or SIGNATURE.match(line):
            found = definition(module, lines, number, section, " ".join(comment))
            if found is not None:
                module.definitions.setdefault(found.place.name, found)
        elif line.startswith(("mod ", "pub mod ")):
            module.heading = module.heading or " ".join(comment)
        comment = []
    return module


def take_use(line: str, module: Module) -> bool:
    """Whether a line names another module's definitions, which the module then has."""
    used = USE.match(line)
    if used is None:
        return line.startswith(("use ", "pub use "))
    names_of(used, module.imported, module.aliases)
    if used["public"]:
        names_of(used, module.exported, {})
    return True


def names_of(used: re.Match[str], names: dict[str, Place], aliases: dict[str, tuple[str, str]]) -> None:
    """What a line with `use` brings: names, or another name for a module."""
    if used["names"] is None:
        aliases[used["alias"] or used["module"].split(".")[-1]] = (used["crate"], used["module"])
        return
    for part in used["names"].split(","):
        old, _, new = part.strip().partition(" as ")
        names[(new or old).strip()] = Place(used["crate"], used["module"], old.strip())


def definition(module: Module, lines: list[str], number: int, section: str, comment: str) -> Definition | None:
    """The definition that begins on a line."""
    words = lines[number].split()
    kinds = [word for word in words[:4] if word in KEYWORDS]
    if words[0] == "pub" and words[1] in ("mod", "use", "class", "def", "syntax"):
        return None
    name = next((word for word in words if word not in KEYWORDS and word != "pub"), "").split(":")[0].rstrip("(")
    if not re.fullmatch(r"[A-Za-z_][\w-]*", name):
        return None
    end = number + 1
    while end < len(lines) and not is_start(lines[end], name):
        end += 1
    body = lines[number:end]
    place = Place(module.crate, module.name, name)
    text = "\n".join(line for line in body if not line.lstrip().startswith("--"))
    return Definition(place, module.path, number + 1, not kinds, section, comment, text, members_of(kinds, body))


def is_start(line: str, name: str) -> bool:
    """Whether a line begins something else than the equations of the definition with that name."""
    if line.startswith("--") or STARTS.match(line):
        return True
    signature = SIGNATURE.match(line)
    return signature is not None and signature[1] != name


def members_of(kinds: list[str], body: list[str]) -> list[tuple[str, str]]:
    """The fields of a record or the alternatives of data that have a comment, with it."""
    if not {"record", "data"} & set(kinds):
        return []
    found: list[tuple[str, str]] = []
    comment: list[str] = []
    for line in body[1:]:
        if line.lstrip().startswith("--"):
            comment.append(line.lstrip()[2:].strip())
            continue
        member = MEMBER.match(line)
        if member and comment:
            found.append((member["name"], " ".join(comment)))
        comment = []
    return found
