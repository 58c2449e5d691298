"""out/DEFINITIONS.md, made from the comments in specs/."""

import re
from typing import Iterable, Iterator

from sources.crates import read_crates
from sources.reach import Sources
from sources.specs import Definition, Module, Place

HEAD = """# Definitions

What contracts cite, with what that rests on: each definition in the words of the comment above it. Lemmas are left out.
The crates stand in the order of crates.txt, lowest first. Made by `tools/definitions` from `crates/*/specs`.
"""
BARE = "Without a comment"
# A comment that says what the definition is only beside the one before it.
LEANING = re.compile(
    r"(the same|the other|others|as above|so (of|too|for)\b|and (the|of|so)\b|its own|their|those|these|it\b|they\b"
    r"|this\b|one of them|all of them)",
    re.IGNORECASE,
)


def document(sources: Sources) -> str:
    reached = sources.reached()
    parts = [HEAD]
    for crate in read_crates(sources.root):
        modules = [module for module in sources.modules.values() if module.crate == crate]
        told = [text for module in modules if (text := module_text(module, reached))]
        if told:
            parts.append(f"## {crate}\n")
            parts.extend(told)
    return "\n".join(parts)


def module_text(module: Module, reached: set[Place]) -> str:
    """What a file defines of what is reached; nothing where it defines none of it."""
    own = [one for one in module.definitions.values() if one.place in reached]
    if not own:
        return ""
    lines = [f"### {crate_path(module)}\n"]
    if module.heading:
        lines.append(f"{sentence(module.heading)}\n")
    for one in own:
        if one.comment:
            lines.extend(entry(one))
    bare = [f"`{one.place.name}`" for one in own if not one.comment]
    if bare:
        lines.append(f"- {BARE}: {', '.join(bare)}.")
    return "\n".join(lines) + "\n"


def crate_path(module: Module) -> str:
    return f"{module.crate}/specs/{module.name.replace('.', '/')}.antt"


def entry(one: Definition) -> Iterator[str]:
    yield f"- `{one.place.name}`: {one.comment}"
    for name, comment in one.members:
        yield f"  - `{name}`: {comment}"


def sentence(text: str) -> str:
    return text if text.endswith((".", ":")) else f"{text}."


def unclear(sources: Sources) -> Iterable[tuple[Definition, str]]:
    """The definitions that are listed without a comment, or with one that leans on the definition before it."""
    reached = sources.reached()
    for module in sources.modules.values():
        for one in module.definitions.values():
            if one.place in reached:
                if not one.comment:
                    yield one, "no comment"
                elif LEANING.match(one.comment):
                    yield one, one.comment
