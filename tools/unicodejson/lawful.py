"""Whether tables are lawful: what the program's `law_fault` asks, with the categories of the version that was read."""

from typing import Any, Callable

MARKS = {"Mc", "Me", "Mn"}
S_BASE, S_COUNT, T_COUNT, N_COUNT = 0xAC00, 11172, 28, 588
L_BASE, V_BASE, T_BASE = 0x1100, 0x1161, 0x11A7
MAX_SPLITS = 8

Category = Callable[[int], str]


class Tables:
    """Splits, pairs and classes, with Hangul's rule before the table's."""

    def __init__(self, value: dict[str, Any]) -> None:
        self.splits = {row[0]: (row[1], row[2]) for row in value.get("splits", [])}
        self.pairs = value.get("pairs", [])
        self.classes = dict(value.get("classes", []))

    def split(self, character: int) -> tuple[int, int] | None:
        index = character - S_BASE
        if 0 <= index < S_COUNT:
            trailing = index % T_COUNT
            if trailing:
                return character - trailing, T_BASE + trailing
            return L_BASE + index // N_COUNT, V_BASE + index % N_COUNT // T_COUNT
        return self.splits.get(character)

    def depth(self, character: int) -> int:
        """How many splits a chain of first parts has, at most one more than is allowed."""
        parts, depth = self.split(character), 0
        while parts is not None and depth <= MAX_SPLITS:
            parts, depth = self.split(parts[0]), depth + 1
        return depth

    def expansion(self, character: int) -> list[int]:
        """The full expansion: that of the first part, then the second part."""
        parts = self.split(character)
        if parts is None:
            return [character]
        return self.expansion(parts[0]) + ([parts[1]] if parts[1] else [])

    def class_of(self, character: int) -> int:
        return self.classes.get(character, 0)

    def order(self, text: list[int]) -> list[int]:
        """The text with each run of nonzero class in the order of its classes."""
        ordered: list[int] = []
        run: list[int] = []
        for character in text:
            if self.class_of(character) == 0:
                ordered += [*sorted(run, key=self.class_of), character]
                run = []
            else:
                run.append(character)
        return ordered + sorted(run, key=self.class_of)


def law_fault(value: dict[str, Any], category: Category) -> str | None:
    """The first of the conditions that fails, by the program's name for it, and where; None where none fails."""
    tables = Tables(value)
    deep = next((u for u in tables.splits if tables.depth(u) > MAX_SPLITS), None)
    if deep is not None:
        return f"SplitDepth at U+{deep:04X}"
    for name, fails in CONDITIONS:
        found = fails(tables, category)
        if found is not None:
            return f"{name} at U+{found:04X}"
    return None


def second_part_splits(tables: Tables, category: Category) -> int | None:
    return next((u for u, (_, b) in tables.splits.items() if b and tables.split(b) is not None), None)


def pair_not_equivalent(tables: Tables, category: Category) -> int | None:
    for first, second, whole in tables.pairs:
        parts = tables.expansion(first) + tables.expansion(second)
        if tables.order(parts) != tables.order(tables.expansion(whole)):
            return whole
    return None


def class_on_non_mark(tables: Tables, category: Category) -> int | None:
    return next((u for u, number in tables.classes.items() if number and category(u) not in MARKS), None)


def split_loses_class(tables: Tables, category: Category) -> int | None:
    for whole, (first, second) in tables.splits.items():
        number = tables.class_of(whole)
        parts = [first, second] if second else [first]
        if number and any(tables.class_of(part) != number for part in parts):
            return whole
    return None


def ascii_mark(tables: Tables, category: Category) -> int | None:
    return next((u for u in range(0x80) if category(u) in MARKS), None)


CONDITIONS = [
    ("SecondPartSplits", second_part_splits),
    ("PairNotEquivalent", pair_not_equivalent),
    ("ClassOnNonMark", class_on_non_mark),
    ("SplitLosesClass", split_loses_class),
    ("AsciiMark", ascii_mark),
]
