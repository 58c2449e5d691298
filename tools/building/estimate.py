"""How long a gate still takes: the work that is left, by what the crates stand on, at the speed that was seen."""

from dataclasses import dataclass, field
from pathlib import Path

from sources.crates import own_needs, read_crates

# A check of a crate takes about as long as so many lines of code take to prove.
START = 150
# Seconds of a processor for a line, as the machine of the README took them, and how many lines of a run weigh as much.
USUAL, WEIGHT = 0.1, 2000
# A check that takes longer than it was to is taken to end once it took a part more of what it took, one of so many.
LATE = 4
TEST = b"#[test]"


@dataclass(frozen=True, order=True)
class Check:
    """A check of the gate: of a crate, or of its tests."""

    crate: str
    is_of_tests: bool = False

    def __str__(self) -> str:
        return f"tests of {self.crate}" if self.is_of_tests else self.crate


@dataclass
class Work:
    """The checks of a gate, each with its size in lines, and what was seen of them."""

    needs: dict[str, list[str]]
    sizes: dict[Check, int]
    done: set[Check] = field(default_factory=set)
    lines: float = WEIGHT
    seconds: float = WEIGHT * USUAL

    def took(self, check: Check, seconds: float) -> None:
        """Notes how long a check took from nothing."""
        self.lines += self.sizes.get(check, 0)
        self.seconds += seconds

    def seconds_left(self, at_once: int, running: dict[Check, float]) -> float:
        """The longer of two: all that is left, shared by so many checks at once, and the longest chain of it."""
        speed = self.speed(running)
        left = {check: size * speed for check, size in self.sizes.items() if check not in self.done}
        for check, seconds in running.items():
            left[check] = max(left.get(check, 0) - seconds, seconds / LATE)
        return max(sum(left.values()) / at_once, self.longest(left))

    def speed(self, running: dict[Check, float]) -> float:
        """Seconds for a line, as what has ended took them, and what runs and took longer than it was to."""
        usual = self.seconds / self.lines
        late = {check: took for check, took in running.items() if took > usual * self.sizes.get(check, 0)}
        return (self.seconds + sum(late.values())) / (self.lines + sum(self.sizes.get(check, 0) for check in late))

    def longest(self, left: dict[Check, float]) -> float:
        """The longest chain of checks that wait for one another."""
        ends: dict[str, float] = {}
        # Each crate is listed after those that it needs.
        for crate, needed in self.needs.items():
            before = max((ends[each] for each in needed), default=0.0)
            ends[crate] = before + left.get(Check(crate), 0)
        tests = (ends[crate] - left.get(Check(crate), 0) + left.get(Check(crate, True), 0) for crate in self.needs)
        return max([*ends.values(), *tests], default=0.0)


def work_of(tree: Path) -> Work:
    """The checks of a tree: its crates as crates.txt orders them, and of each that has tests a second one."""
    needs = own_needs(read_crates(tree))
    sizes: dict[Check, int] = {}
    for crate in needs:
        sources = [path.read_bytes() for path in (tree / "crates" / crate / "src").rglob("*.rt")]
        size = START + sum(source.count(b"\n") for source in sources)
        sizes[Check(crate)] = size
        if any(TEST in source for source in sources):
            sizes[Check(crate, True)] = size
    return Work(needs, sizes)


def in_words(seconds: float) -> str:
    """An estimate in words."""
    minutes = round(seconds / 60)
    if minutes < 1:
        return "less than a minute"
    hours, rest = divmod(minutes, 60)
    return f"about {hours}:{rest:02} hours" if hours else f"about {minutes} minute{'s' * (minutes > 1)}"
