"""From a grammar to the least machine that finds its kinds: Thompson, subsets, and classes of equal states."""

from dataclasses import dataclass, field

from syllables.grammar import Category, Choice, Expression, Grammar, Repeat, Sequence


@dataclass
class Automaton:
    """States with edges by a category, or by nothing, and the kind that a state ends, by its rank."""

    steps: list[dict[str, list[int]]] = field(default_factory=list)
    free: list[list[int]] = field(default_factory=list)
    ends: dict[int, int] = field(default_factory=dict)

    def state(self) -> int:
        self.steps.append({})
        self.free.append([])
        return len(self.steps) - 1

    def add(self, expression: Expression, start: int) -> int:
        """Puts in what the expression reads from a state on; the state at its end."""
        if isinstance(expression, Category):
            end = self.state()
            self.steps[start].setdefault(expression.name, []).append(end)
            return end
        if isinstance(expression, Sequence):
            for part in expression.parts:
                start = self.add(part, start)
            return start
        if isinstance(expression, Choice):
            end = self.state()
            for part in expression.parts:
                self.free[self.add(part, self.branch(start))].append(end)
            return end
        return self.add_repeat(expression, start)

    def add_repeat(self, expression: Repeat, start: int) -> int:
        first = self.branch(start)
        last = self.add(expression.part, first)
        end = self.state()
        self.free[last].append(end)
        if expression.more_than_once:
            self.free[last].append(first)
        if not expression.at_least_once:
            self.free[first].append(end)
        return end

    def branch(self, start: int) -> int:
        state = self.state()
        self.free[start].append(state)
        return state

    def closure(self, states: frozenset[int]) -> frozenset[int]:
        """The states, and those that nothing more has to be read for."""
        found, waiting = set(states), list(states)
        while waiting:
            for state in self.free[waiting.pop()]:
                if state not in found:
                    found.add(state)
                    waiting.append(state)
        return frozenset(found)


@dataclass
class Machine:
    """States from 0, the start: what follows by category, and the rank of the kind that ends there."""

    steps: list[dict[str, int]]
    ends: list[int | None]


def compile_grammar(grammar: Grammar) -> Machine:
    """The least machine of a grammar."""
    automaton = Automaton()
    start = automaton.state()
    for rank, (_, expression) in enumerate(grammar.kinds):
        automaton.ends[automaton.add(expression, automaton.branch(start))] = rank
    return least(by_subsets(automaton, start))


def by_subsets(automaton: Automaton, start: int) -> Machine:
    """A machine whose states are sets of the automaton's; of the kinds that end in one the first wins."""
    first = automaton.closure(frozenset([start]))
    sets, index = [first], {first: 0}
    machine = Machine([], [])
    for states in sets:
        targets: dict[str, set[int]] = {}
        for state in states:
            for category, ends in automaton.steps[state].items():
                targets.setdefault(category, set()).update(ends)
        row = {}
        for category, ends in sorted(targets.items()):
            target = automaton.closure(frozenset(ends))
            if target not in index:
                index[target] = len(sets)
                sets.append(target)
            row[category] = index[target]
        machine.steps.append(row)
        machine.ends.append(min((automaton.ends[s] for s in states if s in automaton.ends), default=None))
    return machine


def least(machine: Machine) -> Machine:
    """Joins states that no text tells apart: classes by kind, split by what follows until nothing changes."""
    kinds = {kind: number for number, kind in enumerate(dict.fromkeys(machine.ends))}
    part = [kinds[kind] for kind in machine.ends]
    while True:
        keys: dict[object, int] = {}
        finer = []
        for state, row in enumerate(machine.steps):
            key = (part[state], tuple((category, part[target]) for category, target in sorted(row.items())))
            finer.append(keys.setdefault(key, len(keys)))
        if len(keys) == len(set(part)):
            return joined(machine, finer)
        part = finer


def joined(machine: Machine, part: list[int]) -> Machine:
    """One state for each class; classes are numbered by their first states, so the start stays 0."""
    first: dict[int, int] = {}
    for state, number in enumerate(part):
        first.setdefault(number, state)
    steps = [{c: part[t] for c, t in machine.steps[state].items()} for state in first.values()]
    return Machine(steps, [machine.ends[state] for state in first.values()])


def syllables_of(machine: Machine, kinds: list[str], categories: list[str], default: str) -> list[tuple[int, str]]:
    """The syllables of a text: ends and kinds, of each the longest nonempty front, else one glyph of the default."""
    found, start = [], 0
    while start < len(categories):
        end, kind = start + 1, default
        state, at = 0, start
        while at < len(categories) and categories[at] in machine.steps[state]:
            state = machine.steps[state][categories[at]]
            at += 1
            if machine.ends[state] is not None:
                end, kind = at, kinds[machine.ends[state]]
        found.append((end, kind))
        start = end
    return found
