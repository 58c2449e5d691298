"""Attacks by a font's lookups."""

from typing import Any, Callable

from attacks.attack import Attack, Files, Value, font, lookup, rules, table

TOO_LONG = frozenset({"S2 TooLong"})
GDEF_MARK = {"classes": [[1, 1], [2, 3]]}
# An ignorable: it is skipped by a rule that doesn't match it, and a rule may begin with it.
HIDDEN = "\u2060"


def plain_line(count: int) -> tuple[str, str]:
    """A line of letters a in width 500, each its own cluster."""
    return "1=0+500", f"1={count - 1}+500\n"


def calls(count: int, *lookups: Value) -> Files:
    return Files(font("ab", table("calt", list(lookups))), "a" * count)


def calls_itself(count: int) -> Files:
    return calls(count, lookup("context", rules([[], [1], [], [[0, 0], [0, 0]]])))


def call_each_other(count: int) -> Files:
    contexts = [lookup("context", rules([[], [1], [], [[0, other]] * 3])) for other in (1, 0)]
    return calls(count, *contexts)


def chain_of_calls(count: int) -> Files:
    """Eighty lookups, each calling the next one; past a depth of 64 none is called."""
    return calls(count, *(lookup("chain", rules([[], [1], [], [[0, min(at + 1, 79)]]])) for at in range(80)))


def long_contexts(count: int) -> Files:
    """Sixty-four glyphs, at each of which a nested lookup is tried."""
    records = [[at, 1] for at in range(64)]
    return calls(count, lookup("context", rules([[], [1] * 64, [], records])), lookup("single", [[1, 1]]))


def many_rules(count: int) -> Files:
    """Each rule but the last wants sixty-three glyphs, and fails at the last of them."""
    failing = [[[], [1] * 63 + [2], [], []] for _ in range(count // 20)]
    return calls(2000, lookup("context", rules(*failing, [[], [1], [], []])))


def context_over_hidden(count: int) -> Files:
    """From each ignorable the look ahead passes over all that follow."""
    gsub = table("calt", [lookup("chain", rules([[], [2], [1], [[0, 1]]])), lookup("single", [[2, 2]])])
    return Files(font("a" + HIDDEN, gsub), HIDDEN * count)


def backtrack_over_hidden(count: int) -> Files:
    gsub = table("calt", [lookup("chain", rules([[1], [2], [], [[0, 1]]])), lookup("single", [[2, 2]])])
    return Files(font("a" + HIDDEN, gsub), HIDDEN * count)


def ligature_over_hidden(count: int) -> Files:
    gsub = table("liga", [lookup("ligature", [[2, [[[1], 1]]]])])
    return Files(font("a" + HIDDEN, gsub), HIDDEN * count)


def alternates(count: int) -> Files:
    gsub = table("salt", [lookup("alternate", [[1, [number % 65536 for number in range(count)]]])])
    return Files(font("a", gsub), "aaa", options=("--features=salt=255",))


def long_ligatures(count: int) -> Files:
    gsub = table("liga", [lookup("ligature", [[1, [[[1] * 63, 1]]]])])
    return Files(font("a", gsub), "a" * 64 * count)


def failing_ligatures(count: int) -> Files:
    """Forty ligatures of 64 glyphs, each of which fails at its last."""
    gsub = table("liga", [lookup("ligature", [[1, [[[1] * 62 + [2], 1]] * 40]])])
    return Files(font("ab", gsub), "a" * count)


def growth(count: int) -> Files:
    """Each glyph becomes 64, and each of these 2: one step past the limit."""
    grown = [lookup("multiple", [[1, [1] * 64]]), lookup("multiple", [[1, [1, 1]]])]
    return Files(font("a", table("ccmp", grown, [0, 1])), "a" * count)


def growth_to_limit(count: int) -> Files:
    return Files(font("a", table("ccmp", [lookup("multiple", [[1, [1] * 64]])])), "a" * count)


def nested_growth(count: int) -> Files:
    """A context at each of whose 64 places a glyph becomes two."""
    nested = lookup("context", rules([[], [1] * 64, [], [[at, 1] for at in range(0, 128, 2)]]))
    return Files(font("a", table("calt", [nested, lookup("multiple", [[1, [1, 1]]])])), "a" * count)


def deletion(count: int) -> Files:
    return Files(font("a", table("ccmp", [lookup("multiple", [[1, []]])])), "a" * count)


def every_second_deleted(count: int) -> Files:
    return Files(font("ab", table("ccmp", [lookup("multiple", [[2, []]])])), "ab" * count)


def deleted_backward(count: int) -> Files:
    files = every_second_deleted(count)
    return Files(files.font, files.text, options=("--direction=rtl",))


def reverse_chain(count: int) -> Files:
    gsub = table("calt", [lookup("reverse", [[[1]], [[1]], [[1, 1]]])])
    return Files(font("a", gsub), "a" * count)


def random_draws(count: int) -> Files:
    gsub = table("rand", [lookup("alternate", [[1, [1, 1, 1]]])])
    return Files(font("a", gsub), "a" * count)


# ---- GPOS


def marks_on_base(count: int) -> Files:
    bases = {"marks": [[2, 0, [100, 0]]], "bases": [[1, [[250, 480]]]]}
    return Files(font("a\u0301", None, table("mark", [lookup("markbase", bases)]), gdef=GDEF_MARK), "a" + "\u0301" * count)


def marks_on_marks(count: int) -> Files:
    marks = {"marks": [[2, 0, [100, 0]]], "bases": [[2, [[100, 50]]]]}
    return Files(font("a\u0301", None, table("mkmk", [lookup("markmark", marks)]), gdef=GDEF_MARK), "a" + "\u0301" * count)


def marks_on_ligature(count: int) -> Files:
    bases = {"marks": [[2, 0, [100, 0]]], "bases": [[1, [[[250, 480]], [[300, 480]]]]]}
    gdef = {"classes": [[1, 2], [2, 3]]}
    return Files(font("a\u0301", None, table("mark", [lookup("marklig", bases)]), gdef=gdef), "a" + "\u0301" * count)


def marks_without_base(count: int) -> Files:
    """Marks after a base that has no anchor, where each failed match is to be flagged."""
    bases = {"marks": [[2, 0, [100, 0]]], "bases": [[3, [[250, 480]]]]}
    given = font("a\u0301b", None, table("mark", [lookup("markbase", bases)]), gdef=GDEF_MARK)
    return Files(given, "a" + "\u0301" * count, options=("--unsafe-to-concat",))


MARKS = {"marks": [[2, 0, [100, 0]]], "bases": [[1, [[250, 480]]]]}
OTHER_MARKS = {"marks": [[3, 0, [100, 0]]], "bases": [[1, [[250, 480]]]]}


def in_turn(*lookups: Value, kind: int = 1, used: tuple[int, ...] = (0,), **gdef: Any) -> Callable[[int], Files]:
    """Two marks in turn after one base, each with a cluster of its own: for one of them a lookup passes over all others up
    to the base, and flags all between."""
    classes = {"classes": [[1, kind], [2, 3], [3, 3]], **gdef}
    given = font("abc", None, table("mark", list(lookups), list(used)), gdef=classes)
    return lambda count: Files(given, "a" + "bc" * (count // 2))


def fallback_marks(count: int) -> Files:
    extents = [[1, 0, 500, 480, -500], [2, 20, 700, 160, -150]]
    tables = {"classes": [[0x0301, 230]]}
    return Files(font("a\u0301", extents=extents, gdef=GDEF_MARK), "a" + "\u0301" * count, tables)


def cursive(count: int, flags: int = 1) -> Files:
    gpos = table("curs", [lookup("cursive", [[1, [0, 10], [500, 20]]], flags=flags)])
    return Files(font("a", None, gpos), "a" * count)


def cursive_at_level(count: int) -> Files:
    files = cursive(count)
    return Files(files.font, files.text, options=("--cluster-level=1", "--direction=rtl"))


def ring_of_cursive(count: int) -> Files:
    """The first lookup joins each glyph to the next, the second the next to it."""
    joined = [lookup("cursive", [[1, [0, 10], [500, 20]]], flags=flags) for flags in (1, 0)]
    return Files(font("a", None, table("curs", joined, [0, 1])), "a" * count)


def ring_of_marks(count: int) -> Files:
    """A base is joined to its mark, and the mark is attached to the base."""
    joined = lookup("cursive", [[1, [0, 10], [500, 20]], [2, [0, 10], [500, 20]]], flags=1)
    attached = lookup("markbase", {"marks": [[2, 0, [100, 0]]], "bases": [[1, [[250, 480]]]]})
    back = lookup("cursive", [[1, [0, 10], [500, 20]], [2, [0, 10], [500, 20]]])
    gpos = table("curs", [joined, attached, back], [0, 1, 2])
    return Files(font("a\u0301", None, gpos, gdef=GDEF_MARK), "a\u0301" * count)


def pairs(count: int) -> Files:
    gpos = table("kern", [lookup("pair", [[1, 1, [0, 0, -50, 0], [0, 0, 10, 0]]])])
    return Files(font("a", None, gpos), "a" * count)


def pairs_over_hidden(count: int) -> Files:
    gpos = table("kern", [lookup("pair", [[2, 1, [0, 0, -50, 0], None]])])
    return Files(font("a" + HIDDEN, None, gpos), HIDDEN * count)


# ---- many of one kind


def many_lookups(count: int) -> Files:
    lookups = [lookup("single", [[1, 1]]) for _ in range(count)]
    return Files(font("a", table("ccmp", lookups, list(range(count)))), "aaaa")


def many_features(count: int) -> Files:
    gsub = table("ccmp", [lookup("single", [[1, 1]])])
    gsub["features"] = [["ccmp", [0]]] * count
    gsub["scripts"] = [["DFLT", {"features": list(range(count))}, []]]
    return Files(font("a", gsub), "aaaa")


def many_subtables(count: int) -> Files:
    return Files(font("a", table("ccmp", [lookup("single", *[[[2, 2]]] * count)])), "aaaa")


def many_requests(count: int) -> Files:
    names = [f"--features={','.join(f'{a}{b}{c}x[{at}:]=2' for at, (a, b, c) in enumerate(threes(count)))}"]
    return Files(font("a", table("ccmp", [lookup("single", [[1, 1]])])), "aaaa", options=tuple(names))


def threes(count: int) -> list[tuple[str, str, str]]:
    letters = "abcdefghijklmnopqrstuvwxyz"
    return [(letters[at // 676 % 26], letters[at // 26 % 26], letters[at % 26]) for at in range(count)]


def many_sets(count: int) -> Files:
    value = font("a", gdef={"sets": [[1]] * count})
    return Files(value, "aaaa")


def many_glyphs(count: int) -> Files:
    """Each glyph of a font as large as one may be has a character, a width and a name."""
    glyphs = range(min(count, 65536))
    cmap: Any = [[0x20000 + glyph, glyph] for glyph in glyphs]
    return Files({"cmap": cmap, "h": [[glyph, 500] for glyph in glyphs], "names": [[g, "a"] for g in glyphs]}, "a")


FONTS = [
    Attack("a context that calls itself twice", 1000, calls_itself, line=plain_line),
    Attack("contexts that call each other", 1000, call_each_other, line=plain_line),
    Attack("calls to depth 64", 5000, chain_of_calls, line=plain_line),
    Attack("a context of 64 places", 5000, long_contexts, line=plain_line),
    Attack("rules that fail at their last glyph", 1000, many_rules, line=lambda count: plain_line(2000)),
    Attack("a look ahead over ignorables", 4000, context_over_hidden),
    Attack("a look back over ignorables", 4000, backtrack_over_hidden),
    Attack("ligatures over ignorables", 4000, ligature_over_hidden),
    Attack("alternates", 16384, alternates),
    Attack("ligatures of 64", 1000, long_ligatures),
    Attack("ligatures that fail at their last glyph", 5000, failing_ligatures, line=plain_line),
    Attack("growth past the limit", 1000, growth, TOO_LONG),
    Attack("growth to the limit", 1000, growth_to_limit),
    Attack("growth by nested lookups", 5000, nested_growth),
    Attack("deletion of all", 20000, deletion),
    Attack("deletion of every second", 20000, every_second_deleted),
    Attack("deletion of every second, backward", 20000, deleted_backward),
    Attack("reverse chaining", 20000, reverse_chain, line=plain_line),
    Attack("random alternates", 4000, random_draws),
    Attack("marks on one base", 8192, marks_on_base),
    Attack("marks on marks", 8192, marks_on_marks),
    Attack("marks on one ligature", 8192, marks_on_ligature),
    Attack("marks without a base", 8192, marks_without_base),
    Attack("marks in turn", 8192, in_turn(lookup("markbase", MARKS))),
    Attack("marks in turn, by a set", 8192, in_turn({**lookup("markbase", MARKS, flags=16), "set": 0}, sets=[[2]])),
    Attack("marks in turn, by a class", 8192, in_turn(lookup("markbase", MARKS, flags=0x100), attach=[[2, 1], [3, 2]])),
    Attack(
        "marks in turn, on a ligature",
        8192,
        in_turn(lookup("marklig", {**MARKS, "bases": [[1, [[[250, 480]], [[300, 480]]]]]}), kind=2),
    ),
    Attack("marks in turn, by two subtables", 8192, in_turn(lookup("markbase", MARKS, OTHER_MARKS))),
    Attack("marks in turn, by two lookups", 8192, in_turn(lookup("markbase", MARKS), lookup("markbase", OTHER_MARKS), used=(0, 1))),
    Attack(
        "marks in turn, by a context",
        8192,
        in_turn(lookup("chain", rules([[], [2], [], [[0, 1]]])), lookup("markbase", MARKS)),
    ),
    Attack("fallback marks", 8192, fallback_marks),
    Attack("a cursive text", 20000, cursive),
    Attack("a cursive text from the right", 20000, cursive_at_level),
    Attack("a ring of cursive links", 20000, ring_of_cursive),
    Attack("rings of marks and bases", 10000, ring_of_marks),
    Attack("pairs", 20000, pairs),
    Attack("pairs over ignorables", 4000, pairs_over_hidden),
    Attack("lookups", 4000, many_lookups),
    Attack("features of a font", 4000, many_features),
    Attack("subtables", 16000, many_subtables),
    Attack("requested features", 1000, many_requests),
    Attack("sets of marks", 16000, many_sets),
    Attack("glyphs with names", 16384, many_glyphs),
]
