"""Attacks by tables and by JSON itself."""

from attacks.attack import FORMAT, Attack, Files, Value, as_bytes, font
from attacks.texts import script_font

MIB = 1 << 20
NOT_JSON = frozenset({"J1 NotJson"})
NO_TEXT = frozenset({"NotUtf8"})
DEPTH = frozenset({"U3 SplitDepth"})
PLAIN = as_bytes(font("ab"))
# Letters of CJK and of Hangul's neighbours, which no rule of Hangul splits.
LETTERS = [u for u in range(0x3400, 0xFFFF) if not 0xAC00 <= u < 0xE000]
MANY = LETTERS + list(range(0x20000, 0x20000 + 50000))


# ---- tables


def chain_of_splits(count: int) -> Files:
    return Files(PLAIN, "a", {"splits": [[u, v, 0] for u, v in zip(MANY, MANY[1:count])]})


def chains_of_eight(count: int) -> Files:
    """Chains as long as they may be."""
    splits = [[u, v, 0] for at, (u, v) in enumerate(zip(MANY, MANY[1:count])) if at % 9 != 8]
    return Files(PLAIN, "a", {"splits": splits})


def joining_types(count: int) -> Files:
    return Files(PLAIN, "a", {"joining": [[u, "D"] for u in MANY[:count]]})


def splits_and_pairs(count: int) -> Files:
    """As many splits into a letter and a mark as there are pairs."""
    splits = [[u, 0x61 + at % 20, 0x300 + at // 20] for at, u in enumerate(MANY[:count]) if at // 20 < 0x6F]
    pairs = sorted([a, b, u] for u, a, b in splits)
    classes = [[u, 230] for u in range(0x300, 0x36F) if u != 0x34F]
    more = [[u, 0x61, 0x300] for u in MANY[len(splits) : count]]
    return Files(PLAIN, "a", {"splits": splits + more, "pairs": pairs, "classes": classes})


def states(count: int) -> Value:
    """A machine that is one chain of steps, and accepts at its end alone."""
    steps = [[at, "C", at + 1] for at in range(count - 1)]
    return {"states": count, "next": steps, "accept": [[count - 1, "consonant"]]}


def indic(count: int, machine: Value) -> Files:
    tables = {"indic": [[0x0915, "C", "BASE_C"]], "syllables": {"indic": machine}}
    return Files(script_font("\u0915", "dev2"), "\u0915" * count, tables)


def many_states(count: int) -> Files:
    return indic(4, states(count))


def long_match(count: int) -> Files:
    """From each letter the machine reads as many states as there are letters left, and accepts none."""
    return indic(count, states(count + 2))


def languages(count: int) -> Files:
    rows = [[f"x{at:08}", ["DEU "]] for at in range(count)]
    return Files(PLAIN, "a", {"languages": rows}, ("--language=" + "x" * 1000 + "-y",))


# ---- JSON


def nested(opens: bytes, closes: bytes, count: int) -> bytes:
    return b'{"unknown":' + opens * count + b"0" + closes * count + b"}"


def brackets(count: int) -> Files:
    return Files(PLAIN, "a", nested(b"[", b"]", count))


def open_brackets(count: int) -> Files:
    return Files(PLAIN, "a", b"[" * count)


def braces(count: int) -> Files:
    return Files(nested(b'{"a":', b"}", count), "a")


def shallow_brackets(count: int) -> Files:
    """A hundred brackets may be nested, however often."""
    return Files(b'{"unknown":[' + (b"[" * 100 + b"]" * 100 + b",") * count + b"0]}", "a")


def digits(count: int) -> Files:
    return Files(b'{"upem":' + b"9" * count + b"}", "a")


def fraction(count: int) -> Files:
    return Files(b'{"upem":0.' + b"1" * count + b"}", "a")


def exponent(count: int) -> Files:
    return Files(b'{"upem":1e' + b"9" * count + b"}", "a")


def zeros(count: int) -> Files:
    return Files(b'{"upem":' + b"0" * count + b"}", "a")


def long_string(count: int) -> Files:
    return Files(b'{"unknown":"' + b"a" * count + b'"}', "a")


def long_name(count: int) -> Files:
    return Files(b'{"cmap":[[97,1]],"names":[[1,"' + b"n" * count + b'"]]}', "a")


def long_key(count: int) -> Files:
    return Files(b'{"' + b"k" * count + b'":0}', "a")


def escapes(count: int) -> Files:
    return Files(b'{"unknown":"' + b"\\u0041" * (count // 6) + b'"}', "a")


def open_string(count: int) -> Files:
    return Files(b'{"unknown":"' + b"a" * count, "a")


def white_space(count: int) -> Files:
    return Files(b" " * count + b"{}", "a")


def key_twice(count: int) -> Files:
    return Files(b"{" + b'"upem":1000,' * count + b'"upem":1000}', "a")


def many_keys(count: int) -> Files:
    return Files(b"{" + b"".join(b'"key%d":0,' % at for at in range(count)) + b'"upem":1000}', "a")


def many_numbers(count: int) -> Files:
    return Files(b'{"unknown":[' + b"0," * count + b"0]}", "a")


def wrong_last_row(count: int) -> Files:
    return Files(b'{"h":[' + b"".join(b"[%d,1]," % at for at in range(count)) + b"[65536,1]]}", "a")


def no_utf8_at_end(count: int) -> Files:
    return Files(b'{"unknown":"' + b"a" * count + b'\xff"}', "a")


def no_text_at_end(count: int) -> Files:
    return Files(PLAIN, b"a" * count + b"\xff")


VALUES = [
    Attack("one chain of splits", 10000, chain_of_splits, DEPTH),
    Attack("chains of eight splits", 10000, chains_of_eight),
    Attack("joining types", 10000, joining_types),
    Attack("splits and pairs", 10000, splits_and_pairs),
    Attack("states of a machine", 16384, many_states),
    Attack("a machine that reads to the end", 2000, long_match),
    Attack("languages", 10000, languages),
    Attack("nested brackets", 250, brackets, NOT_JSON),
    Attack("open brackets", 16 * MIB, open_brackets, NOT_JSON),
    Attack("nested braces", 250, braces, NOT_JSON),
    Attack("a hundred brackets, often", 10000, shallow_brackets),
    Attack("a number of many digits", 16 * MIB, digits, FORMAT),
    Attack("a fraction of many digits", 16 * MIB, fraction, FORMAT),
    Attack("an exponent of many digits", 16 * MIB, exponent, FORMAT),
    Attack("many zeros", 16 * MIB, zeros, NOT_JSON),
    Attack("a string", 16 * MIB, long_string),
    Attack("a glyph's name", 16 * MIB, long_name),
    Attack("a key", 16 * MIB, long_key),
    Attack("a string of escapes", 16 * MIB, escapes),
    Attack("an open string", 16 * MIB, open_string, NOT_JSON),
    Attack("white space", 16 * MIB, white_space),
    Attack("a key many times", 20000, key_twice),
    Attack("many keys", 20000, many_keys),
    Attack("a list of numbers", MIB, many_numbers),
    Attack("a wrong last row", 15000, wrong_last_row, frozenset({"U2 OutOfRange"})),
    Attack("no UTF-8 at the end", 16 * MIB, no_utf8_at_end, NOT_JSON),
    Attack("a text that is no text at its end", 16 * MIB, no_text_at_end, NO_TEXT),
]
