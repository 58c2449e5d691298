"""Damage to what follows the format: of one value somewhere in it, or of its bytes."""

from random import Random
from typing import Any

# Values that stand where another is wanted.
STRANGE: list[Any] = [
    None, True, False, 0, 1, -1, 255, 256, 32767, 32768, -32768, -32769, 55296, 65535, 65536, 1114111, 1114112,
    4294967295, 4294967296, 9223372036854775807, -9223372036854775808, 18446744073709551615, 18446744073709551616,
    1.5, 0.0, 1e300, "", "a", "DFLT", "toolong", "\N{SNOWMAN}", [], [[]], [0], [1, 2], {}, {"a": 1},
]  # fmt: skip
PIECES = [
    b"[", b"]", b"{", b"}", b",", b":", b'"', b"\\", b"\\u0000", b"\\ud800", b"0", b"-", b".", b"e", b"E+9", b"1e999",
    b"null", b"true", b"NaN", b"\x00", b"\xff", b"\xef\xbb\xbf", b"\n", b" ", b"[" * 130, b"9" * 40, b'"lookups":',
]  # fmt: skip


def places(value: Any) -> list[tuple[Any, Any]]:
    """Each list and object with an index or a key of it, from the outside in."""
    found: list[tuple[Any, Any]] = []
    held = [value]
    while held:
        part = held.pop()
        keys = list(part) if isinstance(part, dict) else range(len(part))
        found += [(part, key) for key in keys]
        held += [part[key] for key in keys if isinstance(part[key], (dict, list))]
    return found


def damage_value(draw: Random, value: Any) -> None:
    """Changes one place: another value, none, one twice, two exchanged, or a number beside it."""
    found = places(value)
    if not found:
        return
    part, key = draw.choice(found)
    kind = draw.randrange(6)
    if kind == 0:
        del part[key]
    elif kind == 1 and isinstance(part, list):
        part.insert(key, part[key])
    elif kind == 2 and isinstance(part, list):
        other = draw.randrange(len(part))
        part[key], part[other] = part[other], part[key]
    elif kind == 3 and type(part[key]) is int:
        part[key] += draw.choice([1, -1, 255, 65535, -65536])
    else:
        part[key] = draw.choice(STRANGE)


def damage_bytes(draw: Random, given: bytes) -> bytes:
    """Changes some bytes: one is another, some are gone, some are there twice, or a piece of JSON stands between."""
    data = bytearray(given)
    for _ in range(draw.choice([1, 1, 2, 8])):
        at = draw.randint(0, len(data))
        end = min(len(data), at + draw.choice([1, 1, 4, 100]))
        kind = draw.randrange(5)
        if kind == 0 and at < end:
            data[at] = draw.randrange(256)
        elif kind == 1:
            del data[at:end]
        elif kind == 2:
            data[at:at] = data[at:end]
        elif kind == 3:
            data[at:at] = draw.choice(PIECES)
        elif draw.random() < 0.3:
            del data[at:]
    return bytes(data)
