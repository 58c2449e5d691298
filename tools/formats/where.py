"""Where a file breaks its format: the program names the kind of a fault alone, this the key, the row and the value."""

import json
import math
import unicodedata
from itertools import chain
from pathlib import Path
from typing import Any, Callable, Iterator

from formats.named import FONT, TABLES, format_fault
from formats.rules import font_faults, tables_faults
from unicodejson.lawful import law_fault

Rules = Callable[[dict[str, Any]], Iterator[str]]
# Past this a number is no number of the format, whatever it is for.
WORD64 = 1 << 63
# How deep brackets and braces of a text may nest.
DEEPEST = 127
SHOWN = 40


def font_fault(path: Path) -> str | None:
    """The first fault of a font, with its place; None where none is found."""
    return fault_of(path, lambda font: chain(name_faults(font, FONT), font_faults(font)))


def tables_fault(path: Path) -> str | None:
    """The first fault of tables, with its place, or the law that they break; None where none is found."""
    found = fault_of(path, lambda tables: chain(name_faults(tables, TABLES), tables_faults(tables)))
    if found is not None:
        return found
    law = law_fault(json.loads(path.read_bytes()), category)
    return None if law is None else f"unlawful: {law}"


def category(character: int) -> str:
    """The general category; what this Python's Unicode has not assigned yet may be a mark."""
    found = unicodedata.category(chr(character))
    return "Mn" if found == "Cn" else found


def name_faults(value: dict[str, Any], wanted: str) -> Iterator[str]:
    """The fault of a value that names another format, which the program passes over."""
    other = format_fault(value, wanted)
    if other is not None:
        yield other


def fault_of(path: Path, rules: Rules) -> str | None:
    try:
        value = json.loads(path.read_bytes().decode("utf-8"), parse_constant=no_constant, parse_float=finite)
    except UnicodeDecodeError as error:
        return f"no UTF-8 at byte {error.start}"
    except json.JSONDecodeError as error:
        byte = len(error.doc[: error.pos].encode())
        return f"no JSON at line {error.lineno}, column {error.colno} (byte {byte}): {error.msg}"
    except ValueError as error:
        return f"no JSON: {error}"
    except RecursionError:
        return "no JSON: nested too deep"
    # The program parses all of a text before it reads a key of it.
    unparsed = next(no_texts(value, "", 1), None)
    if unparsed is not None:
        return f"no JSON: {unparsed}"
    if not isinstance(value, dict):
        return "no object at the top"
    wrong = next(floats(value, ""), None)
    if wrong is not None:
        return wrong
    try:
        return next(rules(value), None)
    except (AttributeError, IndexError, KeyError, TypeError, ValueError):
        return wrong_shape(value, rules)


def no_constant(word: str) -> Any:
    raise ValueError(f"{word} is no number of JSON")


def finite(word: str) -> float:
    number = float(word)
    if math.isinf(number):
        raise ValueError(f"{word[:SHOWN]} is past the range of numbers")
    return number


def no_texts(value: Any, where: str, depth: int) -> Iterator[str]:
    """Texts with a half of a pair of surrogates alone, and what is nested too deep: Python takes both."""
    if isinstance(value, str):
        lone = next((each for each in value if "\ud800" <= each <= "\udfff"), None)
        if lone is not None:
            yield f"{where}: a surrogate alone (\\u{ord(lone):04x}), which is no character".removeprefix(": ")
    elif isinstance(value, (dict, list)) and depth > DEEPEST:
        yield f"nested deeper than {DEEPEST} brackets and braces"
    elif isinstance(value, dict):
        for key, part in value.items():
            yield from no_texts(key, f"{where} a key".strip(), depth)
            yield from no_texts(part, f"{where} {key}".strip(), depth + 1)
    elif isinstance(value, list):
        for at, part in enumerate(value):
            yield from no_texts(part, f"{where}[{at}]", depth + 1)


def floats(value: Any, where: str) -> Iterator[str]:
    """Numbers with a fraction or an exponent, and those past 64 bits, wherever they stand."""
    if isinstance(value, float) or (isinstance(value, int) and not -WORD64 <= value < WORD64):
        yield f"{where}: no whole number of 64 bits: {value}"
    elif isinstance(value, dict):
        for key, part in value.items():
            yield from floats(part, f"{where} {key}".strip())
    elif isinstance(value, list):
        for at, part in enumerate(value):
            yield from floats(part, f"{where}[{at}]")


def wrong_shape(value: dict[str, Any], rules: Rules) -> str:
    """The key whose value has a shape that the rules can't read."""
    for key, part in value.items():
        try:
            for _ in rules({key: part}):
                pass
        except (AttributeError, IndexError, KeyError, TypeError, ValueError):
            return f"{key}: another shape than the format's"
    return "another shape than the format's"
