"""JSON as the tools write it: one key a line, compactly, and in printable ASCII."""

import json
import re
from typing import Any

# What JSON may have in a string as it is, and isn't printable ASCII.
UNPRINTABLE = re.compile("[\x7f-\U0010ffff]+")


def json_text(value: Any) -> str:
    """A value as JSON without spaces. What is not printable is escaped, also the one control that JSON may hold."""
    return json.dumps(value, separators=(",", ":")).replace("\x7f", "\\u007f")


def printable(text: str) -> str:
    """A text of JSON in printable ASCII, where strings alone have other characters."""
    return UNPRINTABLE.sub(lambda found: json_text(found[0])[1:-1], text)


def object_text(value: dict[str, Any]) -> str:
    """An object with each of its keys on a line of its own."""
    rows = [f"\n{json_text(key)}:{json_text(part)}" for key, part in value.items()]
    return "{" + ",".join(rows) + "\n}\n"
