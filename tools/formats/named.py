"""What a value of JSON says that it is: the key `format`, the first one of each that the tools write."""

from typing import Any

KEY = "format"
FONT = "kuspveli-font"
TABLES = "kuspveli-tables"


def format_fault(value: dict[str, Any], wanted: str) -> str | None:
    """The format that a value names, where it is another than the wanted one; a value need not name one."""
    named = value.get(KEY, wanted)
    return None if named == wanted else f"{KEY}: {named!r:.40}, and {wanted!r} is wanted"
