"""The language of the user's locale."""

import locale
import re

TAG = re.compile(r"[A-Za-z]{2,8}(-[A-Za-z0-9]{1,8})*")


def locale_language() -> str | None:
    """The language of the locale as hb-shape takes it; None for C and POSIX, and where the locale isn't installed."""
    return language_of(locale.setlocale(locale.LC_CTYPE))


def language_of(name: str) -> str | None:
    """The tag of a locale's name, as tr-TR of tr_TR.UTF-8."""
    tag = re.split(r"[.@]", name)[0].replace("_", "-")
    return tag if tag != "POSIX" and TAG.fullmatch(tag) else None
