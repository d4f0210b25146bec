"""Command lines and replies: words with tabs between them, written with escapes."""
from __future__ import annotations

import re
from decimal import Decimal

from .values import ErrorValue, Style

_SPELLED = str.maketrans({"\\": "\\\\", "\t": "\\t", "\n": "\\n", "\r": "\\r"})
_MEANT = {"\\\\": "\\", "\\t": "\t", "\\n": "\n", "\\r": "\r"}
_SPECIAL = re.compile(r"[\\\t\n\r]")
_ESCAPE = re.compile(r"\\[\\tnr]")


def escaped(text: str) -> str:
    """A text as it is written in a word."""
    return text.translate(_SPELLED) if _SPECIAL.search(text) else text


def unescaped(word: str) -> str:
    """The text that a word of a reply spells."""
    return _ESCAPE.sub(lambda it: _MEANT[it[0]], word) if "\\" in word else word


def number(value: int) -> str:
    return f"{value:d}"


def optional(value: int | None) -> str:
    """A number, or `-` for none."""
    return "-" if value is None else f"{value:d}"


def boolean(value: bool) -> str:
    return "true" if value else "false"


def amount(value: Decimal | int) -> str:
    """An amount with its digits alone: no exponent."""
    if isinstance(value, bool) or not isinstance(value, (Decimal, int)):
        raise TypeError(f"an amount is a Decimal or an int, and not {value!r}")
    return format(value, "f") if isinstance(value, Decimal) else str(value)


def value(given: Decimal | int | bool | str | ErrorValue | None) -> str:
    """The value of a formula: none, an amount, a boolean, an error value or a text."""
    if given is None:
        return "u"
    if isinstance(given, bool):
        return f"b:{boolean(given)}"
    if isinstance(given, (Decimal, int)):
        return f"n:{amount(given)}"
    if isinstance(given, ErrorValue):
        return f"e:{escaped(given)}"
    return f"t:{escaped(given)}"


def style(given: Style) -> list[str]:
    """The four words of a style."""
    fill = "-" if given.fill is None else escaped(given.fill)
    return [escaped(given.format), "1" if given.quote else "0", "1" if given.bold else "0", fill]
