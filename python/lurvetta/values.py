"""What books are told and answer."""
from __future__ import annotations

from decimal import Decimal
from typing import NamedTuple, Union


class ErrorValue(str):
    """The English word of an error value, as `#REF!`: a value of a formula that isn't that text."""


# The value of a cell: none, a text, an amount or a boolean.
Value = Union[None, str, Decimal, bool]


class Cell(NamedTuple):
    """A place: the index of a sheet from 0, a row and a column from 1."""

    sheet: int
    row: int
    column: int


class NewSheet(NamedTuple):
    """The name and the index of a sheet that a call made."""

    name: str
    index: int


class SheetProperties(NamedTuple):
    """A sheet: its name, its state (`visible`, `hidden`, `veryHidden`), the color of its tab, its id."""

    name: str
    state: str
    color: str | None
    id: int


class DefinedName(NamedTuple):
    """A definition: its name, the index of the sheet that it is local to, or None, and its body."""

    name: str
    scope: int | None
    body: str


class Style(NamedTuple):
    """A style: the format code, the quote flag, whether it is bold, the color that fills the cell."""

    format: str = "General"
    quote: bool = False
    bold: bool = False
    fill: str | None = None


class FormatSettings(NamedTuple):
    """How a locale shows amounts and dates, each by a format and an example: 15 December 2025, 1234.567."""

    currency: str
    currency_format: str
    short_date: str
    short_date_example: str
    long_date: str
    long_date_example: str
    number_format: str
    number_example: str
