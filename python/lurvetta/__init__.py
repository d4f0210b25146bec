"""Lurvetta: a workbook whose formulas follow their sheets and names through renames, moves and languages.

>>> from lurvetta import Book
>>> with Book() as book:
...     book.update_cell_with_formula(0, 1, 1, "=SUM(data!B2:B9)*1.5")
...     book.add_sheet("Data")
...     book.rename_sheet("DATA", "My data")
...     book.set_language("fr")
...     book.set_locale("fr")
...     book.get_cell_formula(0, 1, 1)
"=SOMME('My data'!B2:B9)*1,5"

Sheets count from 0, rows and columns from 1. A call that is refused raises `Refused` and changes nothing.
"""
from .book import Book
from .errors import Closed, LurvettaError, Refused, WantOfMemory
from .values import Cell, DefinedName, ErrorValue, FormatSettings, NewSheet, SheetProperties, Style, Value

__all__ = [
    "Book", "Cell", "Closed", "DefinedName", "ErrorValue", "FormatSettings", "LurvettaError", "NewSheet", "Refused",
    "SheetProperties", "Style", "Value", "WantOfMemory",
]
__version__ = "0.1.0"
