"""Reads an .xlsx file into a book, gives its sheets other names, and prints its formulas in German.

    python3 examples/python/xlsx.py FILE.xlsx [SUFFIX]

It wants openpyxl (Debian's package python3-openpyxl), and python/ in PYTHONPATH or the package installed. Each sheet gets the
suffix, " neu" if none is given; a formula that doesn't read is shown as it stands.
"""
from __future__ import annotations

import sys
from datetime import date, datetime, time
from decimal import Decimal

from openpyxl import load_workbook

from lurvetta import Book, Cell, Refused

# The longest name of a sheet.
LONGEST = 31


def put(book: Book, sheet: int, cell) -> None:
    """Writes a cell of a file: its formula, number, boolean, date or text."""
    value = cell.value
    place = (sheet, cell.row, cell.column)
    if cell.data_type == "f":
        book.update_cell_with_formula(*place, getattr(value, "text", value))
    elif isinstance(value, bool):
        book.update_cell_with_bool(*place, value)
    elif isinstance(value, (int, float)):
        book.update_cell_with_number(*place, round(Decimal(str(value)), 9))
    elif isinstance(value, (date, datetime, time)):
        book.set_user_input(*place, value.isoformat(" ") if isinstance(value, datetime) else value.isoformat())
    elif cell.data_type == "e":
        book.set_user_input(*place, value)
    else:
        book.update_cell_with_text(*place, str(value))


def definitions(workbook) -> list:
    """The definitions of a file with the index of their sheet, or None: the versions of openpyxl keep them in two ways."""
    names = workbook.defined_names
    if hasattr(names, "definedName"):
        return [(it.name, it.localSheetId, it.attr_text) for it in names.definedName]
    local = [(it.name, at, it.attr_text) for at, sheet in enumerate(workbook.worksheets) for it in sheet.defined_names.values()]
    return [(it.name, None, it.attr_text) for it in names.values()] + local


def read(path: str) -> tuple[Book, list[str]]:
    """The book of a file, and what couldn't be put into it."""
    workbook, book, left = load_workbook(path), Book(), []
    for index, sheet in enumerate(workbook.worksheets):
        if index:
            book.add_sheet(sheet.title)
        else:
            book.rename_sheet_by_index(0, sheet.title)
    for name, scope, body in definitions(workbook):
        try:
            book.new_defined_name(name, scope, body)
        except Refused as refused:
            left.append(f"{name}: {refused}")
    for index, sheet in enumerate(workbook.worksheets):
        for row in sheet.iter_rows():
            for cell in row:
                if cell.value is not None:
                    try:
                        put(book, index, cell)
                    except Refused as refused:
                        left.append(f"{sheet.title}!{cell.coordinate}: {refused}")
    return book, left


def formulas(book: Book) -> list[tuple[Cell, str]]:
    """The cells with a formula, each with its formula."""
    shown = [(cell, book.get_cell_formula(*cell)) for cell in book.get_all_cells()]
    return [(cell, formula) for cell, formula in shown if formula is not None]


def main(path: str, suffix: str = " neu") -> None:
    book, left = read(path)
    with book:
        before = {cell: formula for cell, formula in formulas(book)}
        for index, sheet in enumerate(book.get_worksheets_properties()):
            book.rename_sheet_by_index(index, sheet.name[: LONGEST - len(suffix)] + suffix)
        book.set_locale("de")
        book.set_language("de")
        print(book)
        names = [it.name for it in book.get_worksheets_properties()]
        for cell, formula in formulas(book):
            print(f"{names[cell.sheet]}, row {cell.row}, column {cell.column}: {before[cell]}  {formula}")
        for it in book.get_defined_name_list():
            print(f"{it.name}: {it.body}")
        print(f"{len(book.get_all_cells())} cells, {len(before)} formulas; {len(left)} left out")
        for it in left:
            print(f"left out: {it}")


if __name__ == "__main__":
    if len(sys.argv) < 2:
        sys.exit(__doc__)
    main(*sys.argv[1:3])
