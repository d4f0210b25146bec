"""The whole book: what it holds, how its core is seen, and how a step on a part of it is one on the whole.

A step answers ("Ok", what it leaves, fields) or ("Err", refusal). A refusal is a tuple with its name first."""
from typing import Any, NamedTuple

from ic_cells.style import DEFAULT_STYLE
from ic_grid.style import style_at
from ic_laws.core_book import CoreBook, CoreSheet, scene_of
from ic_laws.core_step import updated_at
from ic_tables.sample import TableSet
from ic_tree.shown import notations_of
from .content import HELD, formula_in, formula_index
from .refusal import first_refusal


class Grid(NamedTuple):
    contents: dict
    rows: dict
    columns: dict
    merges: tuple


class Tab(NamedTuple):
    state: str
    color: Any
    frozen_rows: int
    frozen_columns: int
    shows_grid_lines: bool


class Sheet(NamedTuple):
    id: int
    name: str
    pool: tuple
    grid: Grid
    tab: Tab


class Book(NamedTuple):
    sheets: tuple
    definitions: tuple
    locale: str
    language: str
    zone: str
    styles: tuple
    theme: str
    name: str
    tables: TableSet


def entries(contents):
    return sorted(contents.items(), key=lambda entry: entry[0])


def core_cells(pool, contents):
    return {place: formula_in(pool, formula_index(content)) for place, content in contents.items() if formula_index(content) is not None}


def core_sheet(sheet):
    return CoreSheet(sheet.id, sheet.name, core_cells(sheet.pool, sheet.grid.contents))


def core_of(book):
    return CoreBook(tuple(core_sheet(s) for s in book.sheets), book.definitions, book.locale, book.language)


def notations_in(book):
    return notations_of(book.tables)


def scene_in(book):
    return scene_of(core_of(book))


def content_at(sheet, row, column):
    return sheet.grid.contents.get((row, column))


def formula_held(sheet, content):
    index = formula_index(content)
    return None if index is None else formula_in(sheet.pool, index)


def style_number_at(grid, row, column):
    return style_at(HELD, grid.contents, grid.rows, grid.columns, (row, column))


EMPTY_GRID = Grid({}, {}, {}, ())
PLAIN_TAB = Tab("visible", None, 0, 0, True)


def empty_sheet(id, name):
    return Sheet(id, name, (), EMPTY_GRID, PLAIN_TAB)


def new_book(tables, locale, language, zone, name, sheet_name):
    """The book that a run begins with."""
    return Book((empty_sheet(1, sheet_name),), (), locale, language, zone, (DEFAULT_STYLE,), "", name, tables)


def unless(refusal, left, fields):
    return ("Ok", left, fields) if refusal is None else ("Err", refusal)


def unless_refused(causes, left, fields):
    """What is left and what is replied are made only where nothing refuses: they are handed in as functions, or as they are."""
    refusal = first_refusal(causes)
    if refusal is not None:
        return "Err", refusal
    return "Ok", left() if callable(left) else left, fields() if callable(fields) else fields


def put_in(put, stepped):
    return stepped if stepped[0] == "Err" else ("Ok", put(stepped[1]), stepped[2])


def with_sheet(book, index, sheet):
    return book._replace(sheets=updated_at(lambda old: sheet, index, book.sheets))


def found_or(refusal, step):
    return ("Err", refusal) if step is None else step


def at_sheet(book, index, step):
    return step(book.sheets[index]) if index < len(book.sheets) else ("Err", ("InvalidSheet",))


def on_sheet(book, index, step):
    return at_sheet(book, index, lambda sheet: put_in(lambda left: with_sheet(book, index, left), step(sheet)))


def on_grid(book, index, step):
    return on_sheet(book, index, lambda sheet: put_in(lambda grid: sheet._replace(grid=grid), step(sheet.grid)))


def on_tab(book, index, step):
    return on_sheet(book, index, lambda sheet: put_in(lambda tab: sheet._replace(tab=tab), step(sheet.tab)))


def lacks_sheet(book, index):
    return not index < len(book.sheets)


def as_core(outcome, left):
    """A step of the identity machine as one that leaves this; what it leaves is made only where nothing refuses."""
    if outcome[0] == "Err":
        return "Err", (outcome[1],)
    return "Ok", left() if callable(left) else left, outcome[1]
