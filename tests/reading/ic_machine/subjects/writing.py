"""The commands that write a cell: what a text that is typed, or a value that is given, puts there, and in which style."""
from typing import Any, NamedTuple

from ic_cells.style import with_format, with_quote_prefix
from ic_cells.value import UNEVALUATED
from ic_grid.arrays import is_fixed_at
from ic_grid.merges import is_covered
from ic_grid.prepare import written
from ic_input.code import is_date_code
from ic_input.typed import needs_quoting
from ic_laws.formula_reading import cell_formula
from ic_laws.position import is_column, is_row
from ..book import at_sheet, core_of, notations_in, style_number_at, unless_refused, with_sheet
from ..content import HELD
from ..in_force import formula_typed, typed_in
from ..placed import index_in_pool, is_dynamic, pool_with
from ..styling import restyled
from ..word import AMOUNT, BOOL, INDEX, POSITION, TEXT
from .sheets import made

PLACE = [INDEX, POSITION, POSITION]
ROWS = [
    ("set_user_input", PLACE + [TEXT], made("SetUserInput")),
    ("update_cell_with_text", PLACE + [TEXT], made("UpdateCellWithText")),
    ("update_cell_with_formula", PLACE + [TEXT], made("UpdateCellWithFormula")),
    ("update_cell_with_bool", PLACE + [BOOL], made("UpdateCellWithBool")),
    ("update_cell_with_number", PLACE + [AMOUNT], made("UpdateCellWithNumber")),
]


class Written(NamedTuple):
    content: Any
    change: Any
    pool: tuple


def unquoted(style):
    return with_quote_prefix(False, style)


def value_written(sheet, content):
    return Written(content, unquoted, sheet.pool)


def coded(code, style):
    if code is None or is_date_code(code) and is_date_code(style.num_fmt):
        return style
    return with_format(code, style)


def formula_content(kinds, formula, index):
    if is_dynamic(kinds, formula):
        return lambda style: ("Anchor", index, (1, 1), "Dynamic", UNEVALUATED, style)
    return lambda style: ("Formula", index, UNEVALUATED, style)


def formula_written(book, sheet, formula):
    return Written(formula_content(book.tables.kinds, formula, index_in_pool(formula, sheet.pool)), unquoted,
                   pool_with(formula, sheet.pool))


def formula_at_place(book, sheet, place, text):
    return cell_formula(notations_in(book), core_of(book), sheet.id, place[0], place[1], text)


def typed_written(book, sheet, place, t):
    kind = t[0]
    if kind == "Empty":
        return Written(lambda style: ("Empty", style), lambda style: style, sheet.pool)
    if kind == "Quoted":
        return Written(lambda style: ("Text", t[1], style), lambda style: with_quote_prefix(True, style), sheet.pool)
    if kind == "Formula":
        return formula_written(book, sheet, formula_at_place(book, sheet, place, t[1]))
    if kind == "Number":
        return Written(lambda style: ("Num", t[1], style), lambda style: unquoted(coded(t[2], style)), sheet.pool)
    content = {"Boolean": "Bool", "Error": "Err", "Text": "Text"}[kind]
    return value_written(sheet, lambda style: (content, t[1], style))


def text_written(book, sheet, text):
    return Written(lambda style: ("Text", text, style),
                   lambda style: with_quote_prefix(needs_quoting(text, typed_in(book, text)), style), sheet.pool)


def place_causes(place):
    return [(not is_row(place[0]), ("InvalidRow",)), (not is_column(place[1]), ("InvalidColumn",))]


def write_causes(sheet, place):
    return [(is_covered(sheet.grid.merges, place), ("MergedPart",)),
            (is_fixed_at(HELD, sheet.grid.contents, place), ("ArrayPart",))]


def with_content(place, pool, content, sheet):
    return sheet._replace(pool=pool, grid=sheet.grid._replace(contents=written(HELD, place, content, sheet.grid.contents)))


def with_styled(book, index, sheet, place, w, styled):
    return with_sheet(book, index, with_content(place, w.pool, w.content(styled.number), sheet))._replace(styles=styled.styles)


def with_written(book, index, sheet, place, w):
    return with_styled(book, index, sheet, place, w, restyled(w.change, style_number_at(sheet.grid, *place), book.styles))


def write_step(book, index, place, w, causes):
    return at_sheet(book, index, lambda sheet: unless_refused(
        place_causes(place) + write_causes(sheet, place) + causes, lambda: with_written(book, index, sheet, place, w(sheet)), []))


def input_step(index, place, text, book):
    return write_step(book, index, place, lambda sheet: typed_written(book, sheet, place, typed_in(book, text)), [])


def text_step(index, place, text, book):
    return write_step(book, index, place, lambda sheet: text_written(book, sheet, text), [])


def formula_step(index, place, text, book):
    formula = formula_typed(book, text)
    return write_step(book, index, place, lambda sheet: formula_written(book, sheet, formula_at_place(book, sheet, place, formula)),
                      [(formula is None, ("NotAFormula",))])


def bool_step(index, place, truth, book):
    return write_step(book, index, place, lambda sheet: value_written(sheet, lambda style: ("Bool", truth, style)), [])


def number_step(index, place, amount, book):
    return write_step(book, index, place, lambda sheet: value_written(sheet, lambda style: ("Num", amount, style)), [])


STEPS = {"SetUserInput": input_step, "UpdateCellWithText": text_step, "UpdateCellWithFormula": formula_step,
         "UpdateCellWithBool": bool_step, "UpdateCellWithNumber": number_step}


def step(book, command):
    kind, sheet, row, column, given = command
    return STEPS[kind](sheet, (row, column), given, book)
