"""The commands that read cells."""
from ic_cells.style import style_at
from ic_grid.shape import is_empty
from ic_laws.core_step import core_step
from ic_laws.formula_reading import shown_formula
from ..book import (as_core, at_sheet, content_at, core_of, entries, formula_held, notations_in, style_number_at, unless_refused)
from ..content import shape_of, style_of, type_of
from ..in_force import boolean_in, error_in, formatted_in, shown_number, shown_words, value_in
from ..parsed import parsed_reference
from ..reply import bool_field, text_field
from ..word import INDEX, POSITION, TEXT
from .sheets import made

PLACE = [INDEX, POSITION, POSITION]
ROWS = [
    ("get_cell_formula", PLACE, made("GetCellFormula")),
    ("get_localized_cell_content", PLACE, made("GetLocalizedCellContent")),
    ("get_formatted_cell_value", PLACE, made("GetFormattedCellValue")),
    ("get_cell_value_by_index", PLACE, made("GetCellValueByIndex")),
    ("get_cell_value_by_ref", [TEXT], made("GetCellValueByRef")),
    ("get_cell_type", PLACE, made("GetCellType")),
    ("is_empty_cell", PLACE, made("IsEmptyCell")),
    ("get_all_cells", [], made("GetAllCells")),
    ("get_sheet_markup", [INDEX], made("GetSheetMarkup")),
]


def read_sheet(book, index, fields):
    return at_sheet(book, index, lambda sheet: unless_refused([], book, fields(sheet)))


def formula_text(book, place, formula):
    return "=" + shown_formula(notations_in(book), core_of(book), place[0], place[1], formula)


def cell_formula_step(index, row, column, book):
    return as_core(core_step(notations_in(book), core_of(book), ("GetCellFormula", index, row, column)), book)


def format_of(book, content):
    return style_at(book.styles, style_of(content)).num_fmt


def shown_spill(book, code, value):
    kind, held = value
    if kind == "Boolean":
        return boolean_in(book, held)
    if kind == "Number":
        return shown_number(book, code, held)
    return shown_words(book, held) if kind == "Text" else error_in(book, held)


def shown_content(book, sheet, place, content):
    kind = content[0]
    if kind == "Empty":
        return ""
    if kind == "Bool":
        return boolean_in(book, content[1])
    if kind == "Num":
        return shown_number(book, format_of(book, content), content[1])
    if kind == "Err":
        return error_in(book, content[1])
    if kind == "Text":
        return shown_words(book, content[1])
    if kind == "Spill":
        return shown_spill(book, format_of(book, content), content[2])
    return formula_text(book, place, formula_held(sheet, content))


def content_step(index, row, column, book):
    def fields(sheet):
        content = content_at(sheet, row, column)
        return text_field("" if content is None else shown_content(book, sheet, (row, column), content))
    return read_sheet(book, index, fields)


def formatted_value(book, code, value):
    kind = value[0]
    if kind == "None":
        return ""
    if kind == "String":
        return value[1]
    return formatted_in(book, code, value[1]) if kind == "Number" else boolean_in(book, value[1])


def formatted_content(book, content):
    return formatted_value(book, format_of(book, content), value_in(book, content))


def formatted_step(index, row, column, book):
    def fields(sheet):
        content = content_at(sheet, row, column)
        return text_field("" if content is None else formatted_content(book, content))
    return read_sheet(book, index, fields)


def value_fields(value):
    kind = value[0]
    if kind == "None":
        return [("Text", "none")]
    if kind == "String":
        return [("Text", "string"), ("Text", value[1])]
    return [("Text", "number"), ("Amount", value[1])] if kind == "Number" else [("Text", "boolean"), ("Bool", value[1])]


def value_at(book, sheet, row, column):
    content = content_at(sheet, row, column)
    return ("None",) if content is None else value_in(book, content)


def value_step(index, row, column, book):
    return read_sheet(book, index, lambda sheet: value_fields(value_at(book, sheet, row, column)))


def value_by_ref_step(text, book):
    parsed = parsed_reference(core_of(book), text)
    return unless_refused([(parsed is None, ("BadReference",))], book,
                          lambda: value_fields(value_at(book, book.sheets[parsed.sheet], parsed.row, parsed.column)))


def type_step(index, row, column, book):
    def fields(sheet):
        content = content_at(sheet, row, column)
        return text_field("Number" if content is None else type_of(content))
    return read_sheet(book, index, fields)


def empty_step(index, row, column, book):
    def fields(sheet):
        content = content_at(sheet, row, column)
        return bool_field(content is None or is_empty(shape_of(content)))
    return read_sheet(book, index, fields)


def place_fields(index, place):
    return [("Number", index), ("Position", place[0]), ("Position", place[1])]


def all_cells_step(book):
    return unless_refused([], book, [field for i, sheet in enumerate(book.sheets) for place, _ in entries(sheet.grid.contents)
                                     for field in place_fields(i, place)])


def last_row(contents):
    return max([1] + [place[0] for place in contents])


def last_column(contents):
    return max([1] + [place[1] for place in contents])


def content_markup(book, sheet, place, content):
    formula = formula_held(sheet, content)
    return formatted_content(book, content) if formula is None else formula_text(book, place, formula)


def is_bold(book, sheet, place):
    return style_at(book.styles, style_number_at(sheet.grid, *place)).bold


def emphasized(bold, text):
    return "**" + text + "**" if bold else text


def cell_markup(book, sheet, place):
    content = content_at(sheet, *place)
    return emphasized(is_bold(book, sheet, place), "" if content is None else content_markup(book, sheet, place, content))


def row_markup(book, sheet, columns, row):
    return "|".join(cell_markup(book, sheet, (row, column)) for column in range(1, columns + 1))


def sheet_markup(book, sheet):
    contents = sheet.grid.contents
    return "\n".join(row_markup(book, sheet, last_column(contents), row) for row in range(1, last_row(contents) + 1))


def markup_step(index, book):
    return read_sheet(book, index, lambda sheet: text_field(sheet_markup(book, sheet)))


STEPS = {"GetCellFormula": cell_formula_step, "GetLocalizedCellContent": content_step, "GetFormattedCellValue": formatted_step,
         "GetCellValueByIndex": value_step, "GetCellValueByRef": value_by_ref_step, "GetCellType": type_step, "IsEmptyCell": empty_step,
         "GetAllCells": all_cells_step, "GetSheetMarkup": markup_step}


def step(book, command):
    return STEPS[command[0]](*command[1:], book)
