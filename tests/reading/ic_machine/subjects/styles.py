"""The commands on the styles of cells, rows and columns."""
from ic_cells.style import Style, style_at
from ..book import at_sheet, content_at, on_grid, style_number_at, unless_refused, with_sheet
from ..content import style_of
from ..line import column_causes, column_of, from_column, from_row, row_causes, row_of, with_column, with_row
from ..reply import number_field
from ..styling import numbered, style_fields
from ..word import COLOR, FLAG, INDEX, POSITION, TEXT
from .sheets import made

STYLE = [TEXT, FLAG, FLAG, COLOR]


def styled(kind):
    return lambda sheet, line, code, quoted, bold, fill: (kind, sheet, line, Style(code, quoted, bold, fill))


ROWS = [
    ("get_cell_style_index", [INDEX, POSITION, POSITION], made("GetCellStyleIndex")),
    ("get_style_for_cell", [INDEX, POSITION, POSITION], made("GetStyleForCell")),
    ("get_cell_style_or_none", [INDEX, POSITION, POSITION], made("GetCellStyleOrNone")),
    ("set_column_style", [INDEX, POSITION] + STYLE, styled("SetColumnStyle")),
    ("set_row_style", [INDEX, POSITION] + STYLE, styled("SetRowStyle")),
    ("get_column_style", [INDEX, POSITION], made("GetColumnStyle")),
    ("get_row_style", [INDEX, POSITION], made("GetRowStyle")),
    ("delete_column_style", [INDEX, POSITION], made("DeleteColumnStyle")),
    ("delete_row_style", [INDEX, POSITION], made("DeleteRowStyle")),
]


def style_index_step(index, row, column, book):
    return at_sheet(book, index, lambda sheet: unless_refused([], book, number_field(style_number_at(sheet.grid, row, column))))


def cell_style_step(index, row, column, book):
    return at_sheet(book, index, lambda sheet: unless_refused([], book, style_fields(
        style_at(book.styles, style_number_at(sheet.grid, row, column)))))


def optional_style(book, number):
    return [] if number is None else style_fields(style_at(book.styles, number))


def own_style_step(index, row, column, book):
    def read(sheet):
        content = content_at(sheet, row, column)
        return unless_refused([], book, optional_style(book, None if content is None else style_of(content)))
    return at_sheet(book, index, read)


def with_grid_style(book, index, sheet, set_in, n):
    return with_sheet(book, index, sheet._replace(grid=set_in(n.number, sheet.grid)))._replace(styles=n.styles)


def set_style_step(book, index, causes, style, set_in):
    return at_sheet(book, index, lambda sheet: unless_refused(
        causes, lambda: with_grid_style(book, index, sheet, set_in, numbered(style, book.styles)), []))


def set_column_step(index, column, style, book):
    return set_style_step(book, index, column_causes(column), style, lambda n, grid: grid._replace(
        columns=with_column(column, lambda props: props._replace(style=n), grid.columns)))


def set_row_step(index, row, style, book):
    return set_style_step(book, index, row_causes(row), style, lambda n, grid: grid._replace(
        rows=with_row(row, lambda props: props._replace(style=n), grid.rows)))


def column_style_step(index, column, book):
    return at_sheet(book, index, lambda sheet: unless_refused(
        column_causes(column), book, optional_style(book, column_of(sheet.grid.columns, column).style)))


def row_style_step(index, row, book):
    return at_sheet(book, index, lambda sheet: unless_refused(
        row_causes(row), book, optional_style(book, row_of(sheet.grid.rows, row).style)))


def without_style(props):
    return props._replace(style=None)


def delete_column_step(index, column, book):
    return on_grid(book, index, lambda grid: unless_refused(column_causes(column), grid._replace(
        columns=from_column(grid.columns.get(column), column, without_style, grid.columns)), []))


def delete_row_step(index, row, book):
    return on_grid(book, index, lambda grid: unless_refused(row_causes(row), grid._replace(
        rows=from_row(grid.rows.get(row), row, without_style, grid.rows)), []))


STEPS = {"GetCellStyleIndex": style_index_step, "GetStyleForCell": cell_style_step, "GetCellStyleOrNone": own_style_step,
         "SetColumnStyle": set_column_step, "SetRowStyle": set_row_step, "GetColumnStyle": column_style_step,
         "GetRowStyle": row_style_step, "DeleteColumnStyle": delete_column_step, "DeleteRowStyle": delete_row_step}


def step(book, command):
    return STEPS[command[0]](*command[1:], book)
