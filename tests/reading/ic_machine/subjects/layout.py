"""The commands on the widths of columns, the heights of rows, and which of them are hidden."""
from ic_cells.layout import height_of, width_of
from ..book import on_grid, unless_refused
from ..line import column_causes, column_of, row_causes, row_of, with_column, with_row
from ..reply import bool_field, number_field
from ..word import BOOL, INDEX, POSITION
from .sheets import made

ROWS = [
    ("set_column_width", [INDEX, POSITION, INDEX], made("SetColumnWidth")),
    ("set_row_height", [INDEX, POSITION, INDEX], made("SetRowHeight")),
    ("get_column_width", [INDEX, POSITION], made("GetColumnWidth")),
    ("get_row_height", [INDEX, POSITION], made("GetRowHeight")),
    ("set_column_hidden", [INDEX, POSITION, BOOL], made("SetColumnHidden")),
    ("set_row_hidden", [INDEX, POSITION, BOOL], made("SetRowHidden")),
    ("is_column_hidden", [INDEX, POSITION], made("IsColumnHidden")),
    ("is_row_hidden", [INDEX, POSITION], made("IsRowHidden")),
]


def set_width_step(column, width):
    return lambda grid: unless_refused(column_causes(column), grid._replace(
        columns=with_column(column, lambda props: props._replace(width=width), grid.columns)), [])


def set_height_step(row, height):
    return lambda grid: unless_refused(row_causes(row), grid._replace(
        rows=with_row(row, lambda props: props._replace(height=height), grid.rows)), [])


def get_width_step(column):
    return lambda grid: unless_refused(column_causes(column), grid, number_field(width_of(grid.columns.get(column))))


def get_height_step(row):
    return lambda grid: unless_refused(row_causes(row), grid, number_field(height_of(grid.rows.get(row))))


def hide_column_step(column, hidden):
    return lambda grid: unless_refused(column_causes(column), grid._replace(
        columns=with_column(column, lambda props: props._replace(hidden=hidden), grid.columns)), [])


def hide_row_step(row, hidden):
    return lambda grid: unless_refused(row_causes(row), grid._replace(
        rows=with_row(row, lambda props: props._replace(hidden=hidden), grid.rows)), [])


def column_hidden_step(column):
    return lambda grid: unless_refused(column_causes(column), grid, bool_field(column_of(grid.columns, column).hidden))


def row_hidden_step(row):
    return lambda grid: unless_refused(row_causes(row), grid, bool_field(row_of(grid.rows, row).hidden))


STEPS = {"SetColumnWidth": set_width_step, "SetRowHeight": set_height_step, "GetColumnWidth": get_width_step,
         "GetRowHeight": get_height_step, "SetColumnHidden": hide_column_step, "SetRowHidden": hide_row_step,
         "IsColumnHidden": column_hidden_step, "IsRowHidden": row_hidden_step}


def step(book, command):
    return on_grid(book, command[1], STEPS[command[0]](*command[2:]))
