"""What was set for a row or a column of a sheet, and how that is changed."""
from typing import Any, NamedTuple

from ic_laws.position import is_column, is_row


class RowProps(NamedTuple):
    height: Any
    hidden: bool
    style: Any


class ColumnProps(NamedTuple):
    width: Any
    hidden: bool
    style: Any


PLAIN_ROW = RowProps(None, False, None)
PLAIN_COLUMN = ColumnProps(None, False, None)


def row_of(rows, row):
    return rows.get(row, PLAIN_ROW)


def column_of(columns, column):
    return columns.get(column, PLAIN_COLUMN)


def with_row(row, change, rows):
    return {**rows, row: change(row_of(rows, row))}


def with_column(column, change, columns):
    return {**columns, column: change(column_of(columns, column))}


def from_row(props, row, change, rows):
    return rows if props is None else {**rows, row: change(props)}


def from_column(props, column, change, columns):
    return columns if props is None else {**columns, column: change(props)}


def row_causes(row):
    return [(not is_row(row), ("InvalidRow",))]


def column_causes(column):
    return [(not is_column(column), ("InvalidColumn",))]
