"""Blocks of places: which places they hold, whether they meet, and the order by rows. A place is (row, column)."""
from typing import NamedTuple

from ic_laws.position import LAST_COLUMN, LAST_ROW, is_column, is_row


class Block(NamedTuple):
    row: int
    column: int
    width: int
    height: int


def is_in_sheet(p):
    return is_row(p[0]) and is_column(p[1])


def is_in_span(first, count, n):
    return first <= n < first + count


def is_in_block(b, p):
    return is_in_span(b.row, b.height, p[0]) and is_in_span(b.column, b.width, p[1])


def spans_meet(first, count, other, many):
    return first < other + many and other < first + count


def blocks_meet(b, c):
    return spans_meet(b.row, b.height, c.row, c.height) and spans_meet(b.column, b.width, c.column, c.width)


def is_span_within(first, count, other, many):
    return other <= first and first + count <= other + many


def is_block_within(b, c):
    return is_span_within(b.row, b.height, c.row, c.height) and is_span_within(b.column, b.width, c.column, c.width)


WHOLE_SHEET = Block(1, 1, LAST_COLUMN, LAST_ROW)


def has_places(b):
    return 1 <= b.width and 1 <= b.height


def is_area(b):
    return has_places(b) and is_block_within(b, WHOLE_SHEET)


def is_single(b):
    return b.width == 1 and b.height == 1


def block_at(p, width, height):
    return Block(p[0], p[1], width, height)


def first_place(b):
    return b.row, b.column


def next_place(b, p):
    return (p[0], p[1] + 1) if p[1] + 1 < b.column + b.width else (p[0] + 1, b.column)
