"""A cell that a text names by its sheet, its column and its row."""
from typing import NamedTuple

from ic_laws.command import number_said
from ic_laws.core_step import index_of_name
from ic_laws.position import is_row
from ic_laws.scan import is_ascii_letter, past_run, run_of
from ic_refs.column import column_number


class Parsed(NamedTuple):
    sheet: int
    row: int
    column: int


def column_or_none(number):
    return number if isinstance(number, int) else None


def without_plus(text):
    return text[1:] if text.startswith("+") else text


def parsed_row(text):
    n = number_said(without_plus(text))
    return n if n is not None and is_row(n) else None


def parsed_place(sheet, text):
    if text == "":
        return None
    column = column_or_none(column_number(run_of(is_ascii_letter, text[1:])))
    row = parsed_row(past_run(is_ascii_letter, text[1:]))
    return None if column is None or row is None else Parsed(sheet, row, column)


def parsed_reference(book, text):
    name = run_of(lambda c: c != "!", text)
    sheet = index_of_name(book, name)
    return None if sheet is None else parsed_place(sheet, text[len(name):])
