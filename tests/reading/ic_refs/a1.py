"""The A1 form of a reference, in a cell."""
from ic_laws.position import LAST_COLUMN, LAST_ROW, is_column, is_inside, is_row, letter_digit, place_at
from ic_laws.parse import is_written_sheet
from ic_laws.scan import is_ascii_letter, is_digit, past_dollar
from .column import column_letters
from .sheet import reference_at, sheet_text


def dollar_of(position):
    return "$" if position[0] == "Abs" else ""


def column_text(column, position):
    return dollar_of(position) + column_letters(abs(place_at(position, column)))


def row_text(row, position):
    return dollar_of(position) + str(abs(place_at(position, row)))


def cell_text(row, column, part):
    return column_text(column, part[1]) + row_text(row, part[0])


def are_whole_columns(first, last):
    return first[0] == ("Abs", 1) and last[0] == ("Abs", LAST_ROW)


def are_whole_rows(first, last):
    return first[1] == ("Abs", 1) and last[1] == ("Abs", LAST_COLUMN)


def range_text(row, column, first, last):
    if are_whole_columns(first, last):
        return column_text(column, first[1]) + ":" + column_text(column, last[1])
    if are_whole_rows(first, last):
        return row_text(row, first[0]) + ":" + row_text(row, last[0])
    return cell_text(row, column, first) + ":" + cell_text(row, column, last)


def place_text(row, column, place):
    return cell_text(row, column, place[1]) if place[0] == "Cell" else range_text(row, column, place[1], place[2])


def is_shown_spellable(row, column, token):
    return is_row(row) and is_column(column) and is_inside(token.place, row, column) and is_written_sheet(token.sheet)


def shown_text(row, column, token):
    return sheet_text(token.sheet) + place_text(row, column, token.place)


def number_from(allowed, value, base, most, text):
    """The number at the front whose characters stay within a limit, and the rest."""
    n = 0
    for i, c in enumerate(text):
        if not (allowed(c) and n * base + value(c) <= most):
            return n, text[i:]
        n = n * base + value(c)
    return n, ""


def read_position(absolute, origin, read):
    if read[0] == 0:
        return None
    return (("Abs", read[0]) if absolute else ("Rel", read[0] - origin)), read[1]


def column_at(column, text):
    return read_position(text.startswith("$"), column, number_from(is_ascii_letter, letter_digit, 26, LAST_COLUMN, past_dollar(text)))


def row_at(row, text):
    return read_position(text.startswith("$"), row, number_from(is_digit, int, 10, LAST_ROW, past_dollar(text)))


def cell_at(row, column, text):
    c = column_at(column, text)
    r = None if c is None else row_at(row, c[1])
    return None if r is None else ((r[0], c[0]), r[1])


def pair_at(read, text):
    a = read(text)
    if a is None or not a[1].startswith(":"):
        return None
    b = read(a[1][1:])
    return None if b is None else (a[0], b[0], b[1])


def a1_place_at(row, column, text):
    cells = pair_at(lambda t: cell_at(row, column, t), text)
    if cells is not None:
        return ("Range", cells[0], cells[1]), cells[2]
    cell = cell_at(row, column, text)
    if cell is not None:
        return ("Cell", cell[0]), cell[1]
    columns = pair_at(lambda t: column_at(column, t), text)
    if columns is not None:
        return ("Range", (("Abs", 1), columns[0]), (("Abs", LAST_ROW), columns[1])), columns[2]
    rows = pair_at(lambda t: row_at(row, t), text)
    if rows is not None:
        return ("Range", (rows[0], ("Abs", 1)), (rows[1], ("Abs", LAST_COLUMN))), rows[2]
    return None


def a1_at(row, column, text):
    if not (is_row(row) and is_column(column)):
        return None
    return reference_at(lambda t: a1_place_at(row, column, t), text)
