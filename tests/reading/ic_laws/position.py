"""Rows, columns and where a reference points. A position is ("Abs", n) or ("Rel", k); a part is (row, column); a place is
("Cell", part) or ("Range", part, part)."""
from .scan import is_ascii_letter

LAST_ROW = 1048576
LAST_COLUMN = 16384


def is_row(n):
    return 1 <= n <= LAST_ROW


def is_column(n):
    return 1 <= n <= LAST_COLUMN


def letter_digit(c):
    return ord(c) - ord("@") if ord(c) < ord("a") else ord(c) - ord("`")


def letters_number(letters):
    number = 0
    for c in letters:
        number = number * 26 + letter_digit(c)
    return number


def names_column(letters):
    return len(letters) > 0 and all(is_ascii_letter(c) for c in letters) and letters_number(letters) <= LAST_COLUMN


def place_at(position, origin):
    return position[1] if position[0] == "Abs" else origin + position[1]


def is_part_inside(part, row, column):
    return is_row(place_at(part[0], row)) and is_column(place_at(part[1], column))


def is_inside(place, row, column):
    return all(is_part_inside(part, row, column) for part in place[1:])


def is_within(length, position):
    return 1 <= position[1] <= length if position[0] == "Abs" else abs(position[1]) < length


def is_part_within(part):
    return is_within(LAST_ROW, part[0]) and is_within(LAST_COLUMN, part[1])


def is_place_within(place):
    return all(is_part_within(part) for part in place[1:])
