"""Names: when two agree, which texts name a sheet, a variable or a definition, and how a sheet's name is quoted."""
from .position import LAST_ROW, names_column
from .scan import (all_ascii_digits, begins_word, between, digits_value, first_is, is_ascii_letter, is_digit, is_plain,
                   is_word_character, past_dollar, past_run, run_of)


def fold(name):
    return name.casefold()


def agrees(a, b):
    return fold(a) == fold(b)


def is_sheet_name(name):
    return 0 < len(name) <= 31 and not any(c in "\\/*?:[]" for c in name)


def names_row(digits):
    return all_ascii_digits(digits) and 0 < digits_value(digits) <= LAST_ROW


def is_a1_cell(text):
    after = past_dollar(text)
    return names_column(run_of(is_ascii_letter, after)) and names_row(past_dollar(past_run(is_ascii_letter, after)))


def is_r(c):
    return c in "Rr"


def is_c(c):
    return c in "Cc"


def is_numbered(p, text):
    return text != "" and p(text[0]) and all_ascii_digits(text[1:])


def has_row_column_form(text):
    if text == "":
        return False
    return is_numbered(is_r, text) or is_numbered(is_c, text) or is_r(text[0]) and is_numbered(is_c, past_run(is_digit, text[1:]))


def is_lone(name):
    return len(name) == 1 and (is_r(name) or is_c(name))


def is_r1c1_cell(text):
    if text == "":
        return False
    after = past_run(is_digit, text[1:])
    return is_r(text[0]) and first_is(is_digit, text[1:]) and is_numbered(is_c, after) and len(after) > 1


def is_variable_form(name):
    return (first_is(begins_word, name) and all(is_word_character(c) for c in name) and not is_a1_cell(name)
            and (is_lone(name) or not has_row_column_form(name)))


def is_variable(name):
    return is_variable_form(name) and not agrees(name, "true") and not agrees(name, "false")


def is_identifier(name):
    return is_variable(name) and not is_lone(name) and not agrees(name, "LET") and not agrees(name, "LAMBDA")


def needs_quotes(name):
    return (not all(is_plain(c) for c in name) or first_is(lambda c: is_digit(c) or c == ".", name) or is_a1_cell(name)
            or is_r1c1_cell(name))


def in_quotes(name):
    return between("'", name)


def quoted(name):
    return in_quotes(name) if needs_quotes(name) else name
