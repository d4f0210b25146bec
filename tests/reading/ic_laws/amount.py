"""Amounts, which are whole numbers of units of 10^-9, and how they are written."""
from .scan import all_ascii_digits, digits_value, is_digit, past_run, run_of

UNITS_OF_ONE = 10 ** 9


def unsigned_text(separator, units):
    whole, part = divmod(units, UNITS_OF_ONE)
    return str(whole) + ("" if part == 0 else separator + str(part).rjust(9, "0").rstrip("0"))


def amount_text(separator, units):
    return unsigned_text(separator, units) if units >= 0 else "-" + unsigned_text(separator, -units)


def if_amount(units):
    return units if units < 10 ** 27 else None


def units_by(whole, whole_count, fraction, fraction_count):
    if fraction_count <= 9 and 0 < whole_count + fraction_count:
        return if_amount(whole * UNITS_OF_ONE + fraction * 10 ** (9 - fraction_count))
    return None


def units_of(whole, whole_count, fraction):
    if not all_ascii_digits(fraction):
        return None
    return units_by(whole, whole_count, digits_value(fraction), len(fraction))


def read_units(separator, whole, text):
    if text == "":
        return units_of(digits_value(whole), len(whole), "")
    return units_of(digits_value(whole), len(whole), text[1:]) if text[0] == separator else None


def unsigned_amount(separator, text):
    return read_units(separator, run_of(is_digit, text), past_run(is_digit, text))
