"""Numbers as they are typed, without their sign."""
from typing import Any, NamedTuple

from ic_laws.scan import digits_value, is_digit, past_run, run_of
from ic_tables.tables import decimal_separator
from .code import CodeParts, is_percent, stands_beside


class Number(NamedTuple):
    amount: int
    code: Any


def is_currency(locale, symbol):
    return symbol in ("$", "€") or symbol == locale.symbol


def most_decimals(after):
    return 7 if is_percent(after) else 9


def code_for(grouped, before, after, decimals):
    return CodeParts(before, after, decimals) if grouped or before != "" or after != "" else None


def threes(group, text):
    """The digits of all groups at the front, and what stands after them."""
    digits = ""
    while text[:1] == group and len(text) >= 4 and all(is_digit(c) for c in text[1:4]):
        digits, text = digits + text[1:4], text[4:]
    return digits, text


def units_if(places, whole, whole_count, fraction, count):
    if 0 < whole_count + count and count <= places:
        units = whole * 10 ** places + fraction * 10 ** (places - count)
        return units if units < 10 ** 27 else None
    return None


def unsigned_number(locale, text):
    separator = decimal_separator(locale)
    before = run_of(lambda c: not (is_digit(c) or c == separator), text)
    body = text[len(before):]
    first = run_of(is_digit, body)
    groups, rest = threes(locale.group, body[len(first):])
    if groups != "" and not 0 < len(first) <= 3:
        return None
    fraction, after = (run_of(is_digit, rest[1:]), past_run(is_digit, rest[1:])) if rest[:1] == separator else ("", rest)
    if not stands_beside(lambda symbol: is_currency(locale, symbol), before, after):
        return None
    units = units_if(most_decimals(after), digits_value(first + groups), len(first), digits_value(fraction), len(fraction))
    return None if units is None else Number(units, code_for(groups != "", before, after, 0 < len(fraction)))
