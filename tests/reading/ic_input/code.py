"""Format codes: those of numbers, with a symbol at one side or a percent sign, and those of dates."""
from typing import NamedTuple

from ic_laws.scan import run_of
from ic_tables.tables import is_date, may_stand_in_symbol


class CodeParts(NamedTuple):
    before: str
    after: str
    decimals: bool


def is_percent(text):
    return text == "%"


def stands_beside(symbol, before, after):
    if before == "":
        return after == "" or is_percent(after) or symbol(after)
    return after == "" and symbol(before)


def is_symbol(text):
    return 1 <= len(text) <= 4 and all(may_stand_in_symbol(c) for c in text)


def code_text(c):
    return c.before + ("#,##0.00" if c.decimals else "#,##0") + c.after


def number_code(text):
    before = run_of(lambda c: c != "#", text)
    rest = text[len(before):]
    if not rest.startswith("#,##0"):
        return None
    rest = rest[len("#,##0"):]
    decimals = rest.startswith(".00")
    after = rest[3:] if decimals else rest
    return CodeParts(before, after, decimals) if stands_beside(is_symbol, before, after) else None


def is_date_code(code):
    return is_date(code)
