"""How an amount is shown by the code of a number."""
from ic_tables.tables import decimal_separator
from .code import is_percent


def in_threes(group, digits):
    return f"{int(digits):,}".replace(",", group)


def nearest(step, n):
    return (n + step // 2) // step


def step_of(decimals, after):
    return 10 ** (9 - (2 if decimals else 0) - (2 if is_percent(after) else 0))


def last_places(c, v):
    return nearest(step_of(c.decimals, c.after), abs(v))


def digits_text(group, separator, decimals, places):
    if not decimals:
        return in_threes(group, str(places))
    return in_threes(group, str(places // 100)) + separator + f"{places % 100:02}"


def number_text(locale, c, v):
    places = last_places(c, v)
    sign = "-" if v < 0 and places != 0 else ""
    return sign + c.before + digits_text(locale.group, decimal_separator(locale), c.decimals, places) + c.after
