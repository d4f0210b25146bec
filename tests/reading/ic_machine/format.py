"""How an amount is shown by a format code; and the date of a day."""
from ic_input.code import is_date_code, number_code
from ic_input.date import LAST_DAY, date_text
from ic_input.formatted import number_text
from ic_laws.amount import UNITS_OF_ONE, amount_text
from ic_tables.tables import decimal_separator


def days_in_year(year):
    return 366 if year % 4 == 0 and (year % 100 != 0 or year % 400 == 0) else 365


def days_in_month(year, month):
    if month == 2:
        return days_in_year(year) - 337
    return 30 if month in (4, 6, 9, 11) else 31


def year_of(more, year, days):
    while more > 0 and days >= days_in_year(year):
        more, year, days = more - 1, year + 1, days - days_in_year(year)
    return year, days


def month_of(more, year, month, days):
    while more > 0 and days >= days_in_month(year, month):
        more, month, days = more - 1, month + 1, days - days_in_month(year, month)
    return month, days + 1


def date_of_day(n):
    year, days = year_of(8200, 1899, n + 363)
    return (year,) + month_of(12, year, 1, days)


def whole_day(units):
    day, rest = divmod(units, UNITS_OF_ONE)
    return day if units >= 0 and rest == 0 and 1 <= day <= LAST_DAY else None


def shown_by(locale, code, v, parts):
    if parts is not None:
        return number_text(locale, parts, v)
    day = whole_day(v) if is_date_code(code) else None
    return amount_text(decimal_separator(locale), v) if day is None else date_text(code, *date_of_day(day))


def formatted(locale, code, v):
    return shown_by(locale, code, v, number_code(code))
