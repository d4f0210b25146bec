"""Dates: their day numbers, how they are typed and how they are shown. Day 1 is 31 December 1899."""
import datetime

from ic_laws.scan import digits_value, is_digit, run_of

ISO_DATE = "yyyy-mm-dd"
LAST_DAY = 2958465
EPOCH = datetime.date(1899, 12, 30).toordinal()


def is_american_date(code):
    return code == "m/d/yyyy"


def day_of(year, month, day):
    try:
        n = datetime.date(year, month, day).toordinal() - EPOCH
    except ValueError:
        return None
    return n if 1 <= n <= LAST_DAY else None


def three_fields(mark, most, last, text):
    """Three fields of digits with a mark between them, of up to so many digits each; nothing stands after them."""
    fields = []
    for i, k in enumerate((most, 2, last)):
        digits = run_of(is_digit, text[:k])
        fields.append(digits)
        text = text[len(digits):]
        if i < 2:
            if not text.startswith(mark):
                return None
            text = text[1:]
    return fields if text == "" else None


def iso_number(text):
    f = three_fields("-", 4, 2, text)
    if f is None or [len(digits) for digits in f] != [4, 2, 2]:
        return None
    return day_of(*(digits_value(digits) for digits in f))


def short_number(code, text):
    f = three_fields("/", 2, 4, text)
    if f is None or len(f[0]) < 1 or len(f[1]) < 1 or len(f[2]) != 4:
        return None
    a, b, year = (digits_value(digits) for digits in f)
    return day_of(year, a, b) if is_american_date(code) else day_of(year, b, a)


def date_text(code, year, month, day):
    if code == ISO_DATE:
        return f"{year:04}-{month:02}-{day:02}"
    if is_american_date(code):
        return f"{month}/{day}/{year:04}"
    return f"{day:02}/{month:02}/{year:04}"
