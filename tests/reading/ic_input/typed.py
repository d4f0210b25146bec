"""What a typed text is: ("Empty",), ("Quoted", text), ("Formula", text), ("Number", units, code), ("Boolean", truth),
("Error", number) or ("Text", text)."""
from ic_laws.amount import UNITS_OF_ONE, unsigned_amount
from ic_laws.scan import first_is
from ic_tables.tables import first_agreeing
from .code import code_text
from .date import ISO_DATE, iso_number, short_number
from .number import unsigned_number


def signed_amount(separator, text):
    units = unsigned_amount(separator, text[1:] if text.startswith("-") else text)
    return None if units is None else -units if text.startswith("-") else units


def word_of(kind, language, english, text):
    n = first_agreeing(language, kind, text)
    return first_agreeing(english, kind, text) if n is None else n


def as_word(language, english, text):
    boolean = word_of("Boolean", language, english, text)
    if boolean is not None:
        return "Boolean", boolean == 0
    error = word_of("Error", language, english, text)
    return ("Text", text) if error is None else ("Error", error)


def as_number(sign, n):
    return "Number", sign * n.amount, None if n.code is None else code_text(n.code)


def typed_unsigned(locale, language, english, text):
    n = unsigned_number(locale, text)
    if n is not None:
        return as_number(1, n)
    day = iso_number(text)
    if day is not None:
        return "Number", day * UNITS_OF_ONE, ISO_DATE
    day = short_number(locale.short, text)
    if day is not None:
        return "Number", day * UNITS_OF_ONE, locale.short
    return as_word(language, english, text)


def typed(locale, language, english, text):
    if text == "":
        return ("Empty",)
    first, rest = text[0], text[1:]
    if first == "'":
        return "Quoted", rest
    if rest == "":
        return typed_unsigned(locale, language, english, text)
    if first == "=":
        return "Formula", rest
    if first in "+-":
        n = unsigned_number(locale, rest)
        return ("Formula", text) if n is None else as_number(-1 if first == "-" else 1, n)
    return typed_unsigned(locale, language, english, text)


def formula_of(locale, text):
    if len(text) < 2:
        return None
    if text[0] == "=":
        return text[1:]
    return text if text[0] in "+-" and unsigned_number(locale, text[1:]) is None else None


def needs_quoting(text, t):
    return first_is(lambda c: c in "=+-", text) or t[0] not in ("Empty", "Text")
