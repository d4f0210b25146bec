"""The locale and the languages by which a book's texts are read and shown, and what they make of texts and values."""
from typing import NamedTuple

from ic_cells.value import boolean_word, error_word
from ic_input.code import is_date_code
from ic_input.typed import formula_of, typed
from ic_laws.amount import amount_text
from ic_laws.notations import ENGLISH
from ic_tables.sample import Language, Locale
from ic_tables.tables import decimal_separator, language_of, locale_of
from .content import value_of
from .format import formatted


class InForce(NamedTuple):
    locale: Locale
    language: Language
    beside: Language


def in_force(book):
    return InForce(locale_of(book.tables, book.locale).locale, language_of(book.tables, book.language), language_of(book.tables, ENGLISH))


def typed_in(book, text):
    f = in_force(book)
    return typed(f.locale, f.language, f.beside, text)


def formula_typed(book, text):
    return formula_of(in_force(book).locale, text)


def decimal_in(book):
    return decimal_separator(in_force(book).locale)


def boolean_in(book, truth):
    return boolean_word(in_force(book).language, truth)


def error_in(book, e):
    return error_word(in_force(book).language, e)


def formatted_in(book, code, v):
    return formatted(in_force(book).locale, code, v)


def value_in(book, content):
    return value_of(in_force(book).language, content)


def is_number(v, t):
    return t[0] == "Number" and t[1] == v


def is_text(t):
    return t[0] == "Text"


def shown_number(book, code, v):
    if is_date_code(code) and is_number(v, typed_in(book, formatted_in(book, code, v))):
        return formatted_in(book, code, v)
    return amount_text(decimal_in(book), v)


def shown_words(book, text):
    return text if is_text(typed_in(book, text)) else "'" + text
