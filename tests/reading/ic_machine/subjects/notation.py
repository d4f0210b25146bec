"""The commands on the locale, the language, the zone, and the formats that they give."""
from ic_laws.amount import UNITS_OF_ONE
from ic_laws.core_step import core_step
from ic_tables.tables import lists_zone
from ..book import as_core, core_of, notations_in, unless_refused
from ..format import formatted
from ..in_force import in_force
from ..reply import text_field
from ..word import TEXT
from .sheets import made

ROWS = [
    ("set_locale", [TEXT], made("SetLocale")),
    ("set_language", [TEXT], made("SetLanguage")),
    ("set_timezone", [TEXT], made("SetTimezone")),
    ("get_locale", [], made("GetLocale")),
    ("get_language", [], made("GetLanguage")),
    ("get_timezone", [], made("GetTimezone")),
    ("get_fmt_settings", [], made("GetFmtSettings")),
]


def set_locale_step(id, book):
    return as_core(core_step(notations_in(book), core_of(book), ("SetLocale", id)), book._replace(locale=id))


def set_language_step(id, book):
    return as_core(core_step(notations_in(book), core_of(book), ("SetLanguage", id)), book._replace(language=id))


def set_timezone_step(id, book):
    return unless_refused([(not lists_zone(book.tables, id), ("InvalidTimezone",))], book._replace(zone=id), [])


def get_locale_step(book):
    return unless_refused([], book, text_field(book.locale))


def get_language_step(book):
    return unless_refused([], book, text_field(book.language))


def get_timezone_step(book):
    return unless_refused([], book, text_field(book.zone))


def as_code(symbol, c):
    return '"' + symbol + '"' if ord(c) == 164 else " " if ord(c) == 160 else c


def currency_code(locale):
    return "".join(as_code(locale.symbol, c) for c in locale.money)


EXAMPLE_DAY = 46006 * UNITS_OF_ONE
EXAMPLE_AMOUNT = 1234567 * 10 ** 6
NUMBER_FORMAT = "#,##0.00"


def settings_fields(locale):
    return [("Text", text) for text in (
        locale.iso, currency_code(locale), locale.short, formatted(locale, locale.short, EXAMPLE_DAY), locale.long,
        formatted(locale, locale.long, EXAMPLE_DAY), NUMBER_FORMAT, formatted(locale, NUMBER_FORMAT, EXAMPLE_AMOUNT))]


def settings_step(book):
    return unless_refused([], book, settings_fields(in_force(book).locale))


STEPS = {"SetLocale": set_locale_step, "SetLanguage": set_language_step, "SetTimezone": set_timezone_step, "GetLocale": get_locale_step,
         "GetLanguage": get_language_step, "GetTimezone": get_timezone_step, "GetFmtSettings": settings_step}


def step(book, command):
    return STEPS[command[0]](*command[1:], book)
