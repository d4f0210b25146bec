"""The look-ups of tables."""
from ic_laws.name import fold


def language_of(tables, code):
    return next((l for l in tables.languages if l.code == code), None)


def locale_of(tables, id):
    return next((l for l in tables.locales if l.id == id), None)


def lists_zone(tables, zone):
    return zone in tables.zones


def words_of(language, kind):
    return {"Boolean": language.booleans, "Error": language.errors, "Function": language.functions}[kind]


def first_agreeing(language, kind, text):
    """The number of the first word of a kind that agrees with a text."""
    return language.found[kind].get(fold(text))


def is_short_date(code):
    return code in ("m/d/yyyy", "dd/mm/yyyy")


def is_date(code):
    return is_short_date(code) or code == "yyyy-mm-dd"


def may_stand_in_symbol(c):
    return not "0" <= c <= "9" and c not in " \t\n\r" and c not in "#,.%\"+-='"


def decimal_separator(locale):
    return "," if locale.decimal == "," else "."
