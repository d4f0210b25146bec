"""What the shown and the stored form mean, by tables."""
from ic_laws.dialect import DialectMeaning
from ic_laws.notations import ENGLISH, Notations
from ic_refs.a1 import a1_at, is_shown_spellable, shown_text
from ic_tables.sample import LAMBDA_FN, LET_FN
from ic_tables.tables import decimal_separator, first_agreeing, language_of, locale_of, words_of


def word_in(language):
    def word(kind, n):
        words = words_of(language, kind)
        return words[n] if n < len(words) else None
    return word


def found_in(language, english, kind, text):
    n = first_agreeing(language, kind, text)
    return first_agreeing(english, kind, text) if n is None else n


def shown_meaning(language, english, separator, decimal, row, column):
    return DialectMeaning(
        separator, decimal, word_in(language), lambda kind, text: found_in(language, english, kind, text), LET_FN, LAMBDA_FN,
        lambda text: a1_at(row, column, text), lambda r: is_shown_spellable(row, column, r), lambda r: shown_text(row, column, r))


def stored_meaning(language):
    """The stored form, of which only the words are asked for here."""
    return DialectMeaning(",", ".", word_in(language), lambda kind, text: first_agreeing(language, kind, text), LET_FN, LAMBDA_FN,
                          None, None, None)


def notations_of(tables):
    english = language_of(tables, ENGLISH)

    def shown(locale, language, row, column):
        named = locale_of(tables, locale)
        return shown_meaning(language_of(tables, language), english, named.locale.list, decimal_separator(named.locale), row, column)

    return Notations(lambda id: locale_of(tables, id) is not None, lambda code: language_of(tables, code) is not None, shown,
                     stored_meaning(english))
