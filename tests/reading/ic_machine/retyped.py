"""What keeps a formula from being typed again: one of its names is a word of the language in force."""
from ic_laws.clash import clashes_with
from ic_tables.tables import first_agreeing
from .in_force import in_force


def clashes_in(book, t):
    language = in_force(book).language
    return clashes_with(lambda word: first_agreeing(language, "Boolean", word) is not None,
                        lambda word: first_agreeing(language, "Function", word) is not None, t)
