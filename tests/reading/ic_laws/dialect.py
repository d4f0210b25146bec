"""What a dialect means: its separators, its words, and how it reads and writes references."""
from typing import Any, NamedTuple

BOOLEAN, ERROR, FUNCTION = "Boolean", "Error", "Function"


class DialectMeaning(NamedTuple):
    list: str
    decimal: str
    word: Any
    find: Any
    let_fn: int
    lambda_fn: int
    read_ref: Any
    can_spell: Any
    spell_ref: Any


class RefToken(NamedTuple):
    sheet: Any
    place: Any


def boolean_number(truth):
    return 0 if truth else 1


def word_text(d, kind, n):
    word = d.word(kind, n)
    return "" if word is None else word


def reference_text(d, r):
    return d.spell_ref(r) if d.can_spell(r) else word_text(d, ERROR, 0)
