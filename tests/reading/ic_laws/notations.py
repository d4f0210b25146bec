"""What the machine is told of languages and locales."""
from typing import Any, NamedTuple

from .dialect import FUNCTION

ENGLISH = "en"


class Notations(NamedTuple):
    knows_locale: Any
    knows_language: Any
    shown: Any
    stored: Any


def english_function(n):
    return lambda word: n.stored.find(FUNCTION, word)
