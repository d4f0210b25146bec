"""What the words of command lines say that are numbers or scopes."""
from .scan import all_ascii_digits


def number_said(word):
    return int(word) if word != "" and all_ascii_digits(word) else None


def at_most(most, n):
    return n if n is not None and n <= most else None


def index_said(word):
    return at_most(4294967295, number_said(word))


def position_said(word):
    if word.startswith("-"):
        n = at_most(2147483648, number_said(word[1:]))
        return None if n is None else -n
    return at_most(2147483647, number_said(word))


def scope_said(word):
    """A scope, which may be none, in a tuple; None where the word is no scope."""
    if word == "-":
        return (None,)
    index = index_said(word)
    return None if index is None else (index,)
