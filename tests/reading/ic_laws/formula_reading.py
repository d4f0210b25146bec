"""What a text means that is written into a cell or given as the body of a definition, and how a formula is shown."""
from typing import Any, NamedTuple

from .binding import bound, spelled
from .core_book import scene_of
from .notations import ENGLISH, english_function
from .parse import read_as
from .printing import printed
from .scan import first_is, is_blank, past_run
from .scene import found_sheet


def shown_at(n, book, row, column):
    return n.shown(book.locale, book.language, row, column)


def is_formula_text(text):
    return len(text) >= 2 and text[0] == "="


def without_equals(text):
    return text[1:] if text.startswith("=") else text


def cell_tree(d, text):
    tree = read_as(d, text)
    return read_as(d, text + ")") if tree is None else tree


def cell_formula(n, book, id, row, column, text):
    tree = cell_tree(shown_at(n, book, row, column), text)
    return ("Raw", text) if tree is None else ("Tree", bound(english_function(n), scene_of(book), id, tree))


def shown_formula(n, book, row, column, formula):
    if formula[0] == "Raw":
        return formula[1]
    return printed(shown_at(n, book, row, column), spelled(scene_of(book), formula[1]))


def trimmed(text):
    return past_run(is_blank, past_run(is_blank, text)[::-1])[::-1]


def is_found(scene, name):
    return name is not None and found_sheet(scene, name) is not None


def reference_tree(d, scene, text):
    found = d.read_ref(trimmed(text))
    if found is None or found[1] != "" or not is_found(scene, found[0].sheet):
        return None
    return "Reference", found[0].sheet, found[0].place


def lambda_tree(active, in_english, text):
    tree = read_as(active, text)
    if tree is None:
        tree = read_as(in_english, text)
    return tree if tree is not None and tree[0] == "Lambda" else None


class Body(NamedTuple):
    has_equals: bool
    tree: Any


def body_of(n, book, text):
    d = shown_at(n, book, 1, 1)
    tree = reference_tree(d, scene_of(book), text)
    if tree is not None:
        return Body(False, tree)
    tree = lambda_tree(d, n.shown(ENGLISH, ENGLISH, 1, 1), without_equals(text))
    return None if tree is None else Body(first_is(lambda c: c == "=", text), tree)


def shown_body(n, book, has_equals, body):
    return ("=" if has_equals else "") + shown_formula(n, book, 1, 1, body)
