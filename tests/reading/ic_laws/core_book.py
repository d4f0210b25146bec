"""The core of a book: its sheets with their formulas, its definitions, and the notation in force."""
from typing import Any, NamedTuple

from .name import agrees
from .scene import DefinitionSpelling, Scene, SheetName

LAST_ID = 4294967295


class CoreSheet(NamedTuple):
    id: int
    name: str
    cells: dict


class Definition(NamedTuple):
    name: str
    scope: Any
    has_equals: bool
    body: Any


class CoreBook(NamedTuple):
    sheets: tuple
    definitions: tuple
    locale: str
    language: str


def has_sheet(book, name):
    return any(agrees(name, s.name) for s in book.sheets)


def spelling_of(definition):
    return DefinitionSpelling(definition.name, definition.scope)


def scene_of(book):
    return Scene(tuple(SheetName(s.id, s.name) for s in book.sheets), tuple(spelling_of(d) for d in book.definitions))


def ids_of(book):
    return [s.id for s in book.sheets]


def used_ids(book):
    return ids_of(book) + [d.scope for d in book.definitions if d.scope is not None]


def greatest_id(book):
    return max(used_ids(book), default=0)


def fresh_id(book):
    return greatest_id(book) + 1 if greatest_id(book) < LAST_ID else None
