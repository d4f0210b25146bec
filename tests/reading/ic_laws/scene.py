"""What formulas find: sheets by their names, definitions by their names and the sheets that they are local to."""
from typing import Any, NamedTuple

from .name import agrees, fold


class SheetName(NamedTuple):
    id: int
    name: str


class DefinitionSpelling(NamedTuple):
    name: str
    scope: Any


class NameKey(NamedTuple):
    name: str
    scope: Any


class Scene(NamedTuple):
    sheets: tuple
    names: tuple


def key_of(definition):
    return NameKey(fold(definition.name), definition.scope)


def same_key(a, b):
    return a == b


def same_scope(a, b):
    return a == b


def found_sheet(scene, name):
    return next((sheet.id for sheet in scene.sheets if agrees(sheet.name, name)), None)


def definition_at(scene, folded, scope):
    return next((d for d in scene.names if fold(d.name) == folded and same_scope(d.scope, scope)), None)


def key_found(scene, scope, folded):
    definition = definition_at(scene, folded, scope) or definition_at(scene, folded, None)
    return None if definition is None else key_of(definition)


def found_name(scene, scope, word):
    return key_found(scene, scope, fold(word))


def name_of_sheet(scene, id):
    return next((sheet.name for sheet in scene.sheets if sheet.id == id), None)


def name_of_key(scene, key):
    definition = definition_at(scene, key.name, key.scope)
    return None if definition is None else definition.name


def sheet_spelling(scene, id):
    name = name_of_sheet(scene, id)
    return str(id) if name is None else name


def definition_spelling(scene, key):
    name = name_of_key(scene, key)
    return key.name if name is None else name
