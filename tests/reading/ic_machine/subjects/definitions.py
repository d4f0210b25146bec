"""The commands on definitions."""
from typing import Any, NamedTuple

from ic_laws.binding import bound
from ic_laws.core_book import Definition
from ic_laws.core_step import (core_step, has_definition, index_of_definition, scope_of, scope_or_none, updated_at)
from ic_laws.formula_reading import Body, body_of, shown_at, trimmed, without_equals
from ic_laws.keeping import changed_key
from ic_laws.name import agrees, is_identifier
from ic_laws.notations import ENGLISH, english_function
from ic_laws.parse import read_as
from ic_laws.scan import first_is
from ic_laws.scene import DefinitionSpelling, key_of, same_scope
from ..book import as_core, core_of, notations_in, scene_in, unless_refused
from ..capture import captured_sites, has_sites
from ..changed import changed_by, changed_with, with_definition, without_definition
from ..reply import bool_field
from ..word import SCOPE, TEXT
from .sheets import made


class Update(NamedTuple):
    name: str
    scope: Any
    new_name: str
    new_scope: Any
    body: str


ROWS = [
    ("new_defined_name", [TEXT, SCOPE, TEXT], made("NewDefinedName")),
    ("delete_defined_name", [TEXT, SCOPE], made("DeleteDefinedName")),
    ("update_defined_name", [TEXT, SCOPE, TEXT, SCOPE, TEXT], lambda *words: ("UpdateDefinedName", Update(*words))),
    ("would_capture", [TEXT, SCOPE, TEXT, SCOPE, TEXT], lambda *words: ("WouldCaptureName", Update(*words))),
    ("is_valid_defined_name", [TEXT, SCOPE, TEXT], made("IsValidDefinedName")),
    ("get_defined_name_list", [], made("GetDefinedNameList")),
]


def new_definition(book, name, scope, body):
    """The body is bound where the new definition is there too."""
    scene = scene_in(book)
    with_name = scene._replace(names=scene.names + (DefinitionSpelling(name, scope),))
    return Definition(name, scope, body.has_equals, ("Tree", bound(english_function(notations_in(book)), with_name, scope, body.tree)))


def with_new_definition(book, name, scope, body):
    if body is None:
        return book
    return changed_by(lambda b: with_definition(new_definition(book, name, scope, body), b), book)


def new_definition_step(name, index, body, book):
    n, core = notations_in(book), core_of(book)
    return as_core(core_step(n, core, ("NewDefinedName", name, index, body)),
                   lambda: with_new_definition(book, name, scope_or_none(core, index), body_of(n, core, body)))


def delete_definition_step(name, index, book):
    core = core_of(book)
    found = index_of_definition(core, name, scope_or_none(core, index))
    return as_core(core_step(notations_in(book), core, ("DeleteDefinedName", name, index)),
                   lambda: changed_by(lambda b: without_definition(found, b), book))


def valid_definition_step(name, index, body, book):
    return as_core(core_step(notations_in(book), core_of(book), ("IsValidDefinedName", name, index, body)), book)


def list_step(book):
    return as_core(core_step(notations_in(book), core_of(book), ("GetDefinedNameList",)), book)


def update_body(n, book, text):
    formula = without_equals(trimmed(text))
    tree = read_as(shown_at(n, book, 1, 1), formula)
    if tree is None:
        tree = read_as(n.shown(ENGLISH, ENGLISH, 1, 1), formula)
    return None if tree is None else Body(first_is(lambda c: c == "=", trimmed(text)), tree)


class Updating:
    """What an update does to a book."""

    def __init__(self, book, update):
        self.book, self.update = book, update
        n, core = notations_in(book), core_of(book)
        self.n, self.core = n, core
        self.old_scope = scope_or_none(core, update.scope)
        self.new_scope_id = scope_or_none(core, update.new_scope)
        self.old_key = key_of(DefinitionSpelling(update.name, self.old_scope))
        self.new_key = key_of(DefinitionSpelling(update.new_name, self.new_scope_id))
        self.keys_of_update = changed_key(self.old_key, self.new_key)
        self.updated_index = index_of_definition(core, update.name, self.old_scope)
        self.update_body = update_body(n, core, update.body)

    def meets_other(self):
        return (has_definition(self.core, self.update.new_name, self.new_scope_id)
                and not (agrees(self.update.name, self.update.new_name) and same_scope(self.old_scope, self.new_scope_id)))

    def with_update(self, has_equals, body, index, b):
        if index is None:
            return b
        definition = Definition(self.update.new_name, self.new_scope_id, has_equals, body)
        return b._replace(definitions=updated_at(lambda d: definition, index, b.definitions))

    def scene_updated(self):
        return scene_in(self.with_update(False, ("Raw", ""), self.updated_index, self.book))

    def updated_book(self):
        body = self.update_body
        if body is None:
            return self.book
        tree = ("Tree", bound(english_function(self.n), self.scene_updated(), self.new_scope_id, body.tree))
        return changed_with(self.keys_of_update, lambda b: self.with_update(body.has_equals, tree, self.updated_index, b), self.book)

    def update_sites(self):
        return captured_sites(self.keys_of_update, self.old_key, self.book, self.updated_book())

    def captures(self):
        return has_sites(self.update_sites())

    def question_causes(self):
        update, core = self.update, self.core
        return [(not is_identifier(update.new_name), ("InvalidName",)), (scope_of(core, update.scope) is None, ("InvalidScope",)),
                (scope_of(core, update.new_scope) is None, ("InvalidScope",)), (self.meets_other(), ("NameExists",)),
                (self.update_body is None, ("InvalidFormula",)),
                (not has_definition(core, update.name, self.old_scope), ("NameNotFound",))]

    def update_causes(self):
        return self.question_causes() + [(self.captures, ("WouldCapture",))]


def update_name_step(update, book):
    u = Updating(book, update)
    return unless_refused(u.update_causes(), u.updated_book, [])


def would_capture_step(update, book):
    u = Updating(book, update)
    return unless_refused(u.question_causes(), book, lambda: bool_field(u.captures()))


STEPS = {"NewDefinedName": new_definition_step, "DeleteDefinedName": delete_definition_step, "UpdateDefinedName": update_name_step,
         "WouldCaptureName": would_capture_step, "IsValidDefinedName": valid_definition_step, "GetDefinedNameList": list_step}


def step(book, command):
    return STEPS[command[0]](*command[1:], book)
