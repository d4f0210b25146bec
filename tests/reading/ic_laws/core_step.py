"""The steps of the core book: what refuses each command, and the fields of its reply.

An outcome is ("Err", refusal) or ("Ok", fields). What a command leaves of the core is not told here: the whole machine says it of
the whole book."""
from .core_book import fresh_id, has_sheet
from .formula_reading import body_of, is_formula_text, shown_body, shown_formula
from .name import agrees, is_identifier, is_sheet_name
from .position import is_column, is_row
from .scene import same_scope


def first_refusal(causes):
    return next((refusal for holds, refusal in causes if holds), None)


def unless_refused(causes, fields):
    refusal = first_refusal(causes)
    return ("Ok", fields) if refusal is None else ("Err", refusal)


def lacks_sheet(book, index):
    return not index < len(book.sheets)


def add_sheet_causes(book, name):
    return [(not is_sheet_name(name), "InvalidSheetName"), (has_sheet(book, name), "SheetExists"),
            (fresh_id(book) is None, "IdsUsedUp")]


def has_other_sheet(book, index, name):
    return any(agrees(name, s.name) for i, s in enumerate(book.sheets) if i != index)


def rename_causes(book, index, name):
    return [(not is_sheet_name(name), "InvalidSheetName"), (has_other_sheet(book, index, name), "SheetExists"),
            (lacks_sheet(book, index), "InvalidSheet")]


def updated_at(f, index, items):
    return tuple(f(x) if i == index else x for i, x in enumerate(items))


def index_of_name(book, name):
    return next((i for i, s in enumerate(book.sheets) if agrees(s.name, name)), None)


def index_of_id(book, id):
    return next((i for i, s in enumerate(book.sheets) if s.id == id), None)


def at_found(index, step):
    return ("Err", "SheetNotFound") if index is None else step(index)


def move_causes(book, origin, to):
    return [(lacks_sheet(book, origin), "SheetIndexTooLarge"), (lacks_sheet(book, to), "TargetTooLarge")]


def removed(items, index):
    return items[:index] + items[index + 1:]


def inserted(items, index, item):
    return items[:index] + (item,) + items[index:]


def moved(origin, to, items):
    return inserted(removed(items, origin), to, items[origin]) if origin < len(items) else items


def delete_causes(book, index):
    return [(len(book.sheets) == 1, "OnlySheet"), (lacks_sheet(book, index), "SheetIndexTooLarge")]


def scope_of(book, index):
    """The id of the sheet at an index, or none, in a tuple; None where there is no such sheet."""
    if index is None:
        return (None,)
    return (book.sheets[index].id,) if index < len(book.sheets) else None


def is_named(name, scope, definition):
    return agrees(definition.name, name) and same_scope(definition.scope, scope)


def has_definition(book, name, scope):
    return any(is_named(name, scope, d) for d in book.definitions)


def scope_or_none(book, index):
    scope = scope_of(book, index)
    return None if scope is None else scope[0]


def new_definition_causes(n, book, name, index, body):
    return [(not is_identifier(name), "InvalidName"), (scope_of(book, index) is None, "InvalidScope"),
            (has_definition(book, name, scope_or_none(book, index)), "NameExists"),
            (body_of(n, book, body) is None, "InvalidNameFormula")]


def index_of_definition(book, name, scope):
    return next((i for i, d in enumerate(book.definitions) if is_named(name, scope, d)), None)


def delete_definition_causes(book, name, index):
    return [(scope_of(book, index) is None, "InvalidSheet"),
            (not has_definition(book, name, scope_or_none(book, index)), "NameNotFound")]


def listed_scope(book, id):
    if id is None:
        return (None,)
    index = index_of_id(book, id)
    return None if index is None else (index,)


def fields_in_scope(n, book, definition, scope):
    if scope is None:
        return []
    return [("Text", definition.name), ("Number", scope[0]), ("Text", shown_body(n, book, definition.has_equals, definition.body))]


def list_fields(n, book):
    return [field for d in book.definitions for field in fields_in_scope(n, book, d, listed_scope(book, d.scope))]


def update_causes(book, index, row, column, text):
    return [(lacks_sheet(book, index), "InvalidSheet"), (not is_row(row), "InvalidRow"), (not is_column(column), "InvalidColumn"),
            (not is_formula_text(text), "NotAFormula")]


def formula_step(n, book, index, row, column):
    outcome = unless_refused([(lacks_sheet(book, index), "InvalidSheet")], [])
    if outcome[0] == "Err":
        return outcome
    formula = book.sheets[index].cells.get((row, column))
    return "Ok", [] if formula is None else [("Text", "=" + shown_formula(n, book, row, column, formula))]


def core_step(n, book, command):
    kind, words = command[0], command[1:]
    if kind == "AddSheet":
        return unless_refused(add_sheet_causes(book, *words), [])
    if kind == "RenameSheet":
        return at_found(index_of_name(book, words[0]), lambda i: unless_refused(rename_causes(book, i, words[1]), []))
    if kind == "RenameSheetByIndex":
        return unless_refused(rename_causes(book, *words), [])
    if kind == "MoveSheet":
        return unless_refused(move_causes(book, *words), [])
    if kind == "DeleteSheet":
        return unless_refused(delete_causes(book, *words), [])
    if kind == "DeleteSheetByName":
        return at_found(index_of_name(book, *words), lambda i: unless_refused(delete_causes(book, i), []))
    if kind == "DeleteSheetBySheetId":
        return at_found(index_of_id(book, *words), lambda i: unless_refused(delete_causes(book, i), []))
    if kind == "NewDefinedName":
        return unless_refused(new_definition_causes(n, book, *words), [])
    if kind == "DeleteDefinedName":
        return unless_refused(delete_definition_causes(book, *words), [])
    if kind == "IsValidDefinedName":
        return unless_refused(new_definition_causes(n, book, *words), [("Number", scope_or_none(book, words[1]))])
    if kind == "GetDefinedNameList":
        return "Ok", list_fields(n, book)
    if kind == "GetNewSheetId":
        return "Ok", [("Number", fresh_id(book))]
    if kind == "SetLocale":
        return unless_refused([(not n.knows_locale(words[0]), "InvalidLocale")], [])
    if kind == "SetLanguage":
        return unless_refused([(not n.knows_language(words[0]), "InvalidLanguage")], [])
    if kind == "UpdateCellWithFormula":
        return unless_refused(update_causes(book, *words), [])
    if kind == "GetCellFormula":
        return formula_step(n, book, *words)
    raise ValueError(kind)
