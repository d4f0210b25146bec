"""What becomes of all formulas when the sheets or the definitions of a book change: each is kept."""
from ic_laws.core_step import moved, removed, updated_at
from ic_laws.keeping import kept_formula, kept_in_body, same_keys
from ic_laws.notations import english_function
from .book import notations_in, scene_in


def with_kept_pool(n, before, after, change, sheet):
    return sheet._replace(pool=tuple(kept_formula(english_function(n), before, after, change, sheet.id, f) for f in sheet.pool))


def with_kept_formulas(n, before, after, change, book):
    return book._replace(sheets=tuple(with_kept_pool(n, before, after, change, s) for s in book.sheets),
                         definitions=tuple(kept_in_body(n, before, after, change, d) for d in book.definitions))


def changed_with(keys, change, book):
    return change(with_kept_formulas(notations_in(book), scene_in(book), scene_in(change(book)), keys, book))


def changed_by(change, book):
    return changed_with(same_keys, change, book)


def with_renamed_sheet(index, name, book):
    return book._replace(sheets=updated_at(lambda s: s._replace(name=name), index, book.sheets))


def with_removed_sheet(index, book):
    return book._replace(sheets=removed(book.sheets, index))


def with_moved_sheet(origin, to, book):
    return book._replace(sheets=moved(origin, to, book.sheets))


def with_definition(definition, book):
    return book._replace(definitions=book.definitions + (definition,))


def without_definition(index, book):
    return book if index is None else book._replace(definitions=removed(book.definitions, index))
