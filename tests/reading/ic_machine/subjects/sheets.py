"""The commands on the list of sheets."""
from ic_laws.binding import bound, spelled_with
from ic_laws.core_book import fresh_id, greatest_id, has_sheet, ids_of
from ic_laws.core_step import core_step, index_of_id, index_of_name, inserted
from ic_laws.mentions import is_of_sheet, some_mention
from ic_laws.name import agrees, is_sheet_name
from ic_laws.notations import english_function
from ic_laws.scene import definition_spelling, same_scope, sheet_spelling
from ..book import as_core, core_of, empty_sheet, found_or, notations_in, scene_in, unless_refused
from ..changed import changed_by, with_moved_sheet, with_removed_sheet, with_renamed_sheet
from ..styling import color_text
from ..word import INDEX, SCOPE, TEXT


def made(kind):
    return lambda *words: (kind,) + words


ROWS = [
    ("add_sheet", [TEXT], made("AddSheet")),
    ("insert_sheet", [TEXT, INDEX, SCOPE], made("InsertSheet")),
    ("new_sheet", [], made("NewSheet")),
    ("duplicate_sheet", [INDEX], made("DuplicateSheet")),
    ("rename_sheet", [TEXT, TEXT], made("RenameSheet")),
    ("rename_sheet_by_index", [INDEX, TEXT], made("RenameSheetByIndex")),
    ("move_sheet", [INDEX, INDEX], made("MoveSheet")),
    ("delete_sheet", [INDEX], made("DeleteSheet")),
    ("delete_sheet_by_name", [TEXT], made("DeleteSheetByName")),
    ("delete_sheet_by_sheet_id", [INDEX], made("DeleteSheetBySheetId")),
    ("get_new_sheet_id", [], made("GetNewSheetId")),
    ("get_worksheets_properties", [], made("GetWorksheetsProperties")),
]


def lifted(book, command, left):
    return as_core(core_step(notations_in(book), core_of(book), command), left)


def with_inserted_sheet(index, id, name):
    return lambda book: book._replace(sheets=inserted(book.sheets, index, empty_sheet(id, name)))


def with_new_sheet(name):
    return lambda book: book._replace(sheets=book.sheets + (empty_sheet(greatest_id(core_of(book)) + 1, name),))


def add_sheet_step(name, book):
    return lifted(book, ("AddSheet", name), lambda: changed_by(with_new_sheet(name), book))


def is_live(book, id):
    return id is not None and (id == 0 or id in ids_of(book))


def chosen_id(book, id):
    return fresh_id(book) if id is None else id


def insert_causes(book, name, index, id):
    return [(not is_sheet_name(name), ("InvalidSheetName",)), (has_sheet(core_of(book), name), ("SheetExists",)),
            (len(book.sheets) < index, ("OutOfRange",)), (is_live(core_of(book), id), ("IdLive",)),
            (chosen_id(core_of(book), id) is None, ("IdsUsedUp",))]


def insert_sheet_step(name, index, id, book):
    return unless_refused(insert_causes(book, name, index, id),
                          lambda: changed_by(with_inserted_sheet(index, chosen_id(core_of(book), id), name), book), [])


def base_name(language):
    return {"es": "Hoja", "fr": "Feuil", "de": "Tabelle", "it": "Foglio"}.get(language, "Sheet")


def free_number(book, name):
    last = len(book.sheets) + 1
    return next((n for n in range(1, last + 1) if not has_sheet(core_of(book), name(n))), last)


def numbered_name(book, n):
    return base_name(book.language) + str(n)


def new_sheet_name(book):
    return numbered_name(book, free_number(book, lambda n: numbered_name(book, n)))


def named_fields(name, index):
    return [("Text", name), ("Number", index)]


def new_sheet_step(book):
    return unless_refused([(fresh_id(core_of(book)) is None, ("IdsUsedUp",))],
                          lambda: changed_by(with_new_sheet(new_sheet_name(book)), book),
                          named_fields(new_sheet_name(book), len(book.sheets)))


def suffix_of(n):
    return " (" + str(n) + ")"


def copy_name(source, n):
    return source[:31 - len(suffix_of(n))] + suffix_of(n)


def name_of_copy(book, source):
    return copy_name(source, free_number(book, lambda n: copy_name(source, n)))


def mentions_sheet(id, formula):
    return formula[0] == "Tree" and some_mention(lambda mention: is_of_sheet(id, mention), lambda word: False, formula[1])


def local_to(id, definitions):
    return [d for d in definitions if same_scope(d.scope, id)]


def shared_about(id, definitions):
    return [d for d in definitions if d.scope is None and mentions_sheet(id, d.body)
            and not any(agrees(other.name, d.name) for other in local_to(id, definitions))]


def copied_of(id, definitions):
    return local_to(id, definitions) + shared_about(id, definitions)


def with_copy(index, copy, definitions):
    return lambda book: book._replace(sheets=inserted(book.sheets, index + 1, copy), definitions=book.definitions + tuple(definitions))


def copy_spelling(after, source, copy, id):
    return sheet_spelling(after, copy if id == source else id)


def copied_formula(n, after, source, copy, formula):
    if formula[0] == "Raw":
        return formula
    spelled = spelled_with(lambda id: copy_spelling(after, source, copy, id), lambda key: definition_spelling(after, key), formula[1])
    return "Tree", bound(english_function(n), after, copy, spelled)


def local_in(id, d):
    return d._replace(scope=id)


def with_formula(f, d):
    return d._replace(body=f(d.body))


def duplicated(book, index, source):
    copy_id = greatest_id(core_of(book)) + 1
    copy_named = source._replace(id=copy_id, name=name_of_copy(book, source.name))
    definitions_moved = [local_in(copy_id, d) for d in copied_of(source.id, book.definitions)]
    scene_with_copy = scene_in(with_copy(index, copy_named, definitions_moved)(book))

    def formula_copied(formula):
        return copied_formula(notations_in(book), scene_with_copy, source.id, copy_id, formula)

    copy_of_sheet = copy_named._replace(pool=tuple(formula_copied(f) for f in source.pool))
    copies_of_definitions = [with_formula(formula_copied, d) for d in definitions_moved]
    return unless_refused([(fresh_id(core_of(book)) is None, ("IdsUsedUp",))],
                          lambda: changed_by(with_copy(index, copy_of_sheet, copies_of_definitions), book),
                          named_fields(copy_named.name, index + 1))


def duplicate_sheet_step(index, book):
    return found_or(("InvalidSheet",), duplicated(book, index, book.sheets[index]) if index < len(book.sheets) else None)


def rename_sheet_step(old, new, book):
    return lifted(book, ("RenameSheet", old, new),
                  lambda: changed_by(lambda b: with_renamed_sheet(index_of_name(core_of(book), old), new, b), book))


def rename_by_index_step(index, name, book):
    return lifted(book, ("RenameSheetByIndex", index, name), lambda: changed_by(lambda b: with_renamed_sheet(index, name, b), book))


def move_sheet_step(origin, to, book):
    return lifted(book, ("MoveSheet", origin, to), lambda: with_moved_sheet(origin, to, book))


def delete_sheet_step(index, book):
    return lifted(book, ("DeleteSheet", index), lambda: changed_by(lambda b: with_removed_sheet(index, b), book))


def delete_by_name_step(name, book):
    return lifted(book, ("DeleteSheetByName", name),
                  lambda: changed_by(lambda b: with_removed_sheet(index_of_name(core_of(book), name), b), book))


def delete_by_id_step(id, book):
    return lifted(book, ("DeleteSheetBySheetId", id),
                  lambda: changed_by(lambda b: with_removed_sheet(index_of_id(core_of(book), id), b), book))


def new_sheet_id_step(book):
    return lifted(book, ("GetNewSheetId",), book)


def property_fields(sheet):
    return [("Text", sheet.name), ("Text", sheet.tab.state), ("Text", color_text(sheet.tab.color)), ("Number", sheet.id)]


def properties_step(book):
    return unless_refused([], book, [field for sheet in book.sheets for field in property_fields(sheet)])


STEPS = {
    "AddSheet": add_sheet_step, "InsertSheet": insert_sheet_step, "NewSheet": new_sheet_step, "DuplicateSheet": duplicate_sheet_step,
    "RenameSheet": rename_sheet_step, "RenameSheetByIndex": rename_by_index_step, "MoveSheet": move_sheet_step,
    "DeleteSheet": delete_sheet_step, "DeleteSheetByName": delete_by_name_step, "DeleteSheetBySheetId": delete_by_id_step,
    "GetNewSheetId": new_sheet_id_step, "GetWorksheetsProperties": properties_step,
}


def step(book, command):
    return STEPS[command[0]](*command[1:], book)
