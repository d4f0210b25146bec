"""The commands that write a formula out for another cell, and the one that reads the name of a cell."""
from typing import NamedTuple

from ic_cells.value import shown_text
from ic_laws.binding import bound, spelled
from ic_laws.formula_reading import shown_at
from ic_laws.notations import ENGLISH, english_function
from ic_laws.parse import read_as
from ic_laws.position import is_column, is_row
from ic_laws.printing import printed
from ..book import at_sheet, content_at, core_of, formula_held, lacks_sheet, notations_in, scene_in, unless_refused
from ..content import value_of
from ..in_force import decimal_in, formula_typed, in_force
from ..parsed import parsed_reference
from ..reply import text_field
from ..word import INDEX, POSITION, TEXT
from .reading import formula_text


class CellOf(NamedTuple):
    sheet: int
    row: int
    column: int


PLACE = [INDEX, POSITION, POSITION]
ROWS = [
    ("extend_to", PLACE + [POSITION, POSITION], lambda s, r, c, row, column: ("ExtendTo", CellOf(s, r, c), (row, column))),
    ("extend_copied_value", [TEXT] + PLACE + PLACE,
     lambda text, *words: ("ExtendCopiedValue", text, CellOf(*words[:3]), CellOf(*words[3:]))),
    ("parse_reference", [TEXT], lambda text: ("ParseReference", text)),
]


def localized_text(book, content):
    language = in_force(book).language
    return shown_text(decimal_in(book), language, value_of(language, content))


def extended(book, sheet, target, content):
    formula = formula_held(sheet, content)
    return localized_text(book, content) if formula is None else formula_text(book, target, formula)


def extend_step(source, target, book):
    def read(sheet):
        content = content_at(sheet, source.row, source.column)
        return unless_refused([], book, text_field("" if content is None else extended(book, sheet, target, content)))
    return at_sheet(book, source.sheet, read)


def copied_tree(book, source, text):
    tree = read_as(shown_at(notations_in(book), core_of(book), source.row, source.column), text)
    return read_as(notations_in(book).shown(ENGLISH, ENGLISH, source.row, source.column), text) if tree is None else tree


def tree_extended(book, source, target, tree):
    n = notations_in(book)
    source_id = book.sheets[source.sheet].id
    return "=" + printed(shown_at(n, core_of(book), target.row, target.column),
                         spelled(scene_in(book), bound(english_function(n), scene_in(book), source_id, tree)))


def copied_text(book, source, target, text, formula):
    return text if formula is None else tree_extended(book, source, target, copied_tree(book, source, formula))


def reads_not(book, source, formula):
    return formula is not None and copied_tree(book, source, formula) is None


def copied_causes(book, source, target, text):
    return [(lacks_sheet(book, source.sheet), ("InvalidSheet",)), (lacks_sheet(book, target.sheet), ("InvalidSheet",)),
            (not is_row(source.row), ("InvalidRow",)), (not is_row(target.row), ("InvalidRow",)),
            (not is_column(source.column), ("InvalidColumn",)), (not is_column(target.column), ("InvalidColumn",)),
            (lambda: reads_not(book, source, formula_typed(book, text)), ("InvalidFormula",))]


def extend_copied_step(text, source, target, book):
    return unless_refused(copied_causes(book, source, target, text), book,
                          lambda: text_field(copied_text(book, source, target, text, formula_typed(book, text))))


def parsed_fields(parsed):
    return [("Number", parsed.sheet), ("Position", parsed.row), ("Position", parsed.column)]


def parse_step(text, book):
    parsed = parsed_reference(core_of(book), text)
    return unless_refused([], book, [] if parsed is None else parsed_fields(parsed))


STEPS = {"ExtendTo": extend_step, "ExtendCopiedValue": extend_copied_step, "ParseReference": parse_step}


def step(book, command):
    return STEPS[command[0]](*command[1:], book)
