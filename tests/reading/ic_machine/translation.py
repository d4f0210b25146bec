"""What command lines become in another notation, so that they leave the same book: which lines go, what the others become, and
which can't be translated. Where the definitions leave a spelling open, a choice that is handed in makes it."""
from ic_cells.value import boolean_word, error_word
from ic_grid.block import first_place
from ic_laws.amount import amount_text
from ic_laws.binding import bound
from ic_laws.core_book import Definition
from ic_laws.core_step import scope_or_none
from ic_laws.formula_reading import body_of, shown_body, without_equals
from ic_laws.lines import escaped, word_texts, words_of
from ic_laws.notations import ENGLISH, english_function
from ic_tables.tables import language_of
from .book import core_of, notations_in
from .command import COMMANDS, command_in
from .in_force import decimal_in, formula_typed, in_force, is_number, shown_words, typed_in
from .readers import is_reader
from .retyped import clashes_in
from .step import line_step, step
from .subjects.definitions import Updating, new_definition, update_body
from .subjects.reading import formula_text
from .subjects.sheets import new_sheet_name
from .subjects.writing import formula_at_place


def in_notation(locale, language, book):
    return book._replace(locale=locale, language=language)


# The formula of a command's own text. ----

def formula_in_cell(book, index, place, text):
    return formula_at_place(book, book.sheets[index], place, text) if text is not None and index < len(book.sheets) else None


def formula_of_typed(t):
    return t[1] if t[0] == "Formula" else None


def written_formula(book, command):
    kind, index, row, column, given = command
    if kind == "SetUserInput":
        return formula_in_cell(book, index, (row, column), formula_of_typed(typed_in(book, given)))
    return formula_in_cell(book, index, (row, column), formula_typed(book, given)) if kind == "UpdateCellWithFormula" else None


def array_formula(book, command):
    if command[0] != "SetUserArrayFormula":
        return None
    return formula_in_cell(book, command[1], first_place(command[2]), without_equals(command[3]))


def updated_definition(book, update, body):
    u = Updating(book, update)
    tree = bound(english_function(notations_in(book)), u.scene_updated(), u.new_scope_id, body.tree)
    return Definition(update.new_name, u.new_scope_id, body.has_equals, ("Tree", tree))


def defined(book, command):
    """The definition that a command makes or updates, as it leaves it."""
    n, core = notations_in(book), core_of(book)
    if command[0] == "NewDefinedName":
        _, name, scope, text = command
        body = body_of(n, core, text)
        return None if body is None else new_definition(book, name, scope_or_none(core, scope), body)
    if command[0] == "UpdateDefinedName":
        body = update_body(n, core, command[1].body)
        return None if body is None else updated_definition(book, command[1], body)
    return None


def own_formula(book, command):
    subject, c = command
    if subject == "OnWriting":
        return written_formula(book, c)
    if subject == "OnArrays":
        return array_formula(book, c)
    definition = defined(book, c) if subject == "OnDefinitions" else None
    return None if definition is None else definition.body


# What goes, and what can't be translated. ----

def why_not(target, formula):
    """Why a formula can't be written in the notation of a book."""
    if formula[0] == "Raw":
        return "Raw"
    return "Clash" if clashes_in(target, formula[1]) else None


def is_switch(command):
    return command[1][0] in ("SetLocale", "SetLanguage")


def is_dropped(command):
    return is_reader(command) or is_switch(command)


def kept_command(book, command):
    """A command that is accepted and doesn't go, and the book that it leaves."""
    if is_dropped(command):
        return None
    stepped = step(book, command)
    return (command, stepped[1]) if stepped[0] == "Ok" else None


def command_of(book, line):
    return command_in(language_of(book.tables, ENGLISH), COMMANDS, line)


def kept_in(book, line):
    command = command_of(book, line)
    return None if command is None else kept_command(book, command)


# What a line becomes, by the book before it and the target: the book that it leaves, in the notation that is asked for. ----

def texts_of(line):
    return word_texts(words_of(line))


def line_of(texts):
    return "\t".join(escaped(text) for text in texts)


def with_last(text, texts):
    return texts[:-1] + [text]


def cell_text(target, place, formula):
    return "" if formula is None else formula_text(target, place, formula)


def is_typed_so(target, place, formula, t, text):
    """A text that, typed in the target, is what was typed; so it is said for the three kinds whose spelling is open."""
    kind, again = t[0], typed_in(target, text)
    if kind == "Number":
        return is_number(t[1], again)
    return again == t if kind in ("Boolean", "Error") else text == typed_so(target, place, formula, t)


def typed_so(target, place, formula, t):
    """One such text: of a number, the text of its amount; of a boolean or an error value, its word."""
    kind = t[0]
    if kind == "Empty":
        return ""
    if kind == "Quoted":
        return "'" + t[1]
    if kind == "Formula":
        return cell_text(target, place, formula)
    if kind == "Number":
        return amount_text(decimal_in(target), t[1])
    if kind == "Boolean":
        return boolean_word(in_force(target).language, t[1])
    return error_word(in_force(target).language, t[1]) if kind == "Error" else shown_words(target, t[1])


def plainly(target, place, formula, t, text):
    """The choice of that one."""
    return typed_so(target, place, formula, t)


def as_typed(target, place, formula, t, text):
    """The choice of what was typed, where that will do."""
    return text if is_typed_so(target, place, formula, t, text) else typed_so(target, place, formula, t)


def body_text(target, definition):
    return "" if definition is None else shown_body(notations_in(target), core_of(target), definition.has_equals, definition.body)


def last_text(choice, book, target, command):
    """The text at the end of one of five commands, written anew."""
    c = command[1]
    if c[0] == "SetUserInput":
        return choice(target, c[2:4], written_formula(book, c), typed_in(book, c[4]), c[4])
    if c[0] == "UpdateCellWithFormula":
        return cell_text(target, c[2:4], written_formula(book, c))
    if c[0] == "SetUserArrayFormula":
        return cell_text(target, first_place(c[2]), array_formula(book, c))
    return body_text(target, defined(book, c)) if c[0] in ("NewDefinedName", "UpdateDefinedName") else None


def translated_texts(choice, book, target, command, texts):
    if command[1][0] == "NewSheet":
        return ["add_sheet", new_sheet_name(book)]
    text = last_text(choice, book, target, command)
    return texts if text is None else with_last(text, texts)


def translated_line(choice, book, target, command, line):
    return line_of(translated_texts(choice, book, target, command, texts_of(line)))


# Lists of lines, in the notation that is asked for. ----

def left_after(book, line):
    return line_step(COMMANDS, book, line)[0]


def why_line_not(locale, language, book, line):
    kept = kept_in(book, line)
    formula = None if kept is None else own_formula(book, kept[0])
    return None if formula is None else why_not(in_notation(locale, language, book), formula)


def first_hindered(locale, language, book, lines):
    """The number of the first line that can't be translated, from 1, and why."""
    for number, line in enumerate(lines, 1):
        why = why_line_not(locale, language, book, line)
        if why is not None:
            return number, why
        book = left_after(book, line)
    return None


def became(locale, language, choice, book, line):
    """What a line becomes that is kept."""
    kept = kept_in(book, line)
    return None if kept is None else translated_line(choice, book, in_notation(locale, language, kept[1]), kept[0], line)


def translated(locale, language, choice, book, lines):
    new = []
    for line in lines:
        new_line = became(locale, language, choice, book, line)
        new += [] if new_line is None else [new_line]
        book = left_after(book, line)
    return new
