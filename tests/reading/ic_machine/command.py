"""All commands: one table, joined from those of ten subjects, and the command that a line is."""
from ic_laws.lines import words_of
from .row import spelled
from .subjects import arrays, definitions, extending, layout, notation, reading, sheets, styles, tabs, writing

SUBJECTS = (("OnSheets", sheets), ("OnDefinitions", definitions), ("OnNotation", notation), ("OnWriting", writing),
            ("OnReading", reading), ("OnExtending", extending), ("OnStyles", styles), ("OnLayout", layout), ("OnTabs", tabs),
            ("OnArrays", arrays))


def row_in(subject, row):
    name, words, command = row
    return name, words, lambda *values: (subject, command(*values))


COMMANDS = [row_in(subject, row) for subject, module in SUBJECTS for row in module.ROWS]

CORE_NAMES = ("add_sheet", "rename_sheet", "rename_sheet_by_index", "move_sheet", "delete_sheet", "delete_sheet_by_name",
              "delete_sheet_by_sheet_id", "new_defined_name", "delete_defined_name", "is_valid_defined_name",
              "get_defined_name_list", "get_new_sheet_id", "set_locale", "set_language", "update_cell_with_formula",
              "get_cell_formula")
CORE_COMMANDS = [row for row in COMMANDS if row[0] in CORE_NAMES]


def command_in(english, rows, line):
    return spelled(english, rows, words_of(line))
