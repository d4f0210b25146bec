"""The commands on the tabs of sheets, on what stays in sight there, and on the theme."""
from ic_laws.position import LAST_COLUMN, LAST_ROW
from ..book import on_tab, unless_refused
from ..reply import position_field, text_field
from ..word import BOOL, COLOR, INDEX, POSITION, STATE, TEXT
from .sheets import made

ROWS = [
    ("set_theme", [TEXT], made("SetTheme")),
    ("get_theme", [], made("GetTheme")),
    ("set_frozen_rows", [INDEX, POSITION], made("SetFrozenRows")),
    ("set_frozen_columns", [INDEX, POSITION], made("SetFrozenColumns")),
    ("get_frozen_rows_count", [INDEX], made("GetFrozenRowsCount")),
    ("get_frozen_columns_count", [INDEX], made("GetFrozenColumnsCount")),
    ("set_sheet_color", [INDEX, COLOR], made("SetSheetColor")),
    ("set_sheet_state", [INDEX, STATE], made("SetSheetState")),
    ("set_show_grid_lines", [INDEX, BOOL], made("SetShowGridLines")),
]


def set_theme_step(name, book):
    return unless_refused([], book._replace(theme=name), [])


def get_theme_step(book):
    return unless_refused([], book, text_field(book.theme))


def freeze_rows_step(count):
    return lambda tab: unless_refused([(count < 0, ("FrozenNegative",)), (LAST_ROW <= count, ("TooManyRows",))],
                                      tab._replace(frozen_rows=count), [])


def freeze_columns_step(count):
    return lambda tab: unless_refused([(count < 0, ("FrozenNegative",)), (LAST_COLUMN <= count, ("TooManyColumns",))],
                                      tab._replace(frozen_columns=count), [])


def frozen_rows_step(tab):
    return unless_refused([], tab, position_field(tab.frozen_rows))


def frozen_columns_step(tab):
    return unless_refused([], tab, position_field(tab.frozen_columns))


def color_step(color):
    return lambda tab: unless_refused([], tab._replace(color=color), [])


def state_step(state):
    return lambda tab: unless_refused([], tab._replace(state=state), [])


def grid_lines_step(shows):
    return lambda tab: unless_refused([], tab._replace(shows_grid_lines=shows), [])


def step(book, command):
    kind, words = command[0], command[1:]
    if kind == "SetTheme":
        return set_theme_step(words[0], book)
    if kind == "GetTheme":
        return get_theme_step(book)
    if kind == "GetFrozenRowsCount":
        return on_tab(book, words[0], frozen_rows_step)
    if kind == "GetFrozenColumnsCount":
        return on_tab(book, words[0], frozen_columns_step)
    steps = {"SetFrozenRows": freeze_rows_step, "SetFrozenColumns": freeze_columns_step, "SetSheetColor": color_step,
             "SetSheetState": state_step, "SetShowGridLines": grid_lines_step}
    return on_tab(book, words[0], steps[kind](words[1]))
