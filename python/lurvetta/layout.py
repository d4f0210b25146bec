"""Commands on styles, columns, rows and tabs. Widths and heights are hundredths."""
from __future__ import annotations

from .values import Style
from .words import boolean, escaped, number, style


def _style(fields: list[str]) -> Style | None:
    """The style that a reply tells, if it tells one."""
    if not fields:
        return None
    code, quote, bold, fill = fields
    return Style(code, quote == "1", bold == "1", None if fill == "-" else fill)


class Layout:
    """How cells, columns, rows and sheets look. Refused: InvalidSheet, then InvalidRow or InvalidColumn."""

    def get_cell_style_index(self, sheet: int, row: int, column: int) -> int:
        """The number of a place's style in the book, from 0."""
        return int(self._command("get_cell_style_index", number(sheet), number(row), number(column))[0])

    def get_style_for_cell(self, sheet: int, row: int, column: int) -> Style:
        """A place's style: its cell's, else its row's, else its column's, else the first of the book."""
        return _style(self._command("get_style_for_cell", number(sheet), number(row), number(column)))

    def get_cell_style_or_none(self, sheet: int, row: int, column: int) -> Style | None:
        """The style of the cell that is there."""
        return _style(self._command("get_cell_style_or_none", number(sheet), number(row), number(column)))

    def set_column_style(self, sheet: int, column: int, given: Style) -> None:
        """Gives a column a style."""
        self._command("set_column_style", number(sheet), number(column), *style(given))

    def set_row_style(self, sheet: int, row: int, given: Style) -> None:
        """Gives a row a style."""
        self._command("set_row_style", number(sheet), number(row), *style(given))

    def get_column_style(self, sheet: int, column: int) -> Style | None:
        """The style that a column was given."""
        return _style(self._command("get_column_style", number(sheet), number(column)))

    def get_row_style(self, sheet: int, row: int) -> Style | None:
        """The style that a row was given."""
        return _style(self._command("get_row_style", number(sheet), number(row)))

    def delete_column_style(self, sheet: int, column: int) -> None:
        """Takes the style of a column away."""
        self._command("delete_column_style", number(sheet), number(column))

    def delete_row_style(self, sheet: int, row: int) -> None:
        """Takes the style of a row away."""
        self._command("delete_row_style", number(sheet), number(row))

    def set_column_width(self, sheet: int, column: int, width: int) -> None:
        """Gives a column a width."""
        self._command("set_column_width", number(sheet), number(column), number(width))

    def set_row_height(self, sheet: int, row: int, height: int) -> None:
        """Gives a row a height."""
        self._command("set_row_height", number(sheet), number(row), number(height))

    def get_column_width(self, sheet: int, column: int) -> int:
        """The width of a column, 12500 where none was set."""
        return int(self._command("get_column_width", number(sheet), number(column))[0])

    def get_row_height(self, sheet: int, row: int) -> int:
        """The height of a row, 2800 where none was set."""
        return int(self._command("get_row_height", number(sheet), number(row))[0])

    def set_column_hidden(self, sheet: int, column: int, hidden: bool) -> None:
        """Hides a column, or shows it."""
        self._command("set_column_hidden", number(sheet), number(column), boolean(hidden))

    def set_row_hidden(self, sheet: int, row: int, hidden: bool) -> None:
        """Hides a row, or shows it."""
        self._command("set_row_hidden", number(sheet), number(row), boolean(hidden))

    def is_column_hidden(self, sheet: int, column: int) -> bool:
        """Whether a column is hidden."""
        return self._command("is_column_hidden", number(sheet), number(column))[0] == "true"

    def is_row_hidden(self, sheet: int, row: int) -> bool:
        """Whether a row is hidden."""
        return self._command("is_row_hidden", number(sheet), number(row))[0] == "true"

    def set_sheet_color(self, sheet: int, color: str | None) -> None:
        """Gives the tab of a sheet a color, or takes it away."""
        self._command("set_sheet_color", number(sheet), "-" if color is None else escaped(color))

    def set_sheet_state(self, sheet: int, state: str) -> None:
        """Shows or hides a sheet: `visible`, `hidden` or `veryHidden`."""
        self._command("set_sheet_state", number(sheet), escaped(state))

    def set_show_grid_lines(self, sheet: int, shown: bool) -> None:
        """Shows grid lines, or hides them."""
        self._command("set_show_grid_lines", number(sheet), boolean(shown))

    def set_frozen_rows(self, sheet: int, count: int) -> None:
        """Freezes the first rows. Refused further: FrozenNegative, TooManyRows."""
        self._command("set_frozen_rows", number(sheet), number(count))

    def set_frozen_columns(self, sheet: int, count: int) -> None:
        """Freezes the first columns. Refused further: FrozenNegative, TooManyColumns."""
        self._command("set_frozen_columns", number(sheet), number(count))

    def get_frozen_rows_count(self, sheet: int) -> int:
        """The number of frozen rows."""
        return int(self._command("get_frozen_rows_count", number(sheet))[0])

    def get_frozen_columns_count(self, sheet: int) -> int:
        """The number of frozen columns."""
        return int(self._command("get_frozen_columns_count", number(sheet))[0])
