"""Commands that write and read cells. Sheets count from 0, rows and columns from 1."""
from __future__ import annotations

from collections.abc import Iterable
from decimal import Decimal

from .values import Cell, ErrorValue, Value
from .words import amount, boolean, escaped, number, value


def _value(fields: list[str]) -> Value:
    """The value that a reply tells."""
    kind, *text = fields
    if kind == "none":
        return None
    if kind == "number":
        return Decimal(text[0])
    return text[0] == "true" if kind == "boolean" else text[0]


class Cells:
    """What stands in cells."""

    def _write(self, command: str, sheet: int, row: int, column: int, word: str) -> None:
        self._command(f"{command}\t{sheet:d}\t{row:d}\t{column:d}\t{word}")

    def _read(self, command: str, sheet: int, row: int, column: int) -> list[str]:
        return self._command(f"{command}\t{sheet:d}\t{row:d}\t{column:d}")

    def set_user_input(self, sheet: int, row: int, column: int, text: str) -> None:
        """Writes what a user types; nothing typed empties the cell.

        Refused, as each call that writes a cell: InvalidSheet, InvalidRow, InvalidColumn, MergedPart, ArrayPart.
        """
        self._write("set_user_input", sheet, row, column, escaped(text))

    def update_cell_with_text(self, sheet: int, row: int, column: int, text: str) -> None:
        """Writes a text as it stands, whatever it would be if it were typed."""
        self._write("update_cell_with_text", sheet, row, column, escaped(text))

    def update_cell_with_formula(self, sheet: int, row: int, column: int, formula: str) -> None:
        """Writes a formula, as `=SUM(A1:A9)`. Refused further: NotAFormula."""
        self._write("update_cell_with_formula", sheet, row, column, escaped(formula))

    def update_cell_with_bool(self, sheet: int, row: int, column: int, truth: bool) -> None:
        """Writes a boolean."""
        self._write("update_cell_with_bool", sheet, row, column, boolean(truth))

    def update_cell_with_number(self, sheet: int, row: int, column: int, given: Decimal | int) -> None:
        """Writes an amount, below 10^18 and with at most nine digits after the point."""
        self._write("update_cell_with_number", sheet, row, column, amount(given))

    def get_cell_formula(self, sheet: int, row: int, column: int) -> str | None:
        """The formula of a cell in the notation in force, or None where it has none. Refused: InvalidSheet."""
        told = self._read("get_cell_formula", sheet, row, column)
        return told[0] if told else None

    def get_localized_cell_content(self, sheet: int, row: int, column: int) -> str:
        """What typed again leaves what the cell holds; empty where nothing is. Refused: InvalidSheet."""
        return self._read("get_localized_cell_content", sheet, row, column)[0]

    def get_formatted_cell_value(self, sheet: int, row: int, column: int) -> str:
        """The value as its format shows it; a formula without a value is `#ERROR!`. Refused: InvalidSheet."""
        return self._read("get_formatted_cell_value", sheet, row, column)[0]

    def get_cell_value_by_index(self, sheet: int, row: int, column: int) -> Value:
        """The value of a cell, or None where it has none. Refused: InvalidSheet."""
        return _value(self._read("get_cell_value_by_index", sheet, row, column))

    def get_cell_value_by_ref(self, text: str) -> Value:
        """The value of the cell that a text names, as `Sheet1!B3`. Refused: BadReference."""
        return _value(self._command("get_cell_value_by_ref", escaped(text)))

    def get_cell_type(self, sheet: int, row: int, column: int) -> str:
        """`Number`, `Text`, `LogicalValue` or `ErrorValue`. Refused: InvalidSheet."""
        return self._read("get_cell_type", sheet, row, column)[0]

    def is_empty_cell(self, sheet: int, row: int, column: int) -> bool:
        """Whether nothing, or nothing but a style, stands there. Refused: InvalidSheet."""
        return self._read("is_empty_cell", sheet, row, column)[0] == "true"

    def get_all_cells(self) -> list[Cell]:
        """The cells by sheet, row and column."""
        fields = map(int, self._command("get_all_cells"))
        return [Cell(*it) for it in zip(*[fields] * 3)]

    def get_sheet_markup(self, sheet: int) -> str:
        """A sheet as rows of text, cells parted by `|`. Refused: InvalidSheet."""
        return self._command("get_sheet_markup", number(sheet))[0]

    def extend_to(self, sheet: int, row: int, column: int, to_row: int, to_column: int) -> str:
        """What the formula or value of a cell becomes in another cell of the sheet. Refused: InvalidSheet."""
        words = (number(it) for it in (sheet, row, column, to_row, to_column))
        return self._command("extend_to", *words)[0]

    def extend_copied_value(
        self, text: str, sheet: int, row: int, column: int, to_sheet: int, to_row: int, to_column: int
    ) -> str:
        """What a text that was copied from one cell becomes in another.

        Refused: InvalidSheet, InvalidRow, InvalidColumn, InvalidFormula.
        """
        words = (number(it) for it in (sheet, row, column, to_sheet, to_row, to_column))
        return self._command("extend_copied_value", escaped(text), *words)[0]

    def parse_reference(self, text: str) -> Cell | None:
        """The cell that a text names, as `Sheet1!B3`, or None."""
        told = self._command("parse_reference", escaped(text))
        return Cell(*map(int, told)) if told else None

    def set_user_array_formula(self, sheet: int, row: int, column: int, width: int, height: int, formula: str) -> None:
        """Writes an array formula into an area. Refused: InvalidSheet, BadArea, MergedPart, ArrayPart, NotAFormula."""
        words = (number(it) for it in (sheet, row, column, width, height))
        self._command("set_user_array_formula", *words, escaped(formula))

    def range_clear_contents(self, sheet: int, row: int, column: int, width: int, height: int) -> None:
        """Empties the cells of an area, which keep their styles. Refused: InvalidSheet, BadArea, ClearArray."""
        self._command("range_clear_contents", *(number(it) for it in (sheet, row, column, width, height)))

    def range_clear_all(self, sheet: int, row: int, column: int, width: int, height: int) -> None:
        """Takes the cells of an area away, with their styles. Refused: InvalidSheet, BadArea, ClearArray."""
        self._command("range_clear_all", *(number(it) for it in (sheet, row, column, width, height)))

    def put_formula_value(
        self, sheet: int, row: int, column: int, given: Decimal | int | bool | str | ErrorValue | None
    ) -> None:
        """Gives a formula its value, None for none. Refused: InvalidSheet, NoFormulaCell."""
        self._write("put_formula_value", sheet, row, column, value(given))

    def put_spill(
        self, sheet: int, row: int, column: int, width: int, height: int, values: Iterable[Decimal | int | bool | str | ErrorValue]
    ) -> None:
        """Gives an array formula its values, by rows. Refused: InvalidSheet, NoFormulaCell, BadArea, SpillBlocked."""
        words = (number(it) for it in (sheet, row, column, width, height))
        self._command("put_spill", *words, *(value(it) for it in values))
