"""Commands on sheets, definitions, and the notation in force. SCOPE is the index of a sheet, or None for the whole book."""
from __future__ import annotations

from .values import DefinedName, FormatSettings, NewSheet, SheetProperties
from .words import escaped, number, optional


class Sheets:
    """Sheets, definitions, locale, language, time zone and theme."""

    def add_sheet(self, name: str) -> None:
        """Adds a sheet at the end. Refused: InvalidSheetName, SheetExists, IdsUsedUp."""
        self._command("add_sheet", escaped(name))

    def insert_sheet(self, name: str, sheet: int, id: int | None = None) -> None:
        """Adds a sheet at this index, with this id or a fresh one.

        Refused: InvalidSheetName, SheetExists, OutOfRange, IdLive, IdsUsedUp.
        """
        self._command("insert_sheet", escaped(name), number(sheet), optional(id))

    def new_sheet(self) -> NewSheet:
        """Adds a sheet at the end, named by the language in force. Refused: IdsUsedUp."""
        name, index = self._command("new_sheet")
        return NewSheet(name, int(index))

    def duplicate_sheet(self, sheet: int) -> NewSheet:
        """Puts a copy directly behind a sheet, with all that it has. Refused: InvalidSheet, IdsUsedUp."""
        name, index = self._command("duplicate_sheet", number(sheet))
        return NewSheet(name, int(index))

    def rename_sheet_by_index(self, sheet: int, name: str) -> None:
        """Gives a sheet another name. Refused: InvalidSheetName, SheetExists, InvalidSheet."""
        self._command("rename_sheet_by_index", number(sheet), escaped(name))

    def rename_sheet(self, old: str, new: str) -> None:
        """Gives the sheet of an agreeing name another. Refused: SheetNotFound, InvalidSheetName, SheetExists."""
        self._command("rename_sheet", escaped(old), escaped(new))

    def move_sheet(self, sheet: int, to: int) -> None:
        """Puts a sheet at another index. Refused: SheetIndexTooLarge, TargetTooLarge."""
        self._command("move_sheet", number(sheet), number(to))

    def delete_sheet(self, sheet: int) -> None:
        """Takes a sheet out. Refused: OnlySheet, SheetIndexTooLarge."""
        self._command("delete_sheet", number(sheet))

    def delete_sheet_by_name(self, name: str) -> None:
        """Takes the sheet of an agreeing name out. Refused: SheetNotFound, OnlySheet."""
        self._command("delete_sheet_by_name", escaped(name))

    def delete_sheet_by_sheet_id(self, id: int) -> None:
        """Takes the sheet of this id out. Refused: SheetNotFound, OnlySheet."""
        self._command("delete_sheet_by_sheet_id", number(id))

    def get_worksheets_properties(self) -> list[SheetProperties]:
        """The sheets in their order."""
        fields = self._command("get_worksheets_properties")
        return [
            SheetProperties(name, state, None if color == "-" else color, int(id))
            for name, state, color, id in zip(*[iter(fields)] * 4)
        ]

    def get_new_sheet_id(self) -> int | None:
        """The id that the next new sheet gets, or None where none is left."""
        (id,) = self._command("get_new_sheet_id")
        return None if id == "-" else int(id)

    def new_defined_name(self, name: str, scope: int | None, body: str) -> None:
        """Adds a definition. Refused: InvalidName, InvalidScope, NameExists, InvalidNameFormula."""
        self._command("new_defined_name", escaped(name), optional(scope), escaped(body))

    def is_valid_defined_name(self, name: str, scope: int | None, body: str) -> int | None:
        """Whether it could be added: the id of the sheet of the scope. Refused as `new_defined_name`."""
        (id,) = self._command("is_valid_defined_name", escaped(name), optional(scope), escaped(body))
        return None if id == "-" else int(id)

    def update_defined_name(self, name: str, scope: int | None, new_name: str, new_scope: int | None, body: str) -> None:
        """Gives a definition another name, scope and body; every word that meant it still does.

        Refused: InvalidName, InvalidScope, NameExists, InvalidFormula, NameNotFound, WouldCapture.
        """
        self._command(
            "update_defined_name", escaped(name), optional(scope), escaped(new_name), optional(new_scope), escaped(body)
        )

    def would_capture(self, name: str, scope: int | None, new_name: str, new_scope: int | None, body: str) -> bool:
        """Whether that update would make some word mean something else. Refused as it, except WouldCapture."""
        (told,) = self._command(
            "would_capture", escaped(name), optional(scope), escaped(new_name), optional(new_scope), escaped(body)
        )
        return told == "true"

    def delete_defined_name(self, name: str, scope: int | None) -> None:
        """Takes a definition out. Refused: InvalidSheet, NameNotFound."""
        self._command("delete_defined_name", escaped(name), optional(scope))

    def get_defined_name_list(self) -> list[DefinedName]:
        """The definitions in their order, except those whose sheet is gone."""
        fields = self._command("get_defined_name_list")
        return [
            DefinedName(name, None if scope == "-" else int(scope), body) for name, scope, body in zip(*[iter(fields)] * 3)
        ]

    def set_locale(self, id: str) -> None:
        """Changes the separators. Refused: InvalidLocale."""
        self._command("set_locale", escaped(id))

    def set_language(self, id: str) -> None:
        """Changes the words. Refused: InvalidLanguage."""
        self._command("set_language", escaped(id))

    def set_timezone(self, id: str) -> None:
        """Puts the book into another time zone. Refused: InvalidTimezone."""
        self._command("set_timezone", escaped(id))

    def get_locale(self) -> str:
        """The locale in force."""
        return self._command("get_locale")[0]

    def get_language(self) -> str:
        """The language in force."""
        return self._command("get_language")[0]

    def get_timezone(self) -> str:
        """The time zone in force."""
        return self._command("get_timezone")[0]

    def get_fmt_settings(self) -> FormatSettings:
        """How the locale in force shows amounts and dates."""
        return FormatSettings(*self._command("get_fmt_settings"))

    def set_theme(self, name: str) -> None:
        """Keeps the name of a theme."""
        self._command("set_theme", escaped(name))

    def get_theme(self) -> str:
        """The name of the theme, empty in a new book."""
        return self._command("get_theme")[0]
