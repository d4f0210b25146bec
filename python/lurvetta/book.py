"""`Book`: a method for each command."""
from __future__ import annotations

from datetime import datetime

from .cells import Cells
from .errors import Closed
from .handle import Handle
from .layout import Layout
from .sheets import Sheets


class Book(Sheets, Cells, Layout, Handle):
    """A workbook, new with one sheet, in a locale (separators), a language (words) and a time zone.

    It may be used by several threads: a lock gives it to one call at a time. It is closed by `close`, at the end of `with`, or
    when nothing refers to it.

    >>> with Book("de", "de") as book:
    ...     book.set_user_input(0, 1, 1, "1.234,50€")
    ...     book.get_formatted_cell_value(0, 1, 1)
    '1.234,50€'
    """

    def __init__(
        self, locale: str = "en", language: str = "en", zone: str = "UTC", *, name: str = "workbook", moment: datetime | None = None
    ) -> None:
        """Refused with `InvalidTimezone`, `InvalidLocale`, `InvalidLanguage`, in this order. `moment` is when it is made: now."""
        super().__init__(name, locale, language, zone, moment)

    def __repr__(self) -> str:
        try:
            sheets = [it.name for it in self.get_worksheets_properties()]
        except Closed:
            return "<Book closed>"
        return f"<Book {self._name!r} {sheets}>"
