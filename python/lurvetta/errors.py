"""What goes wrong, and what each error says."""
from __future__ import annotations

# What each refusal says, as docs/REFUSALS.md has it.
TEXTS = {
    "BadLine": "Invalid line",
    "InvalidSheet": "Invalid sheet index",
    "InvalidRow": "Invalid row",
    "InvalidColumn": "Invalid column",
    "BadArea": "Invalid area",
    "OutOfRange": "Sheet index out of range",
    "SheetIndexTooLarge": "Sheet index too large",
    "TargetTooLarge": "Target sheet index too large",
    "InvalidSheetName": "Invalid name for a sheet",
    "SheetExists": "A worksheet already exists with that name",
    "SheetNotFound": "Sheet not found",
    "OnlySheet": "Cannot delete only sheet",
    "IdLive": "Sheet id is in use",
    "IdsUsedUp": "No sheet id is left",
    "InvalidName": "Name: Invalid defined name",
    "InvalidScope": "Scope: Invalid sheet index",
    "NameExists": "Name: Defined name already exists",
    "NameNotFound": "Defined name not found",
    "InvalidNameFormula": "Formula: Invalid defined name formula",
    "InvalidFormula": "Invalid formula",
    "BadReference": "Error parsing reference",
    "NotAFormula": "Not a valid formula",
    "InvalidLocale": "Invalid locale",
    "InvalidLanguage": "Invalid language",
    "InvalidTimezone": "Invalid timezone",
    "MergedPart": "Cannot edit a cell that is part of a merged cell",
    "ArrayPart": "Cannot write in a cell that is part of an array formula",
    "ClearArray": "Cannot clear the range because it contains array formulas",
    "FrozenNegative": "Frozen rows cannot be negative",
    "TooManyRows": "Too many rows",
    "TooManyColumns": "Too many columns",
    "NoFormulaCell": "No formula cell",
    "SpillBlocked": "Cannot spill array result",
    "BadWorkbook": "Invalid workbook",
    "WouldCapture": "Name: update would capture",
    "OutOfMemory": "Out of memory",
}


class LurvettaError(Exception):
    """What a call of a book raises."""


class Refused(LurvettaError):
    """A call was refused, and has changed nothing.

    `variant` is the name of the refusal, as `SheetExists`; the error's text is what it says.
    """

    def __init__(self, variant: str) -> None:
        super().__init__(TEXTS.get(variant, variant))
        self.variant = variant

    def __repr__(self) -> str:
        return f"Refused({self.variant!r})"

    def __reduce__(self) -> tuple[type[Refused], tuple[str]]:
        return Refused, (self.variant,)


class Closed(LurvettaError):
    """The book is closed."""

    def __init__(self) -> None:
        super().__init__("The book is closed")


class WantOfMemory(LurvettaError, MemoryError):
    """Memory ran out. The book is as it was before the line that met it.

    `replies` are those to the lines of a `run` that were answered before that.
    """

    def __init__(self, replies: list[str] | None = None) -> None:
        super().__init__(TEXTS["OutOfMemory"])
        self.replies = replies or []
