"""The commands that only read."""

READERS = {
    "OnSheets": {"GetNewSheetId", "GetWorksheetsProperties"},
    "OnDefinitions": {"WouldCaptureName", "IsValidDefinedName", "GetDefinedNameList"},
    "OnNotation": {"GetLocale", "GetLanguage", "GetTimezone", "GetFmtSettings"},
    "OnStyles": {"GetCellStyleIndex", "GetStyleForCell", "GetCellStyleOrNone", "GetColumnStyle", "GetRowStyle"},
    "OnLayout": {"GetColumnWidth", "GetRowHeight", "IsColumnHidden", "IsRowHidden"},
    "OnTabs": {"GetTheme", "GetFrozenRowsCount", "GetFrozenColumnsCount"},
}


def is_reader(command):
    return command[0] in ("OnReading", "OnExtending") or command[1][0] in READERS.get(command[0], ())
