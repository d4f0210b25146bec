"""The values of cells: by which words and texts they are shown, and of which type they are.

A cell's value is ("None",), ("String", text), ("Number", units) or ("Boolean", truth). A formula's value is ("Unevaluated",),
("Boolean", truth), ("Number", units), ("Text", text) or ("Error", number, o, m); that of a spill's cell is one of the middle three
or ("Error", number)."""
from ic_laws.amount import amount_text

UNEVALUATED = ("Unevaluated",)
UNEVALUATED_TEXT = "#ERROR!"


def error_word(language, e):
    return language.errors[e]


def boolean_word(language, truth):
    return language.booleans[0 if truth else 1]


def formula_value(language, value):
    if value == UNEVALUATED:
        return "String", UNEVALUATED_TEXT
    return spill_value(language, value)


def spill_value(language, value):
    if value[0] == "Text":
        return "String", value[1]
    if value[0] == "Error":
        return "String", error_word(language, value[1])
    return value


def formula_type(value):
    return "Number" if value == UNEVALUATED else spill_type(value)


def spill_type(value):
    return {"Boolean": "LogicalValue", "Number": "Number", "Text": "Text", "Error": "ErrorValue"}[value[0]]


def shown_text(decimal, language, value):
    if value[0] == "None":
        return ""
    if value[0] == "String":
        return value[1]
    return amount_text(decimal, value[1]) if value[0] == "Number" else boolean_word(language, value[1])
