"""What a place of a sheet holds: a tuple with its kind first and the number of its style last.

Empty; Bool truth; Num units; Err number; Text text; Formula index value; Anchor index area kind value; Spill anchor value."""
from ic_cells.value import UNEVALUATED, error_word, formula_type, formula_value, spill_type, spill_value
from ic_grid.shape import Holding


def formula_index(content):
    return content[1] if content[0] in ("Formula", "Anchor") else None


def style_of(content):
    return content[-1]


def value_of(language, content):
    kind = content[0]
    if kind == "Empty":
        return ("None",)
    if kind == "Bool":
        return "Boolean", content[1]
    if kind == "Num":
        return "Number", content[1]
    if kind == "Err":
        return "String", error_word(language, content[1])
    if kind == "Text":
        return "String", content[1]
    if kind == "Spill":
        return spill_value(language, content[2])
    return formula_value(language, content[-2])


def type_of(content):
    kind = content[0]
    if kind in ("Formula", "Anchor"):
        return formula_type(content[-2])
    if kind == "Spill":
        return spill_type(content[2])
    return {"Empty": "Number", "Bool": "LogicalValue", "Num": "Number", "Err": "ErrorValue", "Text": "Text"}[kind]


def formula_in(pool, index):
    return pool[index] if index < len(pool) else ("Raw", "")


def shape_of(content):
    kind = content[0]
    if kind == "Empty":
        return ("Empty",)
    if kind == "Formula":
        return ("Formula",)
    if kind == "Anchor":
        return "Anchor", content[2][0], content[2][1], content[3]
    return ("SpillOf", content[1]) if kind == "Spill" else ("Value",)


def with_formula_value(value, content):
    if content[0] == "Formula":
        return "Formula", content[1], value, content[3]
    if content[0] == "Anchor":
        return "Anchor", content[1], content[2], content[3], value, content[5]
    return content


def with_array_area(width, height, content):
    if content[0] == "Anchor":
        return "Anchor", content[1], (width, height), content[3], content[4], content[5]
    return content


HELD = Holding(
    shape=shape_of,
    style=style_of,
    empty=lambda style: ("Empty", style),
    with_value=with_formula_value,
    with_area=with_array_area,
    spill=lambda style, anchor, value: ("Spill", anchor, value, style),
    array=lambda index, style, width, height, kind: ("Anchor", index, (width, height), kind, UNEVALUATED, style),
)
