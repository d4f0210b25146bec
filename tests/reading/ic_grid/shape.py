"""What a place of a sheet holds, by its shape; and how it is emptied and reset.

A shape is ("Empty",), ("Value",), ("Formula",), ("Anchor", width, height, kind) or ("SpillOf", anchor). A holding says the shape
and the style of what a place holds, and makes it into others."""
from typing import Any, NamedTuple

from ic_cells.value import UNEVALUATED

ERROR_NUMBER = 10


class Holding(NamedTuple):
    shape: Any
    style: Any
    empty: Any
    with_value: Any
    with_area: Any
    spill: Any
    array: Any


def emptied(h, x):
    return h.empty(h.style(x))


def reset(h, x):
    return h.with_area(1, 1, h.with_value(UNEVALUATED, x))


def is_spill_of(a, shape):
    return shape == ("SpillOf", a)


def is_empty(shape):
    return shape == ("Empty",)


def is_anchor(shape):
    return shape[0] == "Anchor"


def is_formula(shape):
    return shape[0] in ("Formula", "Anchor")


def is_cse(kind):
    return kind == "Cse"


def spread(value):
    if value == UNEVALUATED:
        return "Error", ERROR_NUMBER
    return value[:2]


def gathered(value):
    return value + ("", "") if value[0] == "Error" else value
