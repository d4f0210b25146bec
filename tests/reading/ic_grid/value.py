"""What becomes of a sheet when a formula gets a value."""
from .shape import emptied, is_cse, is_spill_of, spread


def is_cse_anchor(shape):
    return shape[0] == "Anchor" and is_cse(shape[3])


def shape_at(h, m, p):
    return h.shape(m[p]) if p in m else ("Empty",)


def valued_cell(h, cse, value, a, q, x):
    if q == a:
        return h.with_value(value, x if cse else h.with_area(1, 1, x))
    if is_spill_of(a, h.shape(x)):
        return h.spill(h.style(x), a, spread(value)) if cse else emptied(h, x)
    return x


def valued(h, a, value, m):
    cse = is_cse_anchor(shape_at(h, m, a))
    return {q: valued_cell(h, cse, value, a, q, x) for q, x in m.items()}
