"""What becomes of a sheet when a cell is written: the array that the place belongs to is released first."""
from .arrays import anchor_at
from .block import next_place
from .shape import emptied, is_anchor, is_spill_of, reset


def unspilled(h, a, x):
    return emptied(h, x) if is_spill_of(a, h.shape(x)) else x


def without_spill(h, a, m):
    return {q: unspilled(h, a, x) for q, x in m.items()}


def anchor_reset(h, x):
    return reset(h, x) if is_anchor(h.shape(x)) else x


def released(h, a, m):
    return {q: anchor_reset(h, x) if q == a else x for q, x in without_spill(h, a, m).items()}


def prepared(h, p, m):
    a = anchor_at(h, m, p)
    return m if a is None else released(h, a, m)


def all_prepared(h, b, n, p, m):
    for _ in range(n):
        m = prepared(h, p, m)
        p = next_place(b, p)
    return m


def written(h, p, x, m):
    return {**prepared(h, p, m), p: x}
