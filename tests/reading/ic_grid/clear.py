"""What becomes of a sheet when a block of it is cleared."""
from .arrays import array_at, reaches
from .block import is_in_block
from .shape import emptied, is_anchor, reset


def wiped(h, all, x):
    return None if all else emptied(h, x)


def loosened(h, x):
    return reset(h, x) if is_anchor(h.shape(x)) else emptied(h, x)


def cleared_cell(h, m, b, all, q, x):
    if is_in_block(b, q):
        return wiped(h, all, x)
    return loosened(h, x) if reaches(b, array_at(h, m, q)) else x


def cleared(h, b, all, m):
    left = {q: cleared_cell(h, m, b, all, q, x) for q, x in m.items()}
    return {q: x for q, x in left.items() if x is not None}
