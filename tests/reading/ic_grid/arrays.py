"""Arrays: which one a place belongs to, and those whose area doesn't change."""
from typing import NamedTuple

from .block import Block, block_at, blocks_meet, is_block_within, is_in_block, is_single
from .shape import is_cse


class Array(NamedTuple):
    block: Block
    kind: str


def anchor_of(p, shape):
    if shape[0] == "Anchor":
        return p
    return shape[1] if shape[0] == "SpillOf" else None


def array_from(a, shape):
    return Array(block_at(a, shape[1], shape[2]), shape[3]) if shape[0] == "Anchor" else None


def is_fixed(array):
    return array is not None and is_cse(array.kind) and not is_single(array.block)


def is_cut_by(b, array):
    return is_fixed(array) and not is_block_within(array.block, b)


def reaches(b, array):
    return array is not None and blocks_meet(array.block, b)


def anchor_at(h, m, p):
    return anchor_of(p, h.shape(m[p])) if p in m else None


def array_of(h, m, a):
    return array_from(a, h.shape(m[a])) if a in m else None


def array_at(h, m, p):
    a = anchor_at(h, m, p)
    return None if a is None else array_of(h, m, a)


def is_fixed_at(h, m, p):
    return is_fixed(array_at(h, m, p))


def has_fixed(h, m, b):
    return any(is_in_block(b, p) and is_fixed_at(h, m, p) for p in m)


def has_cut(h, m, b):
    return any(is_in_block(b, p) and is_cut_by(b, array_at(h, m, p)) for p in m)
