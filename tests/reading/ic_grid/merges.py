"""Merged cells: which of them covers a place, and whether a block meets one."""
from .block import blocks_meet, first_place, is_in_block


def is_merged(merges, p):
    return any(is_in_block(merge, p) for merge in merges)


def is_covered(merges, p):
    return any(is_in_block(merge, p) and first_place(merge) != p for merge in merges)


def meets_merge(merges, b):
    return any(blocks_meet(merge, b) for merge in merges)
