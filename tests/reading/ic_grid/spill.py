"""What becomes of a sheet when an array is written or gets its values, and which cell blocks a spill."""
from ic_cells.style import style_at as style_in, style_number, with_quote_prefix, with_style_in
from .block import first_place, has_places, is_in_sheet, is_single, next_place
from .merges import is_merged
from .prepare import all_prepared, without_spill
from .shape import gathered, is_empty, is_spill_of
from .style import style_at
from .value import is_cse_anchor, shape_at


def has_other_area(width, height, shape):
    return shape[0] == "Anchor" and not (shape[1] == width and shape[2] == height)


def misfits(b, count, shape):
    return (not has_places(b) or b.width * b.height != count
            or is_cse_anchor(shape) and has_other_area(b.width, b.height, shape))


def blocks(h, merges, m, a, q):
    shape = shape_at(h, m, q)
    return not is_in_sheet(q) or is_merged(merges, q) or not (q == a or is_empty(shape) or is_spill_of(a, shape))


def first_of_blocking(h, merges, m, a, b, n, q):
    for _ in range(n):
        if blocks(h, merges, m, a, q):
            return q
        q = next_place(b, q)
    return None


def first_blocking(h, merges, m, b, count):
    if is_cse_anchor(shape_at(h, m, first_place(b))) or is_single(b):
        return None
    return first_of_blocking(h, merges, m, first_place(b), b, count, first_place(b))


def filled(h, rows, columns, b, q, values, m):
    for value in values:
        m = {**m, q: h.spill(style_at(h, m, rows, columns, q), first_place(b), value)}
        q = next_place(b, q)
    return m


def with_first(h, b, value, x, m):
    if x is None:
        return m
    return {**m, first_place(b): h.with_value(gathered(value), h.with_area(b.width, b.height, x))}


def spilled(h, rows, columns, b, values, m):
    if not values:
        return m
    first = first_place(b)
    left = with_first(h, b, values[0], m.get(first), without_spill(h, first, m))
    return filled(h, rows, columns, b, next_place(b, first), values[1:], left)


def unquoted(styles, s):
    style = style_in(styles, s)
    if not style.quote_prefix:
        return s, styles
    plain = with_quote_prefix(False, style)
    return style_number(plain, styles), with_style_in(plain, styles)


def written_style(h, rows, columns, m, styles, q):
    return unquoted(styles, style_at(h, m, rows, columns, q))


def with_blanks(h, rows, columns, b, n, q, m, styles):
    for _ in range(n):
        number, styles = written_style(h, rows, columns, m, styles, q)
        m = {**m, q: h.spill(number, first_place(b), ("Text", ""))}
        q = next_place(b, q)
    return m, styles


def array_written(h, rows, columns, b, more, f, m, styles):
    first = first_place(b)
    number, styles = written_style(h, rows, columns, m, styles, first)
    left = {**all_prepared(h, b, more + 1, first, m), first: h.array(f, number, b.width, b.height, "Cse")}
    return with_blanks(h, rows, columns, b, more, next_place(b, first), left, styles)
