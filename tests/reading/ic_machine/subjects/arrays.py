"""The commands on arrays, spills and clearing."""
from ic_grid.arrays import has_cut, has_fixed
from ic_grid.block import Block, first_place, is_area
from ic_grid.clear import cleared
from ic_grid.merges import meets_merge
from ic_grid.shape import is_anchor, is_formula
from ic_grid.spill import array_written, first_blocking, misfits, spilled
from ic_grid.value import shape_at, valued
from ic_laws.formula_reading import is_formula_text, without_equals
from ..book import at_sheet, on_grid, unless_refused, with_sheet
from ..content import HELD
from ..placed import index_in_pool, pool_with
from ..word import INDEX, POSITION, SPILL, TEXT, VALUE, Many
from .writing import formula_at_place

BLOCK = [INDEX, POSITION, POSITION, POSITION, POSITION]


def on_block(kind):
    return lambda sheet, row, column, width, height, *given: (kind, sheet, Block(row, column, width, height)) + given


ROWS = [
    ("set_user_array_formula", BLOCK + [TEXT], on_block("SetUserArrayFormula")),
    ("range_clear_contents", BLOCK, on_block("RangeClearContents")),
    ("range_clear_all", BLOCK, on_block("RangeClearAll")),
    ("put_formula_value", [INDEX, POSITION, POSITION, VALUE],
     lambda sheet, row, column, value: ("PutFormulaValue", sheet, (row, column), value)),
    ("put_spill", BLOCK + [Many(SPILL)], on_block("PutSpill")),
]


def place_count(b):
    return abs(b.width) * abs(b.height)


def array_causes(sheet, b, text):
    return [(not is_area(b), ("BadArea",)), (lambda: meets_merge(sheet.grid.merges, b), ("MergedPart",)),
            (lambda: has_fixed(HELD, sheet.grid.contents, b), ("ArrayPart",)), (not is_formula_text(text), ("NotAFormula",))]


def with_contents(book, index, sheet, pool, left):
    return with_sheet(book, index, sheet._replace(pool=pool, grid=sheet.grid._replace(contents=left[0])))._replace(styles=left[1])


def with_array(book, index, sheet, b, formula):
    grid = sheet.grid
    return with_contents(book, index, sheet, pool_with(formula, sheet.pool), array_written(
        HELD, grid.rows, grid.columns, b, place_count(b) - 1, index_in_pool(formula, sheet.pool), grid.contents, book.styles))


def array_step(index, b, text, book):
    return at_sheet(book, index, lambda sheet: unless_refused(
        array_causes(sheet, b, text),
        lambda: with_array(book, index, sheet, b, formula_at_place(book, sheet, first_place(b), without_equals(text))), []))


def with_grid_contents(grid, contents):
    return grid._replace(contents=contents)


def clear_step(all, b):
    return lambda grid: unless_refused(
        [(not is_area(b), ("BadArea",)), (lambda: has_cut(HELD, grid.contents, b), ("ClearArray",))],
        lambda: with_grid_contents(grid, cleared(HELD, b, all, grid.contents)), [])


def put_value_step(p, value):
    return lambda grid: unless_refused([(not is_formula(shape_at(HELD, grid.contents, p)), ("NoFormulaCell",))],
                                       lambda: with_grid_contents(grid, valued(HELD, p, value, grid.contents)), [])


def blocked_causes(p):
    return [] if p is None else [(True, ("SpillBlocked",) + p)]


def spill_causes(grid, b, count):
    shape = shape_at(HELD, grid.contents, first_place(b))
    return ([(not is_anchor(shape), ("NoFormulaCell",)), (misfits(b, count, shape), ("BadArea",))]
            + blocked_causes(first_blocking(HELD, grid.merges, grid.contents, b, count)))


def put_spill_step(b, values):
    return lambda grid: unless_refused(
        spill_causes(grid, b, len(values)),
        lambda: with_grid_contents(grid, spilled(HELD, grid.rows, grid.columns, b, values, grid.contents)), [])


def step(book, command):
    kind, sheet, words = command[0], command[1], command[2:]
    if kind == "SetUserArrayFormula":
        return array_step(sheet, *words, book)
    if kind == "RangeClearContents":
        return on_grid(book, sheet, clear_step(False, *words))
    if kind == "RangeClearAll":
        return on_grid(book, sheet, clear_step(True, *words))
    return on_grid(book, sheet, (put_value_step if kind == "PutFormulaValue" else put_spill_step)(*words))
