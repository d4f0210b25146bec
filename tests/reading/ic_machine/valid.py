"""What always holds of a book: the numbers of the conditions that fail for one."""
from ic_cells.style import DEFAULT_STYLE
from ic_grid.arrays import array_of
from ic_grid.block import block_at, blocks_meet, is_area, is_in_block, is_in_sheet, is_single
from ic_grid.merges import meets_merge
from ic_laws.binding import bound, spelled
from ic_laws.core_book import LAST_ID, spelling_of
from ic_laws.dialect import FUNCTION
from ic_laws.name import fold, is_identifier, is_sheet_name
from ic_laws.notations import english_function
from ic_laws.position import LAST_COLUMN, LAST_ROW, is_column, is_inside, is_place_within, is_row
from ic_laws.scene import key_of
from ic_laws.tree import nodes
from ic_tables.tables import lists_zone
from .book import notations_in, scene_in
from .content import HELD, formula_in, formula_index, style_of


def is_settled(n, scene, scope, t):
    return bound(english_function(n), scene, scope, spelled(scene, t)) == t


def is_kept_where(n, inside, scene, scope, t):
    """Written out and bound again it is the same, its functions are there, and its places are within limits and inside."""
    return (is_settled(n, scene, scope, t)
            and all(n.stored.word(FUNCTION, x[1]) is not None for x in nodes(t) if x[0] == "Fun")
            and all(is_place_within(x[2]) and inside(x[2]) for x in nodes(t) if x[0] == "Reference"))


def is_pooled(n, scene, scope, formula):
    return formula[0] == "Raw" or is_kept_where(n, lambda place: True, scene, scope, formula[1])


def is_kept_formula(n, scene, scope, row, column, formula):
    return formula[0] == "Raw" or is_kept_where(n, lambda place: is_inside(place, row, column), scene, scope, formula[1])


def are_arrays(m):
    for a, x in m.items():
        array = array_of(HELD, m, a)
        if array is not None:
            b = array.block
            places = [(r, c) for r in range(b.row, b.row + b.height) for c in range(b.column, b.column + b.width)]
            if not is_area(b) or not all(p == a or p in m and HELD.shape(m[p]) == ("SpillOf", a) for p in places):
                return False
        shape = HELD.shape(x)
        if shape[0] == "SpillOf":
            array = array_of(HELD, m, shape[1])
            if array is None or not is_in_block(array.block, a):
                return False
    return True


def are_merges(m, merges):
    arrays = [array_of(HELD, m, a) for a in m]
    return (all(is_area(merge) for merge in merges)
            and not any(blocks_meet(a, b) for i, a in enumerate(merges) for b in merges[:i])
            and not any(array is not None and not is_single(array.block) and meets_merge(merges, array.block) for array in arrays))


def is_different(items):
    return len(set(items)) == len(items)


def failing(book):
    n, scene, sheets, definitions = notations_in(book), scene_in(book), book.sheets, book.definitions
    count = len(book.styles)
    holds = {
        1: 0 < len(sheets) <= LAST_ID,
        2: all(is_sheet_name(s.name) for s in sheets) and is_different([fold(s.name) for s in sheets]),
        3: all(1 <= s.id <= LAST_ID for s in sheets) and is_different([s.id for s in sheets]),
        4: (all(is_identifier(d.name) and (d.scope is None or 1 <= d.scope <= LAST_ID) for d in definitions)
            and is_different([key_of(spelling_of(d)) for d in definitions])),
        5: (all(is_pooled(n, scene, s.id, f) for s in sheets for f in s.pool)
            and all(is_kept_formula(n, scene, d.scope, 1, 1, d.body) for d in definitions)),
        6: all(is_in_sheet(p) for s in sheets for p in s.grid.contents),
        7: all(formula_index(x) is None or formula_index(x) < len(s.pool)
               and is_kept_formula(n, scene, s.id, p[0], p[1], formula_in(s.pool, formula_index(x)))
               for s in sheets for p, x in s.grid.contents.items()),
        9: (book.styles[0] == DEFAULT_STYLE and is_different(book.styles)
            and all(style_of(x) < count for s in sheets for x in s.grid.contents.values())
            and all(props.style is None or props.style < count for s in sheets for lines in (s.grid.rows, s.grid.columns)
                    for props in lines.values())),
        10: all(are_arrays(s.grid.contents) for s in sheets),
        11: all(are_merges(s.grid.contents, s.grid.merges) for s in sheets),
        12: all(0 <= s.tab.frozen_rows < LAST_ROW and 0 <= s.tab.frozen_columns < LAST_COLUMN
                and all(is_row(row) for row in s.grid.rows) and all(is_column(column) for column in s.grid.columns) for s in sheets),
        13: n.knows_locale(book.locale) and n.knows_language(book.language) and lists_zone(book.tables, book.zone),
    }
    return [number for number, holding in holds.items() if not holding]
