"""Two books that are the same but for how they are written and how they look: the notation in force, the list of styles, and the
numbers of styles."""


def unstyled(content):
    return content[:-1] + (0,)


def unstyled_line(props):
    """What was set for a row or a column: whether a style was set stays."""
    return props._replace(style=None if props.style is None else 0)


def is_same_grid(one, other):
    return all({place: change(held) for place, held in a.items()} == {place: change(held) for place, held in b.items()}
               for change, a, b in ((unstyled, one.contents, other.contents), (unstyled_line, one.rows, other.rows),
                                    (unstyled_line, one.columns, other.columns))) and one.merges == other.merges


def is_same_sheet(one, other):
    return (one.id == other.id and one.name == other.name and one.pool == other.pool and is_same_grid(one.grid, other.grid)
            and one.tab == other.tab)


def is_same_book(one, other):
    return (len(one.sheets) == len(other.sheets) and all(is_same_sheet(a, b) for a, b in zip(one.sheets, other.sheets))
            and one.definitions == other.definitions and one.zone == other.zone and one.theme == other.theme
            and one.name == other.name and one.tables == other.tables)
