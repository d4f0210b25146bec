"""Numbers of styles in a book's list, and styles as replies show them."""
from typing import NamedTuple

from ic_cells.style import style_at, style_number, with_style_in


class Numbered(NamedTuple):
    number: int
    styles: tuple


def numbered(style, styles):
    return Numbered(style_number(style, styles), with_style_in(style, styles))


def restyled(change, number, styles):
    style = change(style_at(styles, number))
    return Numbered(number, styles) if style == style_at(styles, number) else numbered(style, styles)


def color_text(color):
    return "-" if color is None else color


def style_fields(style):
    return [("Text", style.num_fmt), ("Flag", style.quote_prefix), ("Flag", style.bold), ("Text", color_text(style.fill))]
