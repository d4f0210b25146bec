"""Styles, and where one stands in a list of them."""
from typing import Any, NamedTuple


class Style(NamedTuple):
    num_fmt: str
    quote_prefix: bool
    bold: bool
    fill: Any


DEFAULT_STYLE = Style("General", False, False, None)


def with_format(code, style):
    return style._replace(num_fmt=code)


def with_quote_prefix(quote, style):
    return style._replace(quote_prefix=quote)


def style_number(style, styles):
    return styles.index(style) if style in styles else len(styles)


def with_style_in(style, styles):
    return styles if style in styles else styles + (style,)


def style_at(styles, n):
    return styles[n] if n < len(styles) else DEFAULT_STYLE
