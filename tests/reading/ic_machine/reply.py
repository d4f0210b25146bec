"""Replies and their fields. A field is ("Text", text), ("Number", number or None), ("Position", number), ("Amount", units),
("Bool", truth) or ("Flag", flag)."""
from ic_laws.amount import amount_text
from ic_laws.lines import escaped
from .refusal import refusal_name


def field_text(field):
    kind, held = field
    if kind == "Text":
        return held
    if kind == "Number":
        return "-" if held is None else str(held)
    if kind == "Position":
        return str(held)
    if kind == "Amount":
        return amount_text(".", held)
    if kind == "Bool":
        return "true" if held else "false"
    return "1" if held else "0"


def text_field(text):
    return [("Text", text)]


def number_field(n):
    return [("Number", n)]


def position_field(z):
    return [("Position", z)]


def bool_field(truth):
    return [("Bool", truth)]


def reply_text(reply):
    if reply[0] == "Ok":
        return "ok" + "".join("\t" + escaped(field_text(field)) for field in reply[1])
    return "error\t" + refusal_name(reply[1])


def reply_bytes(reply):
    return reply_text(reply).encode("utf-8") + b"\n"
