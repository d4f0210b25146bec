"""What the words of command lines are, and what they say. What a word says stands in a tuple; None where it isn't of its form."""
from ic_cells.value import UNEVALUATED
from ic_grid.shape import gathered
from ic_input.typed import signed_amount
from ic_laws.command import index_said, position_said, scope_said
from ic_laws.lines import word_texts
from ic_tables.tables import first_agreeing

TEXT, INDEX, POSITION, AMOUNT, BOOL, SCOPE, VALUE, SPILL, FLAG, COLOR, STATE = range(11)


def bool_said(text):
    return {"true": True, "false": False}.get(text)


def flag_said(text):
    return {"1": True, "0": False}.get(text)


def state_said(text):
    return text if text in ("visible", "hidden", "veryHidden") else None


def color_said(text):
    return None if text == "-" else text


def value_said_by(english, kind, text):
    if kind == "n":
        amount = signed_amount(".", text)
        return None if amount is None else ("Number", amount)
    if kind == "b":
        truth = bool_said(text)
        return None if truth is None else ("Boolean", truth)
    if kind == "t":
        return "Text", text
    if kind == "e":
        error = first_agreeing(english, "Error", text)
        return None if error is None else ("Error", error)
    return None


def spill_said(english, text):
    return value_said_by(english, text[0], text[2:]) if text[1:2] == ":" else None


def value_said(english, text):
    if text == "u":
        return UNEVALUATED
    value = spill_said(english, text)
    return None if value is None else gathered(value)


def some(said):
    return None if said is None else (said,)


def said(english, form, text):
    if form == TEXT:
        return (text,)
    if form == INDEX:
        return some(index_said(text))
    if form == POSITION:
        return some(position_said(text))
    if form == AMOUNT:
        return some(signed_amount(".", text))
    if form == BOOL:
        return some(bool_said(text))
    if form == SCOPE:
        return scope_said(text)
    if form == VALUE:
        return some(value_said(english, text))
    if form == SPILL:
        return some(spill_said(english, text))
    if form == FLAG:
        return some(flag_said(text))
    if form == COLOR:
        return (color_said(text),)
    return some(state_said(text))


class Many:
    """One or more words of a form, up to the end."""

    def __init__(self, form):
        self.form = form


def all_said(english, words, texts):
    """What texts say as words of these forms, one after another; the last form may be one of many words."""
    if words and isinstance(words[-1], Many):
        forms, many = words[:-1], words[-1].form
        if len(texts) <= len(forms):
            return None
        forms = forms + [many] * (len(texts) - len(forms))
    else:
        forms, many = words, None
        if len(texts) != len(forms):
            return None
    found = [said(english, form, text) for form, text in zip(forms, texts)]
    if None in found:
        return None
    values = [value[0] for value in found]
    if many is None:
        return values
    return values[:len(words) - 1] + [values[len(words) - 1:]]


def words_said(english, words, spelled):
    texts = word_texts(spelled)
    return None if texts is None else all_said(english, words, texts)
