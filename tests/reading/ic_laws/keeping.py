"""What becomes of a formula when the sheets or the definitions of its book change. A formula is ("Tree", tree) or
("Raw", text)."""
from .binding import bound, spelled_with
from .scene import name_of_key, name_of_sheet, definition_spelling, same_key, sheet_spelling


def same_keys(key):
    return key


def changed_key(old, new):
    return lambda key: new if same_key(old, key) else key


def kept_sheet(before, after, id):
    name = name_of_sheet(after, id)
    return sheet_spelling(before, id) if name is None else name


def kept_name(before, after, change, key):
    name = name_of_key(after, change(key))
    return definition_spelling(before, key) if name is None else name


def kept(english, before, after, change, scope, t):
    return bound(english, after, scope, spelled_with(lambda id: kept_sheet(before, after, id),
                                                     lambda key: kept_name(before, after, change, key), t))


def kept_formula(english, before, after, change, scope, formula):
    if formula[0] == "Raw":
        return formula
    return "Tree", kept(english, before, after, change, scope, formula[1])


def kept_in_body(n, before, after, change, definition):
    from .notations import english_function
    return definition._replace(body=kept_formula(english_function(n), before, after, change, definition.scope, definition.body))
