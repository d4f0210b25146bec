"""How the mentions of a formula are bound, and how a bound formula is spelled again.

A mention of a sheet is ("Own",), ("Sheet", id) or ("Dangling", name); a mention of a word is ("Var", word), ("Name", key) or
("Dangling", word)."""
from .name import agrees, fold
from .scene import definition_at, found_name, found_sheet, key_of, definition_spelling, sheet_spelling


def is_bound_by(binders, word):
    return any(agrees(variable, word) for variable in binders)


def sheet_or_dangling(name, id):
    return ("Dangling", name) if id is None else ("Sheet", id)


def name_or_dangling(word, key):
    return ("Dangling", word) if key is None else ("Name", key)


def bound_sheet(scene, name):
    return ("Own",) if name is None else sheet_or_dangling(name, found_sheet(scene, name))


def bound_word(scene, scope, binders, word):
    return ("Var", word) if is_bound_by(binders, word) else name_or_dangling(word, found_name(scene, scope, word))


def bound_local(scene, sheet, word):
    mention = bound_sheet(scene, sheet)
    definition = definition_at(scene, fold(word), mention[1]) if mention[0] == "Sheet" else None
    return "Local", mention, name_or_dangling(word, None if definition is None else key_of(definition))


def bound_under(english, scene, scope, t, binders):
    def go(x):
        return bound_under(english, scene, scope, x, binders)

    kind = t[0]
    if kind == "Reference":
        return kind, bound_sheet(scene, t[1]), t[2]
    if kind == "Word":
        return kind, bound_word(scene, scope, binders, t[1])
    if kind == "Local":
        return bound_local(scene, t[1], t[2])
    if kind in ("Paren", "Percent", "Spill"):
        return kind, go(t[1])
    if kind == "Prefix":
        return kind, t[1], go(t[2])
    if kind == "Binary":
        return kind, t[1], go(t[2]), go(t[3])
    if kind == "Fun":
        return kind, t[1], tuple(go(x) for x in t[2])
    if kind == "Call":
        number, arguments = english(t[1]), tuple(go(x) for x in t[2])
        if number is not None:
            return "Fun", number, arguments
        return kind, bound_word(scene, scope, binders, t[1]), arguments
    if kind == "Let":
        pairs, seen = [], binders
        for variable, value in t[1]:
            pairs.append((variable, bound_under(english, scene, scope, value, seen)))
            seen = seen + (variable,)
        return kind, tuple(pairs), bound_under(english, scene, scope, t[2], seen)
    if kind == "Lambda":
        return kind, t[1], bound_under(english, scene, scope, t[2], binders + t[1])
    if kind == "Apply":
        return kind, go(t[1]), tuple(go(x) for x in t[2])
    return t


def bound(english, scene, scope, t):
    return bound_under(english, scene, scope, t, ())


def spelled_sheet(sheet_text, mention):
    if mention[0] == "Own":
        return None
    return sheet_text(mention[1]) if mention[0] == "Sheet" else mention[1]


def spelled_word(key_text, mention):
    return key_text(mention[1]) if mention[0] == "Name" else mention[1]


def spelled_with(sheet_text, key_text, t):
    def go(x):
        return spelled_with(sheet_text, key_text, x)

    kind = t[0]
    if kind == "Reference":
        return kind, spelled_sheet(sheet_text, t[1]), t[2]
    if kind == "Word":
        return kind, spelled_word(key_text, t[1])
    if kind == "Local":
        return kind, spelled_sheet(sheet_text, t[1]), spelled_word(key_text, t[2])
    if kind in ("Paren", "Percent", "Spill"):
        return kind, go(t[1])
    if kind == "Prefix":
        return kind, t[1], go(t[2])
    if kind == "Binary":
        return kind, t[1], go(t[2]), go(t[3])
    if kind == "Fun":
        return kind, t[1], tuple(go(x) for x in t[2])
    if kind == "Call":
        return kind, spelled_word(key_text, t[1]), tuple(go(x) for x in t[2])
    if kind == "Let":
        return kind, tuple((variable, go(value)) for variable, value in t[1]), go(t[2])
    if kind == "Lambda":
        return kind, t[1], go(t[2])
    if kind == "Apply":
        return kind, go(t[1]), tuple(go(x) for x in t[2])
    return t


def spelled(scene, t):
    return spelled_with(lambda id: sheet_spelling(scene, id), lambda key: definition_spelling(scene, key), t)
