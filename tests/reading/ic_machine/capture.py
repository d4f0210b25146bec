"""What an update of a definition captures: a word that meant a definition before it, and doesn't mean the same one after it."""
from ic_laws.core_book import spelling_of
from ic_laws.mentions import is_of_name
from ic_laws.scene import key_of, same_key
from .book import entries
from .content import formula_in, formula_index


def words_in(t):
    """The words of a formula from left to right; a function that is called stands as None."""
    kind = t[0]
    if kind == "Word":
        return [t[1]]
    if kind == "Local":
        return [t[2]]
    if kind in ("Paren", "Percent", "Spill"):
        return words_in(t[1])
    if kind == "Prefix":
        return words_in(t[2])
    if kind == "Binary":
        return words_in(t[2]) + words_in(t[3])
    if kind == "Fun":
        return [None] + [word for x in t[2] for word in words_in(x)]
    if kind == "Call":
        return [t[1]] + [word for x in t[2] for word in words_in(x)]
    if kind == "Let":
        return [word for _, value in t[1] for word in words_in(value)] + words_in(t[2])
    if kind == "Lambda":
        return words_in(t[2])
    if kind == "Apply":
        return words_in(t[1]) + [word for x in t[2] for word in words_in(x)]
    return []


def means(key, mention):
    return mention is not None and is_of_name(key, mention)


def is_captured(keys, before, after):
    return before is not None and before[0] == "Name" and not means(keys(before[1]), after)


def captured(keys, before, after):
    return any(is_captured(keys, a, b) for a, b in zip(words_in(before), words_in(after)))


def captured_formula(keys, before, after):
    return before[0] == "Tree" and after[0] == "Tree" and captured(keys, before[1], after[1])


def captured_at(keys, before, after, place, index):
    if index is None or not captured_formula(keys, formula_in(before.pool, index), formula_in(after.pool, index)):
        return []
    return [("CellSite", before.id, place)]


def captured_cells(keys, before, after):
    return [site for place, content in entries(before.grid.contents)
            for site in captured_at(keys, before, after, place, formula_index(content))]


def captured_body(keys, updated, before, after):
    key = key_of(spelling_of(before))
    if same_key(updated, key) or not captured_formula(keys, before.body, after.body):
        return []
    return [("DefinitionSite", key)]


def captured_sites(keys, updated, before, after):
    return ([site for pair in zip(before.sheets, after.sheets) for site in captured_cells(keys, *pair)]
            + [site for pair in zip(before.definitions, after.definitions) for site in captured_body(keys, updated, *pair)])


def has_sites(sites):
    return sites != []
