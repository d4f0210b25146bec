"""When a formula can't be written in a language: one of its names is a word of that language."""
from .tree import nodes


def mentioned_name(mention):
    return mention[1].name if mention[0] == "Name" else mention[1]


def clashes_there(is_boolean, is_function, x):
    """Of one node: its word, what it binds, or what it calls is a word of the language."""
    kind = x[0]
    if kind == "Word":
        return is_boolean(mentioned_name(x[1]))
    if kind == "Call":
        return is_function(mentioned_name(x[1]))
    if kind == "Let":
        return any(is_boolean(variable) for variable, _ in x[1])
    return kind == "Lambda" and any(is_boolean(parameter) for parameter in x[1])


def clashes_with(is_boolean, is_function, t):
    return any(clashes_there(is_boolean, is_function, x) for x in nodes(t))
