"""The tokens of a tree, and its canonical text."""
from .dialect import RefToken
from .tokens import token_text


def joined(between, parts):
    found = []
    for i, part in enumerate(parts):
        found += ([between] if i else []) + part
    return found


SEPARATOR = ("Separator", None)
CLOSE = [("Close", None)]


def row_sign(d):
    return ("Semicolon", None) if d.list == "," else ("Operator", "/")


def constant_tokens(constant):
    if constant[0] == "Num":
        return ([("Operator", "-")] if constant[1] else []) + [("Num", constant[2])]
    return [constant]


def tokens_in(d, t):
    """The tokens that a tree yields."""
    kind = t[0]
    if kind in ("Num", "Str", "Err", "Word"):
        return [(kind, t[1])]
    if kind == "Bool":
        return [("Boolean", t[1])]
    if kind == "Reference":
        return [("Ref", RefToken(t[1], t[2]))]
    if kind == "Local":
        return [("Local", (t[1], t[2]))]
    if kind == "Empty":
        return []
    if kind == "Paren":
        return [("Open", None)] + tokens_in(d, t[1]) + CLOSE
    if kind == "Prefix":
        return [("At", None) if t[1] == "@" else ("Operator", t[1])] + tokens_in(d, t[2])
    if kind == "Percent":
        return tokens_in(d, t[1]) + [("Percent", None)]
    if kind == "Spill":
        return tokens_in(d, t[1]) + [("Hash", None)]
    if kind == "Binary":
        return tokens_in(d, t[2]) + [("Operator", t[1])] + tokens_in(d, t[3])
    if kind == "Fun":
        return [("FunHead", t[1])] + joined(SEPARATOR, [tokens_in(d, x) for x in t[2]]) + CLOSE
    if kind == "Call":
        return [("NameHead", t[1])] + joined(SEPARATOR, [tokens_in(d, x) for x in t[2]]) + CLOSE
    if kind == "Let":
        parts = [part for variable, value in t[1] for part in ([("Word", variable)], tokens_in(d, value))]
        return [("FunHead", d.let_fn)] + joined(SEPARATOR, parts + [tokens_in(d, t[2])]) + CLOSE
    if kind == "Lambda":
        return [("FunHead", d.lambda_fn)] + joined(SEPARATOR, [[("Word", p)] for p in t[1]] + [tokens_in(d, t[2])]) + CLOSE
    if kind == "Apply":
        return tokens_in(d, t[1]) + [("Open", None)] + joined(SEPARATOR, [tokens_in(d, x) for x in t[2]]) + CLOSE
    rows = [joined(SEPARATOR, [constant_tokens(c) for c in row]) for row in t[1]]
    return [("OpenBrace", None)] + joined(row_sign(d), rows) + [("CloseBrace", None)]


def printed(d, t):
    return "".join(token_text(d, token) for token in tokens_in(d, t))
