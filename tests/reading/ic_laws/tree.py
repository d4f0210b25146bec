"""The parts of a tree."""


def below(t):
    """The trees directly below a node."""
    kind = t[0]
    if kind in ("Paren", "Percent", "Spill"):
        return [t[1]]
    if kind == "Prefix":
        return [t[2]]
    if kind == "Binary":
        return [t[2], t[3]]
    if kind in ("Fun", "Call"):
        return list(t[2])
    if kind == "Let":
        return [value for _, value in t[1]] + [t[2]]
    if kind == "Lambda":
        return [t[2]]
    return [t[1]] + list(t[2]) if kind == "Apply" else []


def nodes(t):
    yield t
    for x in below(t):
        yield from nodes(x)
