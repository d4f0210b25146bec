"""When a formula is dynamic: when what it gives may spill over several cells."""


def is_kind_dynamic(kind, arguments):
    return kind == "D" or kind == "E" and arguments


def dynamic_with(kinds, t):
    def go(x):
        return dynamic_with(kinds, x)

    kind = t[0]
    if kind == "Reference":
        return t[2][0] == "Range"
    if kind in ("Paren", "Percent"):
        return go(t[1])
    if kind == "Prefix":
        return t[1] != "@" and go(t[2])
    if kind in ("Spill", "Array"):
        return True
    if kind == "Binary":
        return go(t[2]) or go(t[3])
    if kind == "Fun":
        return is_kind_dynamic(kinds[t[1]] if t[1] < len(kinds) else None, any(go(x) for x in t[2]))
    if kind == "Call":
        return any(go(x) for x in t[2])
    if kind == "Let":
        return any(go(value) for _, value in t[1]) or go(t[2])
    if kind == "Apply":
        return go(t[1]) or any(go(x) for x in t[2])
    return False
