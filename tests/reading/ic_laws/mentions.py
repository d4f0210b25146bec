"""Whether some mention of a bound formula passes a test."""


def some_mention(is_sheet, is_word, t):
    def go(x):
        return some_mention(is_sheet, is_word, x)

    kind = t[0]
    if kind == "Reference":
        return is_sheet(t[1])
    if kind == "Word":
        return is_word(t[1])
    if kind == "Local":
        return is_sheet(t[1]) or is_word(t[2])
    if kind in ("Paren", "Percent", "Spill"):
        return go(t[1])
    if kind == "Prefix":
        return go(t[2])
    if kind == "Binary":
        return go(t[2]) or go(t[3])
    if kind == "Fun":
        return any(go(x) for x in t[2])
    if kind == "Call":
        return is_word(t[1]) or any(go(x) for x in t[2])
    if kind == "Let":
        return any(go(value) for _, value in t[1]) or go(t[2])
    if kind == "Lambda":
        return go(t[2])
    if kind == "Apply":
        return go(t[1]) or any(go(x) for x in t[2])
    return False


def is_of_sheet(id, mention):
    return mention == ("Sheet", id)


def is_of_name(key, mention):
    return mention == ("Name", key)
