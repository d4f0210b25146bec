"""A sheet's name before a reference, and references with one or without."""
from ic_laws.dialect import RefToken
from ic_laws.name import is_sheet_name, needs_quotes, quoted
from ic_laws.scan import is_plain, run_of


def sheet_text(sheet):
    return "" if sheet is None else quoted(sheet) + "!"


def name_in_quotes(text):
    name, i = "", 0
    while i < len(text):
        if text[i] == "'":
            if text[i + 1:i + 2] != "'":
                return name, text[i + 1:]
            i += 1
        name += text[i]
        i += 1
    return None


def written_name(text):
    if text == "":
        return None
    if text[0] == "'":
        return name_in_quotes(text[1:])
    name = run_of(is_plain, text)
    return None if needs_quotes(name) else (name, text[len(name):])


def sheet_at(text):
    """The sheet's name at the front, and what stands after its `!`."""
    found = written_name(text)
    if found is None or not found[1].startswith("!") or not is_sheet_name(found[0]):
        return None
    return found[0], found[1][1:]


def with_sheet(sheet, read):
    return None if read is None else (RefToken(sheet, read[0]), read[1])


def reference_at(read, text):
    found = sheet_at(text)
    named = None if found is None else with_sheet(found[0], read(found[1]))
    return with_sheet(None, read(text)) if named is None else named
