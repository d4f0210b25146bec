"""The tokens of a formula: the longest of what one reader for each kind of token takes at the front of a text.

A token is a pair of its kind and what it holds. What is read comes with what stands after it, or is None."""
from ic_refs.sheet import sheet_at
from .amount import unsigned_amount
from .dialect import BOOLEAN, ERROR, FUNCTION, boolean_number, reference_text, word_text
from .amount import amount_text
from .name import is_identifier, is_variable, quoted
from .scan import begins_word, between, first_is, is_blank, is_digit, is_word_character, past_run, run_of

# Words with their sheets, as `T!tax`, are read where this is set; lists of lines from before them want it off.
READS_LOCALS = True

LAST_WHOLE = 999999999999999999
TWO_TABLE = {"<>": ("Operator", "<>"), "<=": ("Operator", "<="), ">=": ("Operator", ">=")}
ONE_TABLE = {c: ("Operator", c) for c in "=<>&+-*/^"}
ONE_TABLE.update({"@": ("At", None), "%": ("Percent", None), "#": ("Hash", None), "(": ("Open", None), ")": ("Close", None),
                  "{": ("OpenBrace", None), "}": ("CloseBrace", None)})


def separators(list_separator):
    if list_separator == ";":
        return {";": ("Separator", None)}
    return {list_separator: ("Separator", None), ";": ("Semicolon", None)}


def longer(a, b):
    if a is None or b is None:
        return b if a is None else a
    return a if len(a[1]) <= len(b[1]) else b


def reference_at(d, text):
    found = d.read_ref(text)
    return None if found is None else (("Ref", found[0]), found[1])


def local_at(text):
    found = sheet_at(text) if READS_LOCALS else None
    if found is None or not is_identifier(run_of(is_word_character, found[1])):
        return None
    return ("Local", (found[0], run_of(is_word_character, found[1]))), past_run(is_word_character, found[1])


def boolean_or_word(d, run, n):
    if n is not None:
        return "Boolean", n == boolean_number(True)
    return ("Word", run) if is_variable(run) else None


def word_at(d, text):
    if not first_is(begins_word, text):
        return None
    run = run_of(is_word_character, text)
    token = boolean_or_word(d, run, d.find(BOOLEAN, run))
    return None if token is None else (token, text[len(run):])


def head_token(name, n):
    if n is not None:
        return "FunHead", n
    return ("NameHead", name) if is_variable(name) else None


def head_at(d, text):
    if not first_is(begins_word, text):
        return None
    name = run_of(is_word_character, text)
    rest = past_run(is_blank, text[len(name):])
    token = head_token(name, d.find(FUNCTION, name)) if rest.startswith("(") else None
    return None if token is None else (token, rest[1:])


def digits_to(most, text):
    n = 0
    for i, c in enumerate(text):
        if not (is_digit(c) and n * 10 + int(c) <= most):
            return text[:i]
        n = n * 10 + int(c)
    return text


def some_digits(k, text):
    return run_of(is_digit, text[:k])


def fraction_front(separator, text):
    return text[0] + some_digits(9, text[1:]) if text[:1] == separator else ""


def amount_front(separator, text):
    whole = digits_to(LAST_WHOLE, text)
    return whole + fraction_front(separator, text[len(whole):])


def number_in_one_pass(d, text):
    front = amount_front(d.decimal, text)
    units = unsigned_amount(d.decimal, front)
    return None if units is None else (("Num", units), text[len(front):])


def text_at(text):
    """A text between double quotes, up to one that no other follows."""
    if not text.startswith('"'):
        return None
    inside, i = "", 1
    while i < len(text):
        if text[i] == '"':
            if text[i + 1:i + 2] != '"':
                return ("Str", inside), text[i + 1:]
            i += 1
        inside += text[i]
        i += 1
    return None


def error_at(d, text):
    if not text.startswith("#"):
        return None
    for end in range(len(text), 0, -1):
        n = d.find(ERROR, text[:end])
        if n is not None:
            return ("Err", n), text[end:]
    return None


def two_at(text):
    token = TWO_TABLE.get(text[:2])
    return None if token is None else (token, text[2:])


def one_at(d, text):
    token = ONE_TABLE.get(text[:1]) or separators(d.list).get(text[:1])
    return None if token is None else (token, text[1:])


def token_by_kinds(d, text):
    found = None
    for next_one in (reference_at(d, text), local_at(text), head_at(d, text), word_at(d, text), number_in_one_pass(d, text),
                     text_at(text), error_at(d, text), two_at(text), one_at(d, text)):
        found = longer(found, next_one)
    return found


def tokens_of(d, text):
    tokens = []
    text = past_run(is_blank, text)
    while text != "":
        found = token_by_kinds(d, text)
        if found is None:
            return None
        tokens.append(found[0])
        text = past_run(is_blank, found[1])
    return tokens


def token_text(d, token):
    kind, held = token
    if kind == "Num":
        return amount_text(d.decimal, held)
    if kind == "Str":
        return between('"', held)
    if kind == "Boolean":
        return word_text(d, BOOLEAN, boolean_number(held))
    if kind == "Err":
        return word_text(d, ERROR, held)
    if kind == "Ref":
        return reference_text(d, held)
    if kind == "Word":
        return held
    if kind == "Local":
        return quoted(held[0]) + "!" + held[1]
    if kind == "FunHead":
        return word_text(d, FUNCTION, held) + "("
    if kind == "NameHead":
        return held + "("
    if kind == "Operator":
        return held
    return {"Separator": d.list, "At": "@", "Percent": "%", "Hash": "#", "Open": "(", "Close": ")", "OpenBrace": "{",
            "CloseBrace": "}", "Semicolon": ";"}[kind]
