"""How a list of tokens is read as a tree. A tree is a tuple with its kind first; a reader answers a tree, its height and the
index of the token after it, or None.

Kinds: Num units, Str text, Bool truth, Err number, Reference sheet place, Word word, Empty, Paren x, Prefix sign x, Percent x,
Spill x, Binary sign a b, Fun number arguments, Call word arguments, Let pairs body, Lambda parameters body, Apply x arguments,
Array rows, and Local sheet word."""
from .name import agrees, is_identifier, is_sheet_name, is_variable
from .position import is_place_within

SIGN_LEVEL = {"=": 1, "<>": 1, "<": 1, ">": 1, "<=": 1, ">=": 1, "&": 2, "+": 3, "-": 3, "*": 4, "/": 4, "^": 5}
CALLABLE = ("Paren", "Fun", "Call", "Let", "Lambda", "Apply")
END = ("End", None)


def is_called_name(name):
    return is_variable(name) and not agrees(name, "LET") and not agrees(name, "LAMBDA")


def is_written_sheet(sheet):
    return sheet is None or is_sheet_name(sheet)


class Reading:
    def __init__(self, d, tokens):
        self.d = d
        self.tokens = tokens

    def at(self, i):
        return self.tokens[i] if i < len(self.tokens) else END

    def made(self, most, height, tree, i):
        return (tree, height, i) if height <= most else None

    def past(self, kind, i):
        return i + 1 if self.at(i)[0] == kind else None

    def past_row_sign(self, i):
        if self.d.list == ",":
            return self.past("Semicolon", i)
        return i + 1 if self.at(i) == ("Operator", "/") else None

    def argument(self, most, b, i):
        if self.at(i)[0] in ("Separator", "Close"):
            return ("Empty",), 1, i
        return self.reader(most, b, 1, i)

    def arguments(self, most, b, i):
        """The arguments up to the closing bracket, their greatest height, and what stands after them."""
        if self.at(i)[0] == "Close":
            return (), 0, i + 1
        found, height = [], 0
        while True:
            read = self.argument(most, b, i)
            if read is None:
                return None
            found.append(read[0])
            height = max(height, read[1])
            i = read[2]
            if self.at(i)[0] == "Separator":
                i += 1
                continue
            return (tuple(found), height, i + 1) if self.at(i)[0] == "Close" else None

    def binder(self, i):
        token = self.at(i)
        if token[0] == "Word" and self.at(i + 1)[0] == "Separator" and is_variable(token[1]):
            return token[1], i + 2
        return None

    def body(self, most, b, i):
        """A tree with a closing bracket after it."""
        read = self.reader(most, b, 1, i)
        if read is None or self.at(read[2])[0] != "Close":
            return None
        return read[0], read[1], read[2] + 1

    def let_call(self, most, b, i):
        pairs, height = [], 0
        while True:
            begun = self.binder(i)
            if begun is None:
                break
            value = self.reader(most - 1, b, 1, begun[1])
            if value is None or self.at(value[2])[0] != "Separator":
                return None
            pairs.append((begun[0], value[0]))
            height = max(height, value[1])
            i = value[2] + 1
        body = self.body(most - 1, b, i)
        if body is None or not pairs:
            return None
        return self.made(most, max(height, body[1]) + 1, ("Let", tuple(pairs), body[0]), body[2])

    def lambda_call(self, most, b, i):
        parameters = []
        while True:
            begun = self.binder(i)
            if begun is None:
                break
            parameters.append(begun[0])
            i = begun[1]
        body = self.body(most - 1, b, i)
        return None if body is None else self.made(most, body[1] + 1, ("Lambda", tuple(parameters), body[0]), body[2])

    def function_call(self, most, b, number, i):
        if number == self.d.let_fn:
            return self.let_call(most, b, i)
        if number == self.d.lambda_fn:
            return self.lambda_call(most, b, i)
        read = self.arguments(most - 1, b, i)
        return None if read is None else self.made(most, read[1] + 1, ("Fun", number, read[0]), read[2])

    def name_call(self, most, b, name, i):
        read = self.arguments(most - 1, b, i) if is_called_name(name) else None
        return None if read is None else self.made(most, read[1] + 1, ("Call", name, read[0]), read[2])

    def bracketed(self, most, b, i):
        read = self.body(most - 1, b, i)
        return None if read is None else self.made(most, read[1] + 1, ("Paren", read[0]), read[2])

    def amount_of(self, minus, i):
        token = self.at(i)
        return (("Num", minus, token[1]), i + 1) if token[0] == "Num" else None

    def constant(self, i):
        kind, held = self.at(i)
        if (kind, held) == ("Operator", "-"):
            return self.amount_of(True, i + 1)
        if kind in ("Str", "Boolean", "Err"):
            return (kind, held), i + 1
        return self.amount_of(False, i)

    def listed(self, item, past, i):
        found = []
        while True:
            read = item(i)
            if read is None:
                return None
            found.append(read[0])
            after = past(read[1])
            if after is None:
                return tuple(found), read[1]
            i = after

    def row(self, i):
        return self.listed(self.constant, lambda j: self.past("Separator", j), i)

    def array(self, most, i):
        read = self.listed(self.row, self.past_row_sign, i)
        if read is None or self.at(read[1])[0] != "CloseBrace":
            return None
        return self.made(most, 1, ("Array", read[0]), read[1] + 1)

    def primary(self, most, b, i):
        (kind, held), i = self.at(i), i + 1
        if kind == "Num":
            return self.made(most, 1, ("Num", held), i)
        if kind == "Str":
            return self.made(most, 1, ("Str", held), i)
        if kind == "Boolean":
            return self.made(most, 1, ("Bool", held), i)
        if kind == "Err":
            return self.made(most, 1, ("Err", held), i)
        if kind == "Ref":
            good = is_written_sheet(held.sheet) and is_place_within(held.place)
            return self.made(most, 1, ("Reference", held.sheet, held.place), i) if good else None
        if kind == "Local":
            good = is_sheet_name(held[0]) and is_identifier(held[1])
            return self.made(most, 1, ("Local", held[0], held[1]), i) if good else None
        if kind == "Word":
            return self.made(most, 1, ("Word", held), i) if is_variable(held) else None
        if kind not in ("FunHead", "NameHead", "Open", "OpenBrace") or b == 0:
            return None
        if kind == "FunHead":
            return self.function_call(most, b - 1, held, i)
        if kind == "NameHead":
            return self.name_call(most, b - 1, held, i)
        if kind == "Open":
            return self.bracketed(most, b - 1, i)
        return self.array(most, i)

    def postfixes(self, most, b, read):
        while read is not None:
            left, height, i = read
            kind = self.at(i)[0]
            if kind == "Percent":
                read = self.made(most, height + 1, ("Percent", left), i + 1)
            elif kind == "Hash":
                read = self.made(most, height + 1, ("Spill", left), i + 1)
            elif kind == "Open" and left[0] in CALLABLE:
                inside = self.arguments(most - 1, b - 1, i + 1) if b > 0 else None
                read = None if inside is None else self.made(most, max(height, inside[1]) + 1, ("Apply", left, inside[0]), inside[2])
            else:
                return read
        return None

    def operand(self, most, b, i):
        kind, held = self.at(i)
        if kind == "At" or kind == "Operator" and held in "+-":
            x = self.reader(most - 1, b, 6, i + 1)
            sign = "@" if kind == "At" else held
            return None if x is None else self.made(most, x[1] + 1, ("Prefix", sign, x[0]), x[2])
        return self.postfixes(most, b, self.primary(most, b, i))

    def binaries(self, most, b, least, read):
        while read is not None:
            left, height, i = read
            kind, sign = self.at(i)
            if kind != "Operator" or SIGN_LEVEL[sign] < least:
                return read
            right = self.reader(most - 1, b, SIGN_LEVEL[sign] + 1, i + 1)
            read = None if right is None else self.made(most, max(height, right[1]) + 1, ("Binary", sign, left, right[0]), right[2])
        return None

    def reader(self, most, b, least, i):
        return None if most == 0 else self.binaries(most, b, least, self.operand(most, b, i))


def parsed(d, tokens):
    read = Reading(d, tokens).reader(1024, 128, 1, 0)
    return read[0] if read is not None and read[2] == len(tokens) else None


def read_as(d, text):
    from .tokens import tokens_of
    tokens = tokens_of(d, text)
    return None if tokens is None else parsed(d, tokens)
