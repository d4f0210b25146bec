"""Lists of command lines drawn by a seed, with what one notation reads otherwise than another: numbers with both separators, words
of five languages as values, as names and as variables, formulas that almost read, and the notation switched in between."""
import random

from ic_laws.lines import escaped
from ic_tables.sample import SAMPLE

PLACES = ("en", "es", "fr", "de", "it")
BOOLEANS = [word for language in SAMPLE.languages for word in language.booleans]
ERRORS = [word for language in SAMPLE.languages for word in language.errors]
FUNCTIONS = [word for language in SAMPLE.languages for word in language.functions]
NUMBERS = """0 007 1.5 1,5 1.234,5 1,234.5 1.234 1,234 12%% 1.5%% .5 ,5 1. 1, $1 1$ €1,5 1.5€ 1,234.50$ -5 +5 -1.5 -1,5 +1.5 +1,5 -5%% -$1
2025-12-15 15/12/2025 12/15/2025 1/2/2026 31/02/2026 1899-12-31 0.000000001 0,000000001 999999999999999999.999999999 1E5 1000000000000000000
1.0000000001 -0 +1.234,5 1;2""".replace("%%", "%").split() + ["1 234,5", "1 234", "- 5", " 1"]
TEXTS = ["", "'", "''", "'1,5", "'=1", "=", "+", "-", "=1+", "=(", "+x", "-x", "-A1*2", "+A1", "hola", " TRUE", "true ", "tab\there", "a\nb",
         "cr\r", "back\\slash", "\\n", "#", "#N/A!", "#n/a", "%", "$", "€", "ſI", "wahr", "@A1", "=@A1", "'wahr"]
NAMES = BOOLEANS + ["tax", "x", "y", "Y", "o", "E", "SUMA", "si", "\u017fI", "SUM", "Et", "NB.SI", "ZÄHLENWENN", "LET", "R", "R1", "A1", "XFE1",
                    "_a", "\\b", "stra\u00dfe", "STRASSE", "\u212a", "\u0390", "1x", "Foglio1", "Summe.1"]
SHEETS = ["Sheet1", "T", "My data", "it's", "VERO", "Hoja1", "Tabelle2", "A1", "R1C1", "1,5", "été", "SHEET1", "a!b", "T", "-", "x\ty"]


class Draw:
    """One list: the notation in force is followed, so that most formulas read in it."""

    def __init__(self, seed, i):
        self.draw, self.locale, self.language, self.named = random.Random(f"{seed} {i}"), "en", "en", [("tax", "-")]

    def any(self, *choices):
        return self.draw.choice(choices)

    def one(self, choices):
        return self.draw.choice(choices)

    def mostly(self, often, seldom):
        return often if self.draw.random() < 0.85 else seldom

    def words(self, kind, all_words):
        code = self.mostly(self.language, "en")
        language = next(language for language in SAMPLE.languages if language.code == code)
        return self.mostly(getattr(language, kind), all_words)

    def separators(self):
        return self.mostly((",", ".") if self.locale == "en" else (";", ","), self.any((",", "."), (";", ",")))

    def reference(self):
        sheet = self.any("", "", "Sheet1!", "T!", "'My data'!", "'it''s'!", "VERO!", "'A1'!", "Gone!", "'R1C1'!")
        return sheet + self.any("A1", "$B$2", "A$3", "$c4", "A1:B2", "B:$C", "$1:3", "XFD1048576", "B2:A1")

    def constant(self):
        number = self.any("1", "0", "15", f"1{self.separators()[1]}5", f"{self.separators()[1]}25")
        return self.any(number, number, '"a""b"', '"1,5"', '""', self.one(self.words("booleans", BOOLEANS)), self.one(self.words("errors", ERRORS)))

    def array(self):
        comma, row = self.separators()[0], "/" if self.locale != "en" else ";"
        return "{" + row.join(comma.join(self.any("", "-") + "1" if self.any(True, False) else self.constant() for _ in range(2))
                              for _ in range(self.any(1, 2))) + "}"

    def list(self, depth, count):
        return self.separators()[0].join(self.expression(depth - 1) for _ in range(count))

    def binding(self, depth, is_lambda):
        comma, variable = self.separators()[0], self.one(self.mostly(("x", "y", "o", "tax", "e"), NAMES))
        body = self.any(self.expression(depth - 1), variable, variable + "(1)", f"{variable}+{self.expression(depth - 1)}")
        value = "" if is_lambda else self.expression(depth - 1) + comma
        return f"{'LAMBDA' if is_lambda else 'LET'}({variable}{comma}{value}{body})"

    def expression(self, depth=3):
        kind = self.draw.randrange(14 if depth > 0 else 5)
        if kind < 2:
            return self.constant()
        if kind < 4:
            return self.reference()
        if kind == 4:
            return self.any("", "", "T!", "Sheet1!") + self.one(NAMES)
        if kind == 5:
            return f"({self.expression(depth - 1)})"
        if kind == 6:
            return self.any("-", "+", "@", " -") + self.expression(depth - 1)
        if kind == 7:
            return self.expression(depth - 1) + self.any("%", "#", " ")
        if kind < 10:
            return self.expression(depth - 1) + self.one("= <> < > <= >= & + - * / ^".split()) + self.expression(depth - 1)
        if kind < 12:
            return f"{self.one(self.words('functions', FUNCTIONS + NAMES))}({self.list(depth, self.any(0, 1, 2, 2, 3))})"
        return self.array() if kind == 12 else self.binding(depth, self.any(True, False))

    def formula(self):
        return "=" + self.expression() + self.any("", "", "", "", "", "", ")", "+")

    def place(self):
        return [self.any("0", "0", "1", "2"), str(self.draw.randint(1, 3)), str(self.draw.randint(1, 3))]

    def scope(self):
        return self.any("-", "-", "-", "0", "0", "1", "7")

    def body(self, name):
        lambda_text = self.any("", "=") + self.binding(2, True)
        return self.any(lambda_text, lambda_text, f"=LAMBDA(x{self.separators()[0]}{name}(x))", "Sheet1!$A$1", " T!B2 ", self.reference(), self.any("", "=", " =") + self.expression(2))

    def definition(self):
        kind, name, scope = self.draw.randrange(8), self.one(NAMES), self.scope()
        if kind < 3:
            self.named.append((name, scope))
            return ["new_defined_name", name, scope, self.body(name)]
        name, scope = self.one(self.named)
        if kind == 3:
            return ["delete_defined_name", name, scope]
        self.named.append((self.any(name, self.one(NAMES)), self.any(scope, scope, self.scope())))
        return ["update_defined_name", name, scope, *self.named[-1], self.body(self.named[-1][0])]

    def sheet(self):
        index = self.any("0", "1", "2")
        return self.any(["new_sheet"], ["new_sheet"], ["add_sheet", self.one(SHEETS)], ["duplicate_sheet", index], ["move_sheet", index, "0"],
                        ["delete_sheet", index], ["rename_sheet_by_index", index, self.one(SHEETS)], ["insert_sheet", self.one(SHEETS), index, "-"],
                        ["rename_sheet", self.one(SHEETS), self.one(SHEETS)])

    def value(self):
        return self.any("n:-1.5", "n:007", "b:true", "t:VERO", "t:", "e:#N/A", "e:#ref!", "t:a\tb")

    def other(self):
        at, width, height = self.place(), self.any("1", "2", "1"), self.any("1", "2", "1")
        return self.any(
            ["put_formula_value", *at, self.any(self.value(), "u")], ["put_spill", *at, "1", "2", self.value(), self.value()],
            ["put_spill", *at, "2", "1", self.value(), self.value()], ["range_clear_contents", *at, width, height],
            ["range_clear_all", *at, width, height], ["update_cell_with_text", *at, self.one(TEXTS + NUMBERS + BOOLEANS)],
            ["update_cell_with_bool", *at, "true"], ["update_cell_with_number", *at, self.any("-1.5", "1,5", "007")],
            ["set_row_style", at[0], at[1], self.any("yyyy-mm-dd", "#,##0%", "x,y"), "1", "0", "-"], ["delete_row_style", at[0], at[1]],
            ["set_column_style", at[0], at[2], "General", "0", "1", "red"], ["set_column_width", at[0], at[2], "5000"],
            ["set_timezone", "Europe/Berlin"], ["set_theme", "VERO"], ["get_cell_formula", *at], ["get_defined_name_list"], ["no command"])

    def typed(self):
        return self.one(self.any(NUMBERS, NUMBERS, BOOLEANS, ERRORS, TEXTS, [self.formula()], [self.formula()], FUNCTIONS))

    def line(self):
        kind = self.draw.randrange(20)
        if kind == 0:
            self.locale = self.one(PLACES)
            return ["set_locale", self.locale]
        if kind == 1:
            self.language = self.one(PLACES)
            return ["set_language", self.language]
        if kind < 4:
            return self.sheet()
        if kind < 8:
            return self.definition()
        if kind < 13:
            return ["set_user_input", *self.place(), self.typed()]
        if kind < 16:
            return ["update_cell_with_formula", *self.place(), self.any(self.formula(), self.formula(), self.typed())]
        if kind == 16:
            return ["set_user_array_formula", *self.place(), self.any("1", "2"), self.any("1", "2"), self.formula()]
        return self.other()


def drawn_lines(seed, i, count=120):
    draw = Draw(seed, i)
    return ["\t".join(escaped(str(word)) for word in draw.line()) for _ in range(count)]
