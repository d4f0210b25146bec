"""Noise, lines of every command with wrong words, deep nesting, and names that fold to long ones.

python3 tests/hostile/noise.py PROGRAM [--lines=N] [--megabytes=N] [--seed=N]: 30 megabytes of noise unless told, of nine
kinds, any bytes and characters in UTF-8 among them; 100,000 lines unless told of each command that docs/COMMANDS.md has, with words of the kinds that it
takes, of other kinds, cut, doubled, dropped and with bytes flipped; 10,000 nested brackets, LETs, LAMBDAs and more wherever a
formula may stand; names whose folding is longer; ids without end. The program has to write one reply for each line, `ok` or an error that
docs/COMMANDS.md names, and end with status 0; twice the noise may take three times as long. The lines of a command run within 1 GB.
The status is 1 where it doesn't. It takes two minutes."""
import os
import random
import re
import sys

from runs import MEGABYTE, ending, run

TESTS = os.path.dirname(os.path.dirname(os.path.abspath(__file__)))
COMMANDS, REFUSALS = (os.path.join(os.path.dirname(TESTS), "docs", name) for name in ("COMMANDS.md", "REFUSALS.md"))
sys.path.insert(0, os.path.join(TESTS, "reading"))

from ic_machine.command import COMMANDS as ALL  # noqa: E402

# the words of each kind, the right ones and the others; those of the kinds that aren't named are drawn from all
WORDS = {
    "NAME": (["A", "Data", "Straße", "tax", "rate", "It's", "ß" * 31, "ΐ" * 31, "STRASSE", "DATA", "Sheet1"], ["a/b", "", "A1", "RC", "ŉ" * 15, "x" * 32, "'", "SUM", "WAHR", "_.\\\\"]),
    "SHEET": (["0", "1", "00"], ["2", "3", "7", "-1", "4294967295", "4294967296", "+1", " 1", "", "٣"]),
    "ID": (["1", "2", "3", "-", "7", "en", "de", "fr", "UTC", "Europe/Berlin"], ["0", "4294967295", "4294967296", "xx", ""]),
    "SCOPE": (["-", "0", "1"], ["9", "--", ""]),
    "BODY": (["Sheet1!$A$1", "Data!A1:B2", "=LAMBDA(x,x*tax)", "LAMBDA(x,x)"], ["=1+tax", "Sheet1!A1048577", "=" + "(" * 200, "", "=", "Data!tax"]),
    "TEXT": (["=SUM(A1:B2)*tax", "=Data!A1+Straße!B2", "1,200.50$", "19%", "1/2/2026", "TRUE", "'12", "#REF!", "=LET(x,1,x+tax)", "=A1:A9", "+A1", "-5", "Sheet1!A1", "=Data!tax*2", "=@A1#"],
             ["=1+", "=" + "-" * 900 + "1", "=" + "(" * 300, "Data!XFD1048576", "a\\tb\\n", "", "=\\\"\\\"", "1e5", "9" * 20, "=SUM(1,MAX(2", "A1", "="]),
    "ROW": (["1", "2", "3", "5", "9", "01"], ["0", "-1", "1048577", "2147483647", "-2147483648", "2147483648"]),
    "COLUMN": (["1", "2", "3", "9"], ["0", "16385", "-5", "2147483647", "x"]),
    "W": (["1", "2", "3"], ["0", "-1", "16384", "2147483647"]),
    "H": (["1", "2", "3"], ["0", "9", "-5", "2147483647"]),
    "BOOL": (["true", "false"], ["True", "1", ""]),
    "AMOUNT": (["1", "-1.5", "999999999999999999.999999999", "-0"], ["1000000000000000000", "0.0000000001", "1e3", ".5", ""]),
    "STYLE": (["General\t0\t0\t-", "#,##0.00\t0\t1\t#FF8800", "\t1\t0\t"], ["0.00\t2\t0\t-", "yyyy-mm-dd\t0\t0"]),
    "VALUE": (["n:4", "b:true", "t:a", "t:", "e:#ref!", "e:#SPILL!"], ["u", "n:", "x:1", ""]),
    "WIDTH": (["0", "5000", "4294967295"], ["4294967296", "-1"]),
    "N": (["0", "1", "16383"], ["16384", "1048575", "1048576", "-1"]),
    "STATE": (["visible", "hidden", "veryHidden"], ["Hidden", ""]),
    "COLOR": (["#FF8800", "-", "", "red"], ["\\x"]),
}
SAME = {"OLD": "NAME", "NEW": "NAME", "TO": "SHEET", "HEIGHT": "WIDTH", "VALUE..": "VALUE"}

# The commands that make cells. They make none far away, which would make each reply of get_sheet_markup large; memory.py asks for
# such replies.
MAKERS = {b"set_user_input", b"update_cell_with_text", b"update_cell_with_formula", b"update_cell_with_bool", b"update_cell_with_number", b"set_user_array_formula", b"put_spill"}

BEFORE = "add_sheet\tData\nadd_sheet\tStraße\nnew_defined_name\ttax\t-\tSheet1!$A$1\nnew_defined_name\trate\t1\t=LAMBDA(x,x*tax)\n" \
         "set_user_input\t0\t1\t1\t=SUM(A2:B9)*tax+Data!B2\nset_user_input\t1\t1\t1\t=A1:A3\nset_user_array_formula\t0\t5\t1\t2\t2\t=A1*2\n"

# one of these stands behind one line in four, so that the book stays small, and something is left to be done in it
AGAIN = ["range_clear_all\t0\t1\t1\t20\t20", "range_clear_all\t1\t1\t1\t20\t20", "set_user_input\t0\t1\t1\t=A1:A3", "set_user_input\t1\t1\t1\t=A1:A3", "set_user_input\t1\t2\t2\t=SUM(A1:B2)",
         "set_user_array_formula\t0\t5\t1\t2\t2\t=A1*2", "set_user_input\t0\t2\t1\t19%", "delete_sheet\t2", "delete_sheet\t2", "add_sheet\tData", "add_sheet\tStraße", "set_locale\ten", "set_language\ten",
         "rename_sheet_by_index\t0\tSheet1", "rename_sheet_by_index\t1\tData", "new_defined_name\ttax\t-\tSheet1!$A$1", "new_defined_name\trate\t0\t=LAMBDA(x,x*tax)",
         *(f"delete_defined_name\t{name}\t{scope}" for name in ("tax", "rate", "A", "Data") for scope in ("-", "0", "1"))]


class Looked:
    def __init__(self):
        with open(COMMANDS, encoding="utf-8") as f:
            text = f.read()
        self.forms = re.findall(r"`([a-z_]+(?:→[A-Z.]+)*)`", "\n".join(line.split("|")[1] for line in text.splitlines() if line.startswith("| `")))
        with open(REFUSALS, encoding="utf-8") as f:
            book = f.read().split("\n## ")[1]
        self.errors = {f"error\t{name}".encode() for name in re.findall(r"^\| `([A-Za-z]+)", book, re.M)}
        self.lines = self.runs = self.wrong = 0
        missing = {row[0] for row in ALL} ^ {form.split("→")[0] for form in self.forms}
        if missing:
            self.fail("docs/COMMANDS.md and tests/reading have other commands", sorted(missing))

    def fail(self, what, said):
        self.wrong += 1
        print(f"WRONG: {what}: {said}", flush=True)

    def look(self, what, given, ran):
        """One reply for each line, each of them ok or a named error."""
        lines = given.count(b"\n") + (given[-1:] not in (b"", b"\n"))
        replies = ran.output.split(b"\n")[:-1]
        self.lines += lines
        self.runs += 1
        if ran.status or len(replies) != lines or ran.output[-1:] not in (b"", b"\n"):
            self.fail(what, f"{ending(ran.status)}, {len(replies)} replies to {lines} lines")
        strange = next((reply for reply in replies if reply[:2] != b"ok" and reply not in self.errors), None)
        if strange is not None:
            self.fail(what, f"the reply {strange[:100]!r}")


def characters(chance, size):
    """Characters of all planes in UTF-8, with tabs and line feeds among them."""
    made, count = [], 0
    while count < size:
        piece = "".join(chr(chance.choice((9, 10, 13, 61, 92, chance.randrange(32, 127), chance.randrange(32, 0xD800), chance.randrange(0xE000, 0x110000))))
                        for _ in range(10_000)).encode()
        made.append(piece)
        count += len(piece)
    return b"".join(made)[:size]


def noise(program, looked, chance, size):
    kinds = {"bytes": lambda n: chance.randbytes(n), "characters": lambda n: characters(chance, n),
             "bytes without line feeds": lambda n: chance.randbytes(n).replace(b"\n", b"\r"),
             "words of commands": lambda n: "\t".join(chance.choice(looked.forms).split("→")[0] for _ in range(n // 20)).encode(),
             "line feeds": lambda n: b"\n" * (n // 10), "carriage returns": lambda n: b"\r" * n, "tabs": lambda n: b"\t" * n,
             "zeros": lambda n: bytes(n), "backslashes": lambda n: b"add_sheet\t" + b"\\" * n}
    for name, make in kinds.items():
        both = []
        for part in (size // 2, size):
            given = make(part)
            ran = run(program, given)
            looked.look(f"{part} bytes of noise, {name}", given, ran)
            both.append(ran)
        print(f"noise, {name}: {size:,} bytes, {both[1].output.count(10):,} lines, {both[0].seconds:.2f} and {both[1].seconds:.2f} seconds", flush=True)
        if both[1].seconds > 3 * both[0].seconds + 0.05:
            looked.fail(name, f"{both[0].seconds} and {both[1].seconds} seconds")


def word_of(kind, chance):
    kind = SAME.get(kind, kind)
    if chance.randrange(40) == 0 or kind not in WORDS:
        kind = chance.choice(list(WORDS))
    right, others = WORDS[kind]
    return chance.choice(others if chance.randrange(10) == 0 else right)


def line_of(form, chance):
    """A line of a command; one in three is changed."""
    name, *kinds = form.split("→")
    words = [name] + [word_of(kind, chance) for kind in kinds]
    change = chance.randrange(18)
    at = chance.randrange(len(words))
    if change == 0:
        words.insert(at, words[at])
    elif change == 1:
        del words[at]
    elif change == 2:
        words.append(word_of("TEXT", chance))
    elif change == 3:
        words[at] = words[at][:chance.randrange(len(words[at]) + 1)]
    line = "\t".join(words).encode()
    if change == 4 and line:
        place = chance.randrange(len(line))
        line = line[:place] + bytes([line[place] ^ (1 << chance.randrange(8))]) + line[place + 1:]
    elif change == 5:
        line += bytes([chance.randrange(256)])
    return line if line.split(b"\t")[0] not in MAKERS else near(line)


def near(line):
    """The line with 99 for each larger number that is one of a row or a column."""
    return b"\t".join(b"99" if word.isdigit() and 99 < int(word) <= 1_048_576 else word for word in line.split(b"\t"))


def commands(program, looked, chance, count):
    """Lines of each command, among a hundred of them one of another; sheets that would grow in number go again."""
    for form in looked.forms:
        lines = [BEFORE.encode()[:-1]]
        for i in range(count):
            lines.append(line_of(form if i % 100 else chance.choice(looked.forms), chance))
            if i % 4 == 3:
                lines.append(chance.choice(AGAIN).encode())
            if form.split("→")[0] in ("new_sheet", "duplicate_sheet"):
                # the definitions of a sheet that is gone would stay
                lines += [b"delete_defined_name\ttax\t2", b"delete_defined_name\trate\t2", b"delete_sheet\t2"]
        given = b"\n".join(lines) + b"\n"
        ran = run(program, given, 1024 * MEGABYTE)
        looked.look(form, given, ran)
        print(f"{form}: {ran.output.count(10):,} lines, {ran.output.count(b'error'):,} refused, {ran.seconds:.1f} seconds, {ran.kilobytes // 1024} MB", flush=True)


def nested(program, looked):
    """Each deep formula wherever one may stand; each is a text that doesn't read, or no body."""
    pieces = [("(", "1", ")"), ("LET(x,1,", "x", ")"), ("LAMBDA(x,", "x", ")"), ("SUM(", "1", ")"), ("IF(TRUE,1,", "1", ")"), ("-", "1", ""), ("", "1", "%"), ("@", "A1", ""),
              ("", "A1", "#"), ("1+", "1", ""), ("1^", "1", ""), ("", "LAMBDA(x,x)", "(1)"), ("{", "1", "}"), ("\"", "", "\""), ("'", "a", "'"), ("(", "1", ""), ("LET(", "1", ""), ("[", "1", "]")]
    places = ["set_user_input\t0\t1\t1\t={}", "update_cell_with_formula\t0\t1\t1\t={}", "set_user_array_formula\t0\t1\t1\t2\t2\t={}", "extend_copied_value\t={}\t0\t1\t1\t0\t2\t2",
              "new_defined_name\ta\t-\t=LAMBDA(x,{})", "update_defined_name\ttax\t-\ttax\t-\t{}", "would_capture\ttax\t-\tb\t-\t={}", "get_cell_value_by_ref\t{}", "add_sheet\t{}"]
    for before, inner, after in pieces:
        for count in (127, 128, 129, 1000, 1023, 1024, 1025, 10_000, 100_000):
            deep = before * count + inner + after * count
            given = (BEFORE + "".join(place.format(deep) + "\nget_cell_formula\t0\t1\t1\nset_language\tde\nget_cell_formula\t0\t1\t1\nset_language\ten\n" for place in places)).encode()
            looked.look(f"{count} of {before}{inner}{after}", given, run(program, given, None, 8 * MEGABYTE))
    print(f"nested: {len(pieces)} kinds, with 8 MB of stack", flush=True)


def folded(program, looked):
    """Names of 31 characters whose folding has more: each agrees with its own folding where that is short enough for a sheet's name."""
    for letter, other in (("ß", "SS"), ("ΐ", "ι\u0308\u0301"), ("ŉ", "ʼN"), ("ﬃ", "FFI"), ("İ", "i\u0307"), ("ẞ", "ss"), ("ᾷ", "α\u0342ι")):
        times = 31 // len(other)
        lines = [f"add_sheet\t{letter * 31}", f"add_sheet\t{letter * 32}", f"add_sheet\t{letter * times}", f"add_sheet\t{other * times}", f"new_defined_name\t{letter * 20_000}\t-\tSheet1!$A$1",
                 f"new_defined_name\t{other * 20_000}\t-\tSheet1!$A$1", f"update_cell_with_formula\t0\t1\t1\t='{other * times}'!A1", "get_cell_formula\t0\t1\t1"]
        given = ("\n".join(lines) + "\n").encode()
        ran = run(program, given)
        looked.look(f"names of {letter}", given, ran)
        wanted = ["ok", "error\tInvalidSheetName", "ok", "error\tSheetExists"]
        if ran.output.decode().split("\n")[:4] != wanted or letter * times not in ran.output.decode().split("\n")[7]:
            looked.fail(f"names of {letter}", ran.output.decode()[:300])
    print("names that fold to longer ones: 7 letters", flush=True)


def ids(program, looked, count):
    """Sheets that come with ever greater ids, and go; then no id is left."""
    step = 4_294_967_295 // count
    given = "".join(f"insert_sheet\tA\t1\t{i * step}\nget_new_sheet_id\ndelete_sheet\t1\n" for i in range(2, count + 1))
    given = (given + "insert_sheet\tA\t1\t4294967295\nget_new_sheet_id\nadd_sheet\tB\nnew_sheet\nduplicate_sheet\t0\ninsert_sheet\tB\t0\t-\ninsert_sheet\tB\t0\t2\n").encode()
    ran = run(program, given)
    looked.look("ids", given, ran)
    wanted = b"ok\nok\t-\n" + b"error\tIdsUsedUp\n" * 4 + b"ok\n"
    if not ran.output.endswith(wanted):
        looked.fail("ids", ran.output[-120:])
    print(f"ids: {count:,} sheets that came and went, {ran.seconds:.1f} seconds", flush=True)


def main(words):
    told = {name: next((int(word.split("=")[1]) for word in words if word.startswith(f"--{name}=")), usual)
            for name, usual in (("lines", 100_000), ("megabytes", 30), ("seed", 1))}
    program = next(word for word in words if not word.startswith("--"))
    chance = random.Random(told["seed"])
    looked = Looked()
    noise(program, looked, chance, told["megabytes"] * 1_000_000)
    nested(program, looked)
    folded(program, looked)
    ids(program, looked, 1_000_000)
    commands(program, looked, chance, told["lines"])
    print(f"{len(looked.forms)} commands, {looked.runs:,} runs, {looked.lines:,} lines, {looked.wrong} wrong")
    return 1 if looked.wrong else 0


if __name__ == "__main__":
    sys.exit(main(sys.argv[1:]))
