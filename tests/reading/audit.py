"""Tells who mentions a sheet or a definition of the book that lines leave, and compares it with what a program writes.

python3 tests/reading/audit.py PROGRAM FOLDER.. [--drawn=N] [--seed=N]: the lists NAME.lines in the folders and N drawn ones, and a
beginning of each, are the program's input, with many words. Some differences are shown; the status is 1 where there is one."""
import glob
import os
import random
import re
import subprocess
import sys
import threading
from concurrent.futures import ThreadPoolExecutor

sys.path.insert(0, os.path.dirname(os.path.abspath(__file__)))

from drawn import Draw  # noqa: E402
from ic_laws.lines import escaped, line_text, lines_of  # noqa: E402
from ic_laws.name import agrees, fold  # noqa: E402
from ic_machine.book import new_book  # noqa: E402
from ic_machine.command import COMMANDS  # noqa: E402
from ic_machine.step import machine  # noqa: E402
from ic_tables.sample import SAMPLE  # noqa: E402
from run import read  # noqa: E402

WRONG = [["sheet"], ["Sheet", "T"], ["sheet", "T", "-"], ["name", "x"], ["name", "x", "-", ""], [""], ["run", "en", "en", "UTC"]]
WRONG += [["name", "x", scope] for scope in ("", "+1", " 1", "-1", "--", "1.0", "1_0", "\u0661", "4294967296")]
NAMES = ["tax", "TAX", "x", "\\b", "stra\u00dfe", "\u0391\u03a3", "f"]


def mentions(part, mention):
    return part == mention or isinstance(part, tuple) and any(mentions(below, mention) for below in part)


def sites(book, mention):
    for sheet in book.sheets:
        for (row, column), content in sorted(sheet.grid.contents.items()):
            if content[0] in ("Formula", "Anchor") and mentions(sheet.pool[content[1]], mention):
                yield f"cell\t{sheet.id}\t{row}\t{column}\n"
    for d in book.definitions:
        if mentions(d.body, mention):
            yield f"name\t{escaped(fold(d.name))}\t{'-' if d.scope is None else d.scope}\n"


def mention_of(book, name, scope=None):
    """How the sheet or the definition is mentioned, where there is one."""
    if scope is None:
        return next((("Sheet", sheet.id) for sheet in book.sheets if agrees(sheet.name, name)), None)
    key = (fold(name), None if scope == "-" else next((sheet.id for sheet in book.sheets[int(scope):]), 0))
    return ("Name", key) if key in [(fold(d.name), d.scope) for d in book.definitions] else None


def is_scope(word):
    return word == "-" or re.fullmatch("[0-9]+", word) is not None and int(word) < 2 ** 32


def answer(book, words):
    """The status and what is written."""
    kind, *rest = words or ["sheet", "Sheet1"]
    if (kind, len(rest)) not in (("sheet", 1), ("name", 2)) or kind == "name" and not is_scope(rest[1]):
        return 1, b""
    mention = mention_of(book, *rest)
    return (8, b"") if mention is None else (0, "".join(sites(book, mention)).encode())


def questions(draw, data):
    """Words to ask of what lines leave, each with its answer."""
    book = new_book(SAMPLE, "en", "en", "UTC", "workbook", "Sheet1")
    for line in lines_of(data):
        book, _ = machine(COMMANDS, book, line_text(line))
    sheets, names = [s.name for s in book.sheets], [d.name for d in book.definitions]
    case = draw.choice((str.upper, str.lower, fold))
    scopes = ["-", *map(str, range(len(sheets) + 1)), f"{draw.randrange(3):09}", "4294967295"]
    asked = [["sheet", name] for name in {*sheets, *map(case, sheets), "Gone", "", "Sheet1 ", draw.choice([*names, "1"])}]
    asked += [["name", name, scope] for name in {*names, *map(case, names), draw.choice(NAMES)} for scope in scopes]
    return [(words, answer(book, words)) for words in [[], *sorted(asked), *draw.sample(WRONG, 2)]]


class AuditDraw(Draw):
    """More names and sheets that come and go, and more formulas that mention them."""

    def line(self):
        kind, name, other = self.draw.randrange(4), self.one(NAMES), self.one(NAMES)
        if kind == 0:
            return self.any(self.sheet, self.definition, self.definition, self.other)()
        if kind == 1:
            body = self.any("Sheet1!$A$1", "T!B2", f"=LAMBDA({other},{name}+{other}(1)+T!{name})", f"=LAMBDA({name}(My)+Sheet1!{other})")
            return ["new_defined_name", name, self.any("-", "0", "1"), body]
        text = self.any("=T!A1", f"={name}!A1", f"=Sheet1!{name}", f"=T!{name}", f"={name}", f"=SUM({name},'T'!{name}#)", f"=({name})(-T!B1)", "={1,2}+T!1:2",
                        f"=LET({name},{name},{name}(2)+{other})", f"=LAMBDA({name},{name})({name})", f"=LET(tax,T!tax,x,tax,x(Sheet1!A1)+{name}%)")
        at = self.place()
        return self.any(["set_user_array_formula", *at, "1", "2", text], ["set_user_input", *at, text], ["update_cell_with_formula", *at, text])


def main(words):
    options = dict(word[2:].split("=") for word in words if word.startswith("--"))
    program, *folders = [word for word in words if not word.startswith("--")]
    seed, count, told, bad = options.get("seed", "1"), 0, 0, []
    draw, lists = random.Random(seed), [(path, read(path)) for folder in folders for path in sorted(glob.glob(os.path.join(folder, "*.lines")))]
    for i in range(int(options.get("drawn", 0))):
        drawn = AuditDraw(seed, i)
        lists.append((f"drawn {seed} {i}", "".join("\t".join(map(escaped, drawn.line())) + "\n" for _ in range(60)).encode()))
    for name, data in ((name, piece) for name, data in lists for piece in (data, data[:draw.randint(0, len(data))])):
        with ThreadPoolExecutor(4) as pool:
            rows = questions(draw, data)
            runs = pool.map(lambda row: subprocess.run([program, *row[0]], input=data, capture_output=True), rows)
            bad += [(name, len(data), *row, run) for row, run in zip(rows, runs) if (run.returncode, run.stdout) != row[1]]
            count, told = count + len(rows), told + sum(text != b"" for _, (_, text) in rows)
    print(*bad[:20], f"{len(lists)} lists, {count} questions, {told} of them with sites, {len(bad)} differences", sep="\n")
    return 1 if bad else 0


if __name__ == "__main__":
    sys.setrecursionlimit(1000000)
    sys.set_int_max_str_digits(0)
    threading.stack_size(512 * 1024 * 1024)
    status = []
    thread = threading.Thread(target=lambda: status.append(main(sys.argv[1:])))
    thread.start()
    thread.join()
    sys.exit(status[0] if status else 2)
