"""Translates lists of command lines into other notations, runs what they become there, and compares the books that are left.

python3 tests/reading/translated.py FOLDER.. [--all] [--rows=FILE] [--written=FILE] [--seed=N] [--count=K]: each file NAME.lines in the folders is
translated into five notations, with --all into each locale with each language. A line that can't be translated is taken out, and
the rest goes on. What the lines become must be accepted line by line, and leave the same book after each: with plain spellings, and
with what was typed where that is the same in the notation, from a book with other styles. A row of FILE has the name of a list in the first folder, a locale, a language, and 0, `lines` and how many lines it
becomes, or 7, `cannot`, the number of the first line that can't be translated, and why. A row of what is written has a locale, a
language, a list, and what `desk translate` writes of it, both with escapes. With a seed, K lists are drawn and tried,
100 unless told. The status is 1 where something differs."""
import glob
import os
import sys
import threading

sys.path.insert(0, os.path.dirname(os.path.abspath(__file__)))

from drawn import drawn_lines  # noqa: E402
from ic_cells.style import DEFAULT_STYLE  # noqa: E402
from ic_laws.lines import line_text, lines_of, unescaped  # noqa: E402
from ic_machine.book import new_book  # noqa: E402
from ic_machine.same import is_same_book  # noqa: E402
from ic_machine.step import step  # noqa: E402
from ic_machine.translation import (as_typed, became, command_of, first_hindered, in_notation, left_after, plainly,  # noqa: E402
                                    translated, why_line_not)
from ic_tables.sample import SAMPLE  # noqa: E402
from run import read  # noqa: E402

PLACES = ("en", "es", "fr", "de", "it")
FIVE = [(place, place) for place in PLACES]
ALL = [(locale, language) for locale in PLACES for language in PLACES]
OTHER_STYLES = (DEFAULT_STYLE, DEFAULT_STYLE._replace(bold=True), DEFAULT_STYLE._replace(num_fmt="#,##0%"))


def start():
    return new_book(SAMPLE, "en", "en", "UTC", "workbook", "Sheet1")


def texts_of_lines(path):
    return [line_text(line) for line in lines_of(read(path))]


class Tried:
    """One list, run beside what it becomes in a notation, by each choice of spellings."""

    def __init__(self, locale, language, lines):
        self.became, self.taken_out, self.differs = 0, {}, None
        self.run(locale, language, lines)

    def run(self, locale, language, lines):
        book = start()
        others = {plainly: in_notation(locale, language, book), as_typed: in_notation(locale, language, book)._replace(styles=OTHER_STYLES)}
        for number, line in enumerate(lines, 1):
            why = why_line_not(locale, language, book, line)
            if why is not None:
                self.taken_out[why] = self.taken_out.get(why, 0) + 1
                continue
            left = left_after(book, line)
            for choice in others:
                new_line = became(locale, language, choice, book, line)
                if new_line is not None:
                    others[choice] = self.beside(number, line, new_line, left, others[choice])
                    self.became += choice is plainly
                if self.differs:
                    return
            book = left

    def beside(self, number, line, new_line, left, other):
        """What the new line leaves; it must be accepted, and leave what the line left."""
        command = command_of(other, new_line)
        stepped = ("Err", ("BadLine",)) if command is None else step(other, command)
        if stepped[0] == "Err" or not is_same_book(left, stepped[1]):
            self.differs = number, line, new_line, stepped[1] if stepped[0] == "Err" else "another book"
        return other if stepped[0] == "Err" else stepped[1]


class Count:
    def __init__(self):
        self.lists = self.became = self.bad = 0
        self.taken_out = {}

    def add(self, name, notation, tried):
        self.lists, self.became = self.lists + 1, self.became + tried.became
        for why, n in tried.taken_out.items():
            self.taken_out[why] = self.taken_out.get(why, 0) + n
        if tried.differs:
            self.bad += 1
            number, line, new_line, what = tried.differs
            print(f"{name} to {notation}, line {number}: {line!r}\n  becomes {new_line!r}: {what}")

    def shown(self, what):
        out = ", ".join(f"{n} taken out as {why}" for why, n in sorted(self.taken_out.items()))
        print(f"{what}: {self.lists} translations, {self.became} lines, {out or 'none taken out'}, {self.bad} with differences")


def told(locale, language, lines):
    """As a row has it."""
    cannot = first_hindered(locale, language, start(), lines)
    if cannot is not None:
        return ["7", "cannot", str(cannot[0]), cannot[1]]
    return ["0", "lines", str(len(translated(locale, language, plainly, start(), lines)))]


def written(locale, language, lines):
    """As `desk translate` writes it."""
    cannot = first_hindered(locale, language, start(), lines)
    if cannot is not None:
        return f"cannot\t{cannot[0]}\t{cannot[1]}\n"
    switches = [f"set_locale\t{locale}", f"set_language\t{language}"]
    return "".join(line + "\n" for line in switches + translated(locale, language, plainly, start(), lines))


def bad_rows(path, tried):
    """How many rows of a file tell something else than was tried, which gives what was wanted and what was given."""
    bad = count = 0
    with open(path, encoding="utf-8") as rows:
        for row in rows:
            (wanted, given), count = tried(row.rstrip("\n").split("\t")), count + 1
            if given != wanted:
                bad += 1
                print(f"{row!r}: wanted {wanted}, given {given}")
    print(f"{path}: {count} rows, {bad} with differences")
    return bad


def told_row(folder):
    return lambda row: (row[3:], told(*row[1:3], texts_of_lines(os.path.join(folder, row[0]))))


def written_row(row):
    locale, language, lines, wanted = row
    return unescaped(wanted), written(locale, language, [line_text(line) for line in lines_of(unescaped(lines).encode())])


def option(words, name, otherwise=None):
    return next((word[len(name) + 3:] for word in words if word.startswith(f"--{name}=")), otherwise)


def main(words):
    folders = [word for word in words if not word.startswith("--")]
    notations, rows, seed = ALL if "--all" in words else FIVE, option(words, "rows"), option(words, "seed")
    bad = bad_rows(rows, told_row(folders[0])) if rows else 0
    bad += bad_rows(option(words, "written"), written_row) if option(words, "written") else 0
    count = Count()
    for folder in folders:
        for path in sorted(glob.glob(os.path.join(folder, "*.lines"))):
            lines = texts_of_lines(path)
            for notation in notations:
                count.add(path, notation, Tried(*notation, lines))
    if folders:
        count.shown("lists")
    bad, drawn = bad + count.bad, Count()
    for i in range(int(option(words, "count", "100")) if seed else 0):
        for notation in notations:
            drawn.add(f"list {i} of seed {seed}", notation, Tried(*notation, drawn_lines(int(seed), i)))
    if seed:
        drawn.shown("drawn")
    return 1 if bad + drawn.bad else 0


if __name__ == "__main__":
    sys.setrecursionlimit(1000000)
    sys.set_int_max_str_digits(0)
    threading.stack_size(512 * 1024 * 1024)
    status = []
    thread = threading.Thread(target=lambda: status.append(main(sys.argv[1:])))
    thread.start()
    thread.join()
    sys.exit(status[0] if status else 2)
