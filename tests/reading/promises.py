"""Asks of each book that a session passes through what is promised of all books, and of each step what is promised of it.

python3 tests/reading/promises.py FOLDER..: the files NAME.lines in each folder are run; what doesn't hold is shown."""
import glob
import os
import sys
import threading

sys.path.insert(0, os.path.dirname(os.path.abspath(__file__)))

from ic_laws.binding import spelled  # noqa: E402
from ic_laws.core_book import spelling_of  # noqa: E402
from ic_laws.formula_reading import shown_at  # noqa: E402
from ic_laws.lines import line_text, lines_of  # noqa: E402
from ic_laws.parse import read_as  # noqa: E402
from ic_laws.printing import printed  # noqa: E402
from ic_laws.scene import key_of  # noqa: E402
from ic_laws.tree import below  # noqa: E402
from ic_machine.book import core_of, new_book, notations_in, scene_in  # noqa: E402
from ic_machine.command import COMMANDS, command_in  # noqa: E402
from ic_machine.content import formula_in, formula_index, shape_of  # noqa: E402
from ic_machine.readers import is_reader  # noqa: E402
from ic_machine.retyped import clashes_in  # noqa: E402
from ic_machine.step import step  # noqa: E402
from ic_machine.subjects.reading import shown_content  # noqa: E402
from ic_machine.subjects.writing import input_step, write_causes  # noqa: E402
from ic_machine.valid import failing  # noqa: E402
from ic_tables.sample import SAMPLE  # noqa: E402
from ic_tables.tables import language_of  # noqa: E402
from run import read  # noqa: E402

def cells(book):
    for i, sheet in enumerate(book.sheets):
        for place, content in sheet.grid.contents.items():
            yield i, sheet, place, content


def reads_back(book):
    """What is shown of a kept tree reads as the tree as it is spelled."""
    n, core, scene = notations_in(book), core_of(book), scene_in(book)
    for _, sheet, place, content in cells(book):
        index = formula_index(content)
        formula = None if index is None else formula_in(sheet.pool, index)
        if formula is not None and formula[0] == "Tree" and not clashes_in(book, formula[1]):
            d, t = shown_at(n, core, *place), spelled(scene, formula[1])
            if read_as(d, printed(d, t)) != t:
                yield "shown formula reads otherwise", sheet.name, place, printed(d, t)


def value_kept(book, left, i, sheet, place, content):
    after = left.sheets[i].grid.contents.get(place)
    index = formula_index(content)
    if index is not None:
        formula, again = formula_in(sheet.pool, index), formula_index(after)
        return again is not None and formula_in(left.sheets[i].pool, again) == formula
    return content[:2][:-1] == after[:2][:-1] and (len(content) < 3 or content[1] == after[1])


def retypes(book):
    """What a cell shows, typed again, gives the same."""
    for i, sheet, place, content in cells(book):
        if shape_of(content)[0] == "SpillOf" or any(holds for holds, _ in write_causes(sheet, place)):
            continue
        index = formula_index(content)
        formula = None if index is None else formula_in(sheet.pool, index)
        if formula is not None and (formula[0] == "Raw" or clashes_in(book, formula[1])):
            continue
        text = shown_content(book, sheet, place, content)
        stepped = input_step(i, place, text, book)
        if stepped[0] == "Err" or not value_kept(book, stepped[1], i, sheet, place, content):
            yield "typed again it is another", sheet.name, place, content, text


def mentions(t):
    """The mentions of sheets and of words, from left to right."""
    here = {"Reference": t[1:2], "Word": t[1:2], "Call": t[1:2], "Local": t[1:3], "Fun": (None,)}
    found = list(here.get(t[0], ()))
    for x in below(t):
        found += mentions(x)
    return found


def formulas(book):
    for sheet in book.sheets:
        for i, formula in enumerate(sheet.pool):
            yield ("pool", sheet.id, i), formula
    for d in book.definitions:
        yield ("body", key_of(spelling_of(d))), d.body


def bound_anew(before, after):
    """What dangled and is found means something that came, has another name, or came to life."""
    old, names = dict(formulas(before)), {s.id: s.name for s in before.sheets}
    keys = {key_of(spelling_of(d)): d.name for d in before.definitions}
    new_keys, new_names = {key_of(spelling_of(d)): d.name for d in after.definitions}, {s.id: s.name for s in after.sheets}
    for site, formula in formulas(after):
        if site not in old or formula[0] == "Raw":
            continue
        for a, b in zip(mentions(old[site][1]), mentions(formula[1])):
            if a is None or b is None or a[0] != "Dangling" or b[0] == "Dangling":
                continue
            if b[0] == "Sheet" and b[1] in names and names[b[1]] == next(s.name for s in after.sheets if s.id == b[1]):
                yield "bound to an old sheet", site, a, b
            if b[0] == "Name" and keys.get(b[1]) == new_keys[b[1]] and (b[1].scope is None or names.get(b[1].scope) == new_names.get(b[1].scope, 0)):
                yield "bound to an old definition", site, a, b


def kept_over_update(before, after, update):
    """Each word that meant a definition means the same one after an update that came through."""
    from ic_machine.subjects.definitions import Updating
    u = Updating(before, update)
    new = {("pool", s.id, i): f for s in after.sheets for i, f in enumerate(s.pool)}
    used = {("pool", s.id, formula_index(x)) for _, s, _, x in cells(before) if formula_index(x) is not None}
    for site, formula in formulas(before):
        if formula[0] == "Raw" or site[0] == "pool" and site not in used or site == ("body", u.old_key):
            continue
        left = new[site] if site[0] == "pool" else dict(formulas(after))[site]
        for a, b in zip(mentions(formula[1]), mentions(left[1])):
            if a is not None and a[0] == "Name" and b != ("Name", u.keys_of_update(a[1])):
                yield "an update took a word away", site, a, b


def found_stays(before, after):
    """What meant a sheet or a definition means it still, at its place."""
    new = dict(formulas(after))
    for site, formula in formulas(before):
        if formula[0] == "Tree":
            for a, b in zip(mentions(formula[1]), mentions(new[site][1])):
                if a is not None and a[0] in ("Sheet", "Name") and a != b:
                    yield "a mention doesn't stay", site, a, b


def asked(book, command, stepped):
    if stepped[0] == "Err":
        return
    left = stepped[1]
    if is_reader(command):
        if left != book:
            yield ("a reader changed the book",)
        return
    if failing(left):
        yield "conditions fail", failing(left)
    yield from reads_back(left)
    yield from retypes(left)
    if command[1][0] in ("AddSheet", "InsertSheet", "NewSheet", "DuplicateSheet", "RenameSheet", "RenameSheetByIndex", "NewDefinedName",
                         "UpdateDefinedName", "DeleteDefinedName"):
        yield from bound_anew(book, left)
    if command[1][0] in ("RenameSheet", "RenameSheetByIndex", "MoveSheet", "SetLocale", "SetLanguage"):
        yield from found_stays(book, left)
    if command[1][0] == "UpdateDefinedName":
        yield from kept_over_update(book, left, command[1][1])


def broken(lines):
    book = new_book(SAMPLE, "en", "en", "UTC", "workbook", "Sheet1")
    english = language_of(SAMPLE, "en")
    for i, line in enumerate(lines):
        command = command_in(english, COMMANDS, line_text(line))
        if command is None:
            continue
        stepped = step(book, command)
        for what in asked(book, command, stepped):
            yield i, line, what
        book = stepped[1] if stepped[0] == "Ok" else book


def main(words):
    sessions = count = bad = 0
    for folder in words:
        for path in sorted(glob.glob(os.path.join(folder, "*.lines"))):
            lines = lines_of(read(path))
            sessions, count = sessions + 1, count + len(lines)
            for i, line, what in broken(lines):
                bad += 1
                if bad <= 20:
                    print(f"{path}, line {i + 1}: {line.decode('utf-8', 'replace')}\n  {what}")
    print(f"{sessions} sessions, {count} lines, {bad} promises broken")
    return 1 if bad else 0


if __name__ == "__main__":
    sys.setrecursionlimit(1000000)
    sys.set_int_max_str_digits(0)
    threading.stack_size(512 * 1024 * 1024)
    status = []
    thread = threading.Thread(target=lambda: status.append(main(sys.argv[1:])))
    thread.start()
    thread.join()
    sys.exit(status[0] if status else 2)
