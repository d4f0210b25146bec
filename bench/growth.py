"""What each command takes in books of three sizes, for bench/run growth.

A book has so many cells, formulas, sheets or definitions, and few of all else. A program is given the book's lines, and then the
lines of one use after another; a use puts back what it changes, so that all see the same book. The processor time that the
program takes from the first line of a use to its last reply counts, less what it takes to wake up, by the least of some rounds.
"""
import os
import re
import subprocess
import sys
import threading
import time

import shapes

FEW = {"cells": 100, "formulas": 100, "sheets": 6, "definitions": 10}
SIZES = (1_000, 10_000, 100_000)
STYLE = "#,##0.00→0→1→-"
LINES, ROUNDS = 100, 15

# A use has phases, parted by bars: a phase is a line, or lines in turn, for i from 1 on. What stands before a colon and a blank is
# its name, else the command is. A phase with a dash before it isn't counted; one with "once" is sent for the first i alone.
# `n` goes on from round to round, `k` is the number of lines; `row`, `formula`, `sheet` and `name` are the book's one after another.
USES = [
    "add_sheet→T{i} | delete_sheet_by_name→T{i}",
    "new_sheet | delete_sheet→{sheets}",
    "add_sheet and its deletion: add_sheet→T; delete_sheet_by_name→T",
    "duplicate_sheet→1 | - delete_sheet→2",
    "insert_sheet→T{i}→0→- | delete_sheet of the first: delete_sheet→0",
    "insert_sheet at the end: insert_sheet→T{i}→{sheets}→{far} | delete_sheet_by_sheet_id→{far}",
    "rename_sheet→Data→Datum; rename_sheet→Datum→Data",
    "rename_sheet_by_index→2→Datum; rename_sheet_by_index→2→Data",
    "move_sheet→0→{last}; move_sheet→{last}→0",
    "get_worksheets_properties",
    "get_new_sheet_id",
    "new_defined_name→more_{i}→-→Data!$A$1 | delete_defined_name→more_{i}→-",
    "new_defined_name of one sheet: new_defined_name→own_{i}→0→Data!$A$1 | delete_defined_name of one sheet: delete_defined_name→own_{i}→0",
    "is_valid_defined_name→more→-→Data!$A$1",
    "update_defined_name→quiet→-→still→-→Data!$A$1; update_defined_name→still→-→quiet→-→Data!$A$1",
    "would_capture→quiet→-→still→-→Data!$A$1",
    "get_defined_name_list",
    "set_locale→de; set_locale→en",
    "set_language→de; set_language→en",
    "set_timezone→Europe/Berlin; set_timezone→UTC",
    "get_locale",
    "get_language",
    "get_timezone",
    "get_fmt_settings",
    "set_user_input→0→{i}→3→12.5 | - once range_clear_all→0→1→3→1→{k}",
    "update_cell_with_text→0→{i}→3→some text | - once range_clear_all→0→1→3→1→{k}",
    "update_cell_with_bool→0→{i}→3→true | - once range_clear_all→0→1→3→1→{k}",
    "update_cell_with_number→0→{i}→3→12.5 | - once range_clear_all→0→1→3→1→{k}",
    "update_cell_with_formula→0→{i}→3→=A{i}*2 | - once range_clear_all→0→1→3→1→{k}",
    "set_user_array_formula→0→{i}→5→2→1→=A1:B1 | - once range_clear_all→0→1→5→2→{k}",
    "- set_user_input→0→{i}→3→12.5 | range_clear_contents→0→{i}→3→2→1 | range_clear_all→0→{i}→3→2→1",
    "put_formula_value→0→{formula}→12→n:{i}",
    "put_spill→0→1→16→2→2→n:1→n:2→n:3→n:4",
    "get_cell_formula→0→{formula}→12",
    "get_localized_cell_content→0→{row}→11",
    "get_formatted_cell_value→0→{row}→11",
    "get_cell_value_by_index→0→{row}→11",
    "get_cell_value_by_ref→Sheet1!K{row}",
    "get_cell_type→0→{row}→11",
    "is_empty_cell→0→{row}→11",
    "get_all_cells",
    "get_sheet_markup→2",
    "extend_to→0→{formula}→12→{formula}→13",
    "extend_copied_value→=A1*2→0→1→1→0→2→2",
    "parse_reference→{name}!B7",
    "get_cell_style_index→0→{row}→11",
    "get_style_for_cell→0→{row}→11",
    "get_cell_style_or_none→0→{row}→11",
    "set_column_style→0→{i}→" + STYLE + " | get_column_style→0→{i} | delete_column_style→0→{i}",
    "set_row_style→0→{i}→" + STYLE + " | get_row_style→0→{i} | delete_row_style→0→{i}",
    "set_column_width→0→{i}→5000 | get_column_width→0→{i}",
    "set_row_height→0→{i}→5000 | get_row_height→0→{i}",
    "set_column_hidden→0→{i}→true | is_column_hidden→0→{i} | - set_column_hidden→0→{i}→false",
    "set_row_hidden→0→{i}→true | is_row_hidden→0→{i} | - set_row_hidden→0→{i}→false",
    "set_sheet_color→{sheet}→#FF0000",
    "set_sheet_state→{sheet}→visible",
    "set_show_grid_lines→{sheet}→true",
    "set_frozen_rows→{sheet}→2",
    "set_frozen_columns→{sheet}→2",
    "get_frozen_rows_count→{sheet}",
    "get_frozen_columns_count→{sheet}",
    "set_theme→Office",
    "get_theme",
    "update_cell_with_formula over another: update_cell_with_formula→0→1→13→=A1*{n}",
]
# What makes sense in books with many of one thing alone.
MORE = {
    "cells": [f"{it} of a column without cells: {it}→0→1→20→1→1048576" for it in ("range_clear_contents", "range_clear_all")],
    "definitions": ["delete_defined_name of the first: delete_defined_name→name_{first}→- | - new_defined_name→name_{first}→-→Data!$A${first}"],
}
# What is wanted where it isn't twice the time: a list grows with its reply, so that each thing in it counts; what changes the order
# of sheets may take so many microseconds a sheet.
LISTS = {("get_all_cells", "cells"), ("get_all_cells", "formulas"), ("get_worksheets_properties", "sheets"), ("get_defined_name_list", "definitions")}
A_SHEET = {"move_sheet", "insert_sheet", "duplicate_sheet", "duplicate_sheet among its copies", "delete_sheet of the first"}
NANOSECONDS = 5
# What is wanted at most of a part: microseconds, or bytes.
AT_MOST = {"update_defined_name a mention": 2.0, "would_capture a mention": 0.8, "get_sheet_markup a megabyte": 1_000, "written over": 250, "coming again": 250}
# The rows of the first table: what each says, what its books have many of, and the names of its uses, of which the slowest counts.
ROWS = [
    ("`delete_sheet` of the last, by name, by id", "sheets", ["delete_sheet", "delete_sheet_by_name", "delete_sheet_by_sheet_id"]),
    ("`delete_sheet` of the first", "sheets", ["delete_sheet of the first"]),
    ("`delete_defined_name`", "sheets", ["delete_defined_name"]),
    ("`update_defined_name` without a mention, `would_capture`", "sheets", ["update_defined_name", "would_capture"]),
    ("`new_sheet` behind `Sheet1`, `Sheet2`, ..", "sheets", ["new_sheet"]),
    ("`insert_sheet` at the front, `move_sheet`", "sheets", ["insert_sheet", "move_sheet"]),
    ("`insert_sheet` at the end", "sheets", ["insert_sheet at the end"]),
    ("`duplicate_sheet` of an empty sheet", "sheets", ["duplicate_sheet"]),
    ("among its numbered copies", "copies", ["duplicate_sheet among its copies"]),
    ("`get_all_cells` of 213 cells", "sheets", ["get_all_cells"]),
    ("`new_defined_name` of one sheet", "definitions", ["new_defined_name of one sheet"]),
    ("`delete_defined_name` of one of the last", "definitions", ["delete_defined_name"]),
    ("`delete_defined_name` of the first", "definitions", ["delete_defined_name of the first"]),
    ("`update_defined_name` without a mention, `would_capture`", "definitions", ["update_defined_name", "would_capture"]),
    ("`delete_sheet`", "definitions", ["delete_sheet", "delete_sheet_by_name", "delete_sheet_by_sheet_id"]),
    ("`duplicate_sheet` of an empty sheet", "definitions", ["duplicate_sheet"]),
    ("a mention in `update_defined_name`", "mentions", ["update_defined_name a mention"]),
    ("a mention in `would_capture`", "mentions", ["would_capture a mention"]),
    ("a column without cells cleared, taken away", "cells", [f"{it} of a column without cells" for it in ("range_clear_contents", "range_clear_all")]),
    ("a cell of a block cleared, taken away", "cells", ["range_clear_contents a cell", "range_clear_all a cell"]),
    ("a cell of an array formula written, cleared", "cells", ["set_user_array_formula a cell", "range_clear_contents a cell of its array"]),
    ("a cell of `get_sheet_markup`, `get_all_cells`", "cells", ["get_sheet_markup a cell", "get_all_cells"]),
    ("two cells far apart in a markup, a megabyte", "rows", ["get_sheet_markup a megabyte"]),
    ("a sheet of `get_worksheets_properties`", "sheets", ["get_worksheets_properties"]),
    ("a definition of `get_defined_name_list`", "definitions", ["get_defined_name_list"]),
    ("a formula written over another", "formulas", ["update_cell_with_formula over another"]),
    ("bytes that one written over leaves", "formulas", ["written over"]),
    ("bytes if it comes again, in all", "formulas", ["coming again"]),
]


class Program:
    """A program that runs, and has been given these lines."""

    def __init__(self, path, lines):
        self.child = subprocess.Popen([path], stdin=subprocess.PIPE, stdout=subprocess.PIPE)
        self.clock = ~self.child.pid << 3 | 2  # the name that clock_gettime has for its processor time
        self.waking = 0
        self.spent(lines)
        few, many = (min(self.spent(["get_theme"] * count) for _ in range(20)) for count in (1, 101))
        self.waking = few - (many - few) / 100

    def give(self, text):
        self.child.stdin.write(text)
        self.child.stdin.flush()

    def spent(self, lines):
        """The microseconds of its processor time until it has replied to these lines, each by ok."""
        lines = [it.replace("→", "\t") for it in lines]
        text = "".join(f"{it}\n" for it in lines).encode()
        before = time.clock_gettime_ns(self.clock)
        writer = threading.Thread(target=self.give, args=[text], daemon=True)
        writer.start()
        told, left = [], len(lines)
        while left > 0:
            told.append(os.read(self.child.stdout.fileno(), 1 << 20))
            if not told[-1]:
                sys.exit("bench: the program ended before its last line")
            left -= told[-1].count(b"\n")
        took = (time.clock_gettime_ns(self.clock) - before) / 1000
        writer.join()
        for line, reply in zip(lines, b"".join(told).split(b"\n")):
            if not reply.startswith(b"ok"):
                sys.exit(f"bench: {line!r} is answered by {reply!r}")
        return max(took - self.waking, 0.001)

    def kilobytes(self):
        """What it holds in memory."""
        with open(f"/proc/{self.child.pid}/status", encoding="utf-8") as file:
            return next(int(it.split()[1]) for it in file if it.startswith("VmRSS"))

    def end(self):
        self.child.stdin.close()
        self.child.wait()
        self.child.stdout.close()


def book(cells, formulas, sheets, definitions):
    """The lines of a book: numbers in a column, formulas in another, sheets that nobody mentions after six of which four are
    mentioned, and definitions."""
    yield from shapes.sheets_named("Spare", "Data", "Budget", "Next", "My data", *(f"Sheet{n}" for n in range(2, sheets - 4)))
    yield from (f"set_user_input→0→{i + 1}→11→{i * 7919 % 1_000_003}" for i in range(cells))
    yield from (f"update_cell_with_formula→0→{i}→12→={it}" for i, it in enumerate(shapes.formulas(formulas), 1))
    yield from shapes.definitions(definitions)
    yield "new_defined_name→quiet→-→Data!$A$1"
    yield "set_user_input→0→1→16→=A1:B2"
    yield from (f"set_user_input→2→{row}→1→{row}" for row in range(1, 4))


def words(sizes, i, n, k):
    """What the lines of a use may say."""
    at = n - 1
    return {
        **sizes, "i": i, "n": n, "k": k, "last": sizes["sheets"] - 1, "far": 3_000_000 + i, "first": at % sizes["definitions"] + 1,
        "row": at % sizes["cells"] + 1, "formula": at % sizes["formulas"] + 1, "sheet": at % sizes["sheets"], "name": f"Sheet{at % (sizes['sheets'] - 5) + 1}",
    }


def phases(use):
    """Of each phase its name, or None where it isn't counted, whether it is sent once, and its lines in turn."""
    for text in use.split(" | "):
        counted, text = not text.startswith("- "), text.removeprefix("- ")
        once, text = text.startswith("once "), text.removeprefix("once ")
        name, colon, rest = text.partition(": ")
        yield (name if colon else text.partition("→")[0]) if counted else None, once, (rest if colon else text).split("; ")


def timed(program, use, sizes):
    """The microseconds of each counted phase of a use, a line: the least of some rounds, of two where a round is long."""
    least, k = {}, min(LINES, max(sizes.values()) // 10)
    for turn in range(ROUNDS):
        total = 0
        for name, once, forms in phases(use):
            lines = [form.format(**words(sizes, i, turn * k + i, k)) for i in range(1, 2 if once else k + 1) for form in forms]
            took = program.spent(lines)
            total += took
            if name:
                least[name] = min(took / len(lines), least.get(name, took))
        if turn and total > 50_000:
            break
    return least


def missing(page):
    """The commands of the page that no use counts."""
    counted = {name.partition(" ")[0] for use in [*USES, *MORE["cells"]] for name, _, _ in phases(use) if name}
    with open(page, encoding="utf-8") as file:
        firsts = [it.split(" | ")[0] for it in file if it.startswith("| `")]
    return {name for it in firsts for name in re.findall(r"`([a-z_]+)[→`]", it)} - counted


def in_books(path, sizes):
    """By the name of a use and by what its book has many of: the microseconds a line in books of these sizes."""
    found = {}
    for many in FEW:
        for size in sizes:
            of_book = {**FEW, many: size}
            program = Program(path, book(**of_book))
            for use in [*USES, *MORE.get(many, [])]:
                for name, took in timed(program, use, of_book).items():
                    found.setdefault((name, many), []).append(took / size if (name, many) in LISTS else took)
            program.end()
    return found


def by_parts(path, before, uses, size, parts=None, rounds=3):
    """Of uses that touch so many parts at once, the microseconds a part: each use is its name, or None, and its lines."""
    program, least = Program(path, before), {}
    for _ in range(rounds):
        for name, lines in uses:
            took = program.spent(lines) / (parts or size) / (len(lines) if name else 1)
            if name:
                least[name] = min(took, least.get(name, took))
    program.end()
    return least


def of_many(path, size):
    """What one line takes that touches so many mentions, cells or values, by each of these."""
    tax = [*shapes.sheets_named("Data"), "new_defined_name→tax→-→Data!$A$1", *(shapes.put(i, f"SUM(Data!$A${i}:$B$9)*tax+{i}") for i in range(1, size + 1))]
    update = "update_defined_name→{}→-→{}→-→Data!$A$1"
    yield from by_parts(path, tax, [
        ("update_defined_name a mention", [update.format("tax", "toll"), update.format("toll", "tax")]),
        ("would_capture a mention", [update.format("tax", "toll").replace("update_defined_name", "would_capture")]),
    ], size).items()
    full = [f"set_user_input→0→{i // 10 + 1}→{i % 10 + 1}→{i}" for i in range(size)]
    block = f"→0→1→1→10→{size // 10}"
    yield from by_parts(path, full, [
        ("get_sheet_markup a cell", ["get_sheet_markup→0"]),
        ("range_clear_contents a cell", ["range_clear_contents" + block]), (None, full),
        ("range_clear_all a cell", ["range_clear_all" + block]), (None, full),
    ], size).items()
    yield from by_parts(path, [], [
        ("set_user_array_formula a cell", [f"set_user_array_formula{block}→=XA1:XB9"]),
        ("range_clear_contents a cell of its array", ["range_clear_contents" + block]),
    ], size).items()
    copies = shapes.sheets_named("Spare", *(f"Spare ({n})" for n in range(1, size + 1)))
    one = ["duplicate_sheet→1"] * 5
    yield from by_parts(path, copies, [("duplicate_sheet among its copies", one), (None, ["delete_sheet→2"] * 5)], size, 1).items()


def written_over(path, size):
    """The bytes that the program holds for each formula that was written over by another one, and for each that came twice."""
    lines = [f"update_cell_with_formula→0→{i % 100 + 1}→1→={it}" for i, it in enumerate(shapes.formulas(size))]
    program = Program(path, [*shapes.sheets_named("Data", "Budget", "Next", "My data"), *lines[:100]])
    start = program.kilobytes()
    for name in ("written over", "coming again"):
        program.spent(lines)
        yield name, (program.kilobytes() - start) * 1024 / size
    program.end()


def far_apart(path, rows, columns=1_000):
    """The microseconds a megabyte of the reply that the markup of two cells takes, in the first place and far from it."""
    before = "set_user_input\t0\t1\t1\t1\n" + f"set_user_input\t0\t{rows}\t{columns}\t1\n"
    least = {}
    for _ in range(9):
        for text in (before, before + "get_sheet_markup\t0\n"):
            child = subprocess.Popen([path], stdin=subprocess.PIPE, stdout=subprocess.DEVNULL)
            child.stdin.write(text.encode())
            child.stdin.close()
            _, child.returncode, used = os.wait4(child.pid, 0)
            if child.returncode:
                sys.exit("bench: the program didn't end well after a markup")
            least[text] = min((used.ru_utime + used.ru_stime) * 1e6, least.get(text, 1e12))
    alone, both = least.values()
    yield "get_sheet_markup a megabyte", (both - alone) / (rows * (columns + 1) / 1e6)


def wanted(name, many, sizes, took):
    """What is wanted at most, in words, and whether that is exceeded."""
    if name in AT_MOST:
        return f"{AT_MOST[name]:,}", max(took) > AT_MOST[name]
    twice = took[-1] > 2 * took[0]
    if many in ("sheets", "copies") and name in A_SHEET:
        most = NANOSECONDS * sizes[-1] / 1000
        return f"{most:,.0f}", twice and took[-1] > most
    return "twice", twice


def told(took):
    """A time as it is printed."""
    return f"{took:,.0f}" if took >= 100 else f"{took:.1f}" if took >= 10 else f"{took:.2f}" if took >= 0.1 else f"{took:.3f}"


def quoted(name):
    """A name, its command in quotes."""
    return re.sub(r"^[a-z]+(_[a-z]+)+", r"`\g<0>`", name)


def measured(path, sizes):
    """By the name of a use and by what its book has many of: what it takes in books of these sizes."""
    found = in_books(path, sizes)
    for size in sizes:
        for name, took in (*of_many(path, size), *written_over(path, size), *far_apart(path, size)):
            found.setdefault((name, next(many for _, many, names in ROWS if name in names)), []).append(took)
    return found


def rows_table(by, sizes, head, row):
    """The rows that matter, by one program or several, in which what the last one exceeds is bold."""
    head("us a line", "many", *(f"{size:,}" + (f", {it}" if len(by) > 1 else "") for it in by for size in sizes), "wanted at most")
    for title, many, names in ROWS:
        took = [max(found[name, many][at] for name in names) for found in by.values() for at in range(len(sizes))]
        most, over = wanted(names[0], many, sizes, took[-len(sizes):])
        row(title, many, *map(told, took), f"**{most}**" if over else most)
    print()


def tables(programs, sizes, head, row):
    """Prints the rows that matter, then each use beside each of what books have many of, and what exceeds what is wanted."""
    left_out = missing(f"{os.path.dirname(os.path.realpath(__file__))}/../docs/COMMANDS.md")
    if left_out:
        sys.exit(f"bench: no use counts {', '.join(sorted(left_out))}")
    by = {it: measured(path, sizes) for it, path in programs.items()}
    rows_table(by, sizes, head, row)
    found = by["ours"]
    head("us a line, in books of " + ", ".join(f"{it:,}" for it in sizes), *FEW)
    for name in dict.fromkeys(it for use in [*USES, *MORE["cells"], *MORE["definitions"]] for it, _, _ in phases(use) if it):
        row(quoted(name), *("; ".join(map(told, found.get((name, many), []))) + (f" a {many[:-1]}" if (name, many) in LISTS else "") for many in FEW))
    exceeding = {}
    for (name, many), took in found.items():
        if wanted(name, many, sizes, took)[1]:
            exceeding.setdefault(name, []).append(many)
    names = "; ".join(f"{quoted(name)} ({', '.join(it)})" for name, it in exceeding.items())
    print(f"\nOver what is wanted: {names or 'nothing'}\n")
