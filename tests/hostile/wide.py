"""Wide formulas and long lists: twice as many parts, lines or names should take twice the time.

python3 tests/hostile/wide.py PROGRAM: formulas with ever more arguments, variables, words, sheets and elements; formats, arrays and
spills with ever more parts; and lists of ever more cells, formulas, styles, sheets and definitions. The parts are doubled from 1,000 on until a run
takes two seconds or there are 512,000. Shown are the seconds, and the bytes of memory that each part of the last doubling took. The status is 1
where twice as many take more than three times as long, and more than a twentieth of a second, or more than three times the memory. Sheets that get
the least number that is free may take six times as long, since each goes over all numbers before it. It takes a minute
and 2 GB."""
import sys

from runs import ending, run

INPUT = "set_user_input\t0\t1\t1\t="
AFTER = "\nget_cell_formula\t0\t1\t1\nadd_sheet\tA\nset_language\tde\nget_cell_formula\t0\t1\t1\n"


def formula(before, part, after, between=","):
    """A formula with parts of the numbers from 0 on, and what goes over it."""
    return lambda n: INPUT + before + between.join(part(i) for i in range(n)) + after + AFTER


def lines(form, after=""):
    """Lines with the numbers from 1 on, and what comes after them."""
    return lambda n: "".join(form.format(i=i) + "\n" for i in range(1, n + 1)) + after


KINDS = {
    "numbers": formula("SUM(", lambda i: "1", ")"), "references": formula("SUM(", lambda i: f"A{i + 1}", ")"),
    "words": formula("SUM(", lambda i: f"word_{i}", ")"), "sheets in a formula": formula("SUM(", lambda i: f"sheet_{i}!A1", ")"),
    "errors": formula("SUM(", lambda i: "#REF!", ")"), "calls": formula("SUM(", lambda i: "PI()", ")"), "texts in a formula": formula("SUM(", lambda i: f'"{i}"', ")"),
    "variables": formula("LET(", lambda i: f"v_{i},{i}", ",v_0)"), "variables that are used": formula("LET(", lambda i: f"v_{i},v_{max(i - 1, 0)}", ",v_0)"),
    "parameters": formula("LAMBDA(", lambda i: f"v_{i}", ",v_0)"), "elements": formula("{", lambda i: "1", "}"), "rows of elements": formula("{", lambda i: "1", "}", ";"),
    "quotes": formula('"', lambda i: '""', '"', ""), "digits": formula("", lambda i: "1", "", ""), "blanks": formula("", lambda i: " ", "1", ""),
    "arguments that don't fit": formula("LET(", lambda i: "1", ")"),
    "zeros of a format": lambda n: "set_row_style\t0\t1\t" + "0" * n + "\t0\t0\t-\nset_user_input\t0\t1\t1\t5\nget_formatted_cell_value\t0\t1\t1\n",
    "values of a spill": lambda n: f"set_user_input\t0\t1\t1\t=A1:A2\nput_spill\t0\t1\t1\t1\t{n}" + "\tn:1" * n + "\nset_user_input\t0\t2\t1\t5\n",
    "cells": lines("update_cell_with_number\t0\t{i}\t1\t{i}", "range_clear_all\t0\t1\t1\t16384\t1048576\n"), "texts": lines("set_user_input\t0\t{i}\t1\ttext {i}", "get_all_cells\n"),
    "formulas": lines("set_user_input\t0\t{i}\t1\t=A1+{i}", "add_sheet\tA\n"), "formulas that don't read": lines("set_user_input\t0\t{i}\t1\t=A1+{i}+", "add_sheet\tA\n"),
    "formulas in one cell": lines("set_user_input\t0\t1\t1\t=A1+{i}", "add_sheet\tA\n"), "formulas that wait for a sheet": lines("set_user_input\t0\t{i}\t1\t=later!A{i}", "add_sheet\tLater\n"),
    "styles": lines("set_row_style\t0\t{i}\t0.00 {i}\t0\t0\t-"), "styles of one row": lines("set_row_style\t0\t1\t0.00 {i}\t0\t0\t-\nset_user_input\t0\t1\t1\t'1"),
    "sheets": lines("add_sheet\tS{i}"), "sheets by new_sheet": lines("new_sheet"), "copied sheets": lines("duplicate_sheet\t0"), "renames": lines("rename_sheet_by_index\t0\tS{i}"),
    "definitions": lines("new_defined_name\tname_{i}\t-\tSheet1!A1", "get_defined_name_list\n"), "definitions that change": lines("new_defined_name\tn\t-\tSheet1!A1\nupdate_defined_name\tn\t-\tm{i}\t-\tSheet1!A1\nupdate_defined_name\tm{i}\t-\tn\t-\tSheet1!A2"),
}


# of these each line takes as long as there are sheets
SQUARE = {"sheets by new_sheet", "copied sheets"}


def main(program):
    wrong = 0
    print("| parts | seconds for ever twice as many, from 1,000 on | bytes a part |\n|---|---|---|")
    for name, make in KINDS.items():
        row, before, bytes_each = [], None, 0
        most = 6 if name in SQUARE else 3
        for count in (1000 << shift for shift in range(10)):
            given = make(count).encode()
            ran = run(program, given)
            if before and ran.seconds > max(0.05, most * before.seconds):
                ran = min(ran, run(program, given), key=lambda it: it.seconds)
            row.append(f"{ran.seconds:.2f}")
            replies = ran.output.count(b"\n")
            if ran.status or replies != given.count(b"\n"):
                wrong += 1
                row.append(f"WRONG: {ending(ran.status)} and {replies} replies")
            if before and (ran.seconds > max(0.05, most * before.seconds) or ran.kilobytes > 3 * before.kilobytes):
                wrong += 1
                row.append(f"WRONG: {before.kilobytes} KB and {ran.kilobytes} KB")
            if before:
                bytes_each = (ran.kilobytes - before.kilobytes) * 2048 / count
            before = ran._replace(output=b"")
            if ran.seconds > 2:
                break
        print(f"| {name} | {', '.join(row)} | {bytes_each:.0f} |", flush=True)
    print(f"{len(KINDS)} kinds, {wrong} wrong")
    return 1 if wrong else 0


if __name__ == "__main__":
    sys.exit(main(*sys.argv[1:]))
