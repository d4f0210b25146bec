#!/usr/bin/env python3
"""Tries what README.md and docs/GUIDE.md say by example of command lines.

  tests/pages/lines.py DESK    the program, ic_desk

Of the guide: each table of lines and replies, of formulas as they are written and shown, of bodies as they are listed, of what is typed,
of translated lines, and what made lines count. Of README.md: the session, by sample.lines. It prints what comes out otherwise, and
ends with 1 where something does."""
import os
import re
import subprocess
import sys

TOP = os.path.join(os.path.dirname(os.path.realpath(__file__)), "../..")
count = wrong = 0


def text_of(name):
    with open(os.path.join(TOP, name), encoding="utf-8") as it:
        return it.read()


def tables(text):
    """Each table: its head and its rows, by cells."""
    for found in re.findall(r"(?:^\|.*\n)+", text, re.M):
        rows = [[cell.strip().replace("\\|", "|") for cell in re.split(r"(?<!\\)\|", line)[1:-1]] for line in found.strip().split("\n")]
        yield rows[0], rows[2:]


def codes(cell):
    """The texts in code of a cell, with tabs."""
    return [it.replace("→", "\t") for it in re.findall(r"`([^`]*)`", cell)]


def run(lines, *words):
    ran = subprocess.run([DESK, *words], input="".join(f"{it}\n" for it in lines).encode(), stdout=subprocess.PIPE)
    return ran.stdout.decode().split("\n")[:-1]


def same(what, wanted, got):
    global count, wrong
    count += 1
    if wanted != got:
        wrong += 1
        print(f"{what!r}: {got!r}, and not {wanted!r}")


def reply_to(lines):
    return run(lines)[-1]


def written(formula, at="0\t1\t1"):
    return f"update_cell_with_formula\t{at}\t{formula}"


SHOWN = "get_cell_formula\t0\t1\t1"


def try_replies(before, rows):
    """Rows that go on from each other: lines, and as many replies, or one that all of them have."""
    lines, wanted = list(before), [None] * len(before)
    for given, told in rows:
        asked, answers = codes(given), codes(told)
        lines += asked
        wanted += answers[:len(asked)] if len(answers) >= len(asked) else answers[:1] * len(asked)
    for line, told, got in zip(lines, wanted, run(lines)):
        if told is not None:
            same(line, told, got)


def try_then(ask, rows):
    """Rows of a formula, lines and what is shown then; those without a formula go on from the one above."""
    lines = []
    for formula, given, told in rows:
        if formula:
            lines = [written(it) for it in codes(formula)]
        lines += codes(given)
        same(lines, codes(told)[0], reply_to([*lines, ask]).removeprefix("ok\t"))


def try_written(rows):
    for given, told in rows:
        for it in codes(given):
            got = run([written(it), SHOWN])
            same(it, f"error\t{codes(told)[0]}" if told.startswith("refused") else f"ok\t{codes(told)[0]}", got[0] if told.startswith("refused") else got[1])


def try_bodies(rows):
    for given, told in rows:
        for it in codes(given):
            got = run([f"new_defined_name\tf\t-\t{it}", "get_defined_name_list"])
            refused = told.startswith("refused")
            same(it, "error\tInvalidNameFormula" if refused else f"ok\tf\t-\t{codes(told)[0]}", got[0 if refused else 1])


def try_typed(rows):
    """What is typed, and how it is shown: in en, by its format, and in de."""
    for given, shown, formatted, german in rows:
        for at, it in enumerate(codes(given)):
            got = run([f"set_user_input\t0\t1\t1\t{it}", "get_localized_cell_content\t0\t1\t1", "get_formatted_cell_value\t0\t1\t1",
                       "set_locale\tde", "set_language\tde", "get_localized_cell_content\t0\t1\t1"])
            told = [codes(shown)[at], codes(shown if formatted == "the same" else formatted)[at], codes(shown if german == "as in en" else german)[at]]
            same(it, [f"ok\t{text}" for text in told], [got[1], got[2], got[5]])


def try_notations(rows):
    """Numbers and dates: the locales, what is typed, and its value and code."""
    locales = []
    for where, _, typed, value, code in rows:
        locales = (["en", "es", "fr", "de", "it"] if where == "all" else where.split(", ")) if where else locales
        for locale in locales:
            for it in codes(typed):
                got = run([f"set_locale\t{locale}", f"set_user_input\t0\t1\t1\t{it}", "get_cell_value_by_index\t0\t1\t1", "get_style_for_cell\t0\t1\t1"])
                same((locale, it), [f"ok\tnumber\t{value}", f"ok\t{codes(code)[0] if codes(code) else 'General'}\t0\t0\t-"], got[2:])


def try_translated(rows):
    for given, told in rows:
        lines = codes(given)
        if len(lines) == 1 and lines[0].count("\t") > 1 and told.startswith("`"):
            same(lines[0], codes(told)[:1], run(lines, "translate", "es", "es")[2:])


def try_asked(before, asks, rows):
    """Rows of lines that go on from each other, and what each of some lines answers after them."""
    lines = list(before)
    for given, *told in rows:
        lines += codes(given)
        for ask, cell in zip(asks, told):
            for it in codes(cell)[:1]:
                answer = reply_to([*lines, ask])
                same(lines[-2:], it, answer if it.startswith("ok") else answer.removeprefix("ok\t"))


def try_flags(rows):
    """Texts that are written as they stand, the quote flag, and what is shown to type them again."""
    for given, flag, shown in rows:
        for at, it in enumerate(codes(given) or [""]):
            got = run([f"update_cell_with_text\t0\t1\t1\t{it}", "get_style_for_cell\t0\t1\t1", "get_localized_cell_content\t0\t1\t1"])
            same(it, [f"ok\tGeneral\t{flag}\t0\t-", f"ok\t{codes(shown)[at]}"], got[1:])


def try_guide(text):
    for head, rows in tables(text):
        first, last = head[0], head[-1]
        if (first, last) in (("line", "reply"), ("line, in a new book", "reply")):
            try_replies([], rows)
        elif first.startswith("line, with `=B1*D4` in A1"):
            try_replies([written("=B1*D4"), written("=XFD1048576", "0\t2\t1")], rows)
        elif head == ["written", "lines", "shown"]:
            try_then(SHOWN, rows)
        elif first == "written into A1, in en and en":
            try_written(rows)
        elif first.startswith("body, in en and en"):
            try_bodies(rows)
        elif first.startswith("typed, in en and en"):
            try_typed(rows)
        elif last == "code" and first == "locale":
            try_notations([[*row[:2], *row[-3:]] for row in rows])
        elif last.startswith("becomes, with"):
            try_translated(rows)
        elif head == ["text", "quote flag", "shown to type it again"]:
            try_flags(rows)
        elif last == "`get_sheet_markup→0`":
            try_asked([], ["get_sheet_markup\t0"], rows)
        elif last == "`get_defined_name_list`":
            try_asked([], ["get_defined_name_list"], rows)
        elif last == "`get_defined_name_list`, or the formula of A1":
            try_asked([], [SHOWN], rows)
            try_asked([], ["get_defined_name_list"], [[given, told[told.find("`ok"):] if "`ok" in told else ""] for given, told in rows])
        elif last.startswith("shown of A1 of the first sheet, where a second"):
            try_asked(["add_sheet\tT", "new_defined_name\ttax\t1\tSheet1!$A$1"], [SHOWN], rows)
        elif last == "formula of B1 of the copy, or the list":
            try_asked([], ["get_cell_formula\t1\t1\t2"], [row for row in rows if codes(row[1])[0].startswith("=")])
        elif head == ["typed", "code", "`get_formatted_cell_value`"]:
            try_asked([], ["get_formatted_cell_value\t0\t1\t1", "get_style_for_cell\t0\t1\t1"],
                      [["".join(f"`set_user_input→0→1→1→{it}`" for it in codes(typed)), told, f"`ok→{codes(code)[0]}→0→0→-`"] for typed, code, told in rows])
    made = re.search(r"`make 2 50` writes (.*)\.\n", text)[1]
    same("make 2 50", codes(made), run([], "make", "2", "50"))


def try_session():
    lines = text_of("sample.lines").split("\n")[:-1]
    replies = dict(zip(lines, run(lines)))
    for head, rows in tables(text_of("README.md")):
        if head == ["line", "reply"]:
            for given, told in rows:
                same(given, codes(told)[0], replies.get(codes(given)[0], "no such line"))


if len(sys.argv) != 2:
    sys.exit(__doc__)
DESK = os.path.realpath(sys.argv[1])
try_guide(text_of("docs/GUIDE.md"))
try_session()
print(f"{count} examples of the pages:", f"{wrong} wrong" if wrong else "all as told")
sys.exit(wrong > 0)
