"""Little stack: deep formulas of each kind, the calls that go over them, and how much stack they take.

python3 tests/hostile/stack.py PROGRAM [--mixed=N] [--seed=N]: writes a formula of so many levels, in a cell, in an array and in the
body of a definition, gives commands that go over it, and shows the least stack with which the replies are those with 8 MB; then the
same for N formulas, 40 unless told, each of pieces that are drawn and as deep as the reader takes it. With 2 MB the replies have to be
those with 8 MB, at every level: the status is 1 where they aren't, or where a formula that is low enough isn't read. Less
stack than a formula takes ends the process by a signal, and so does a limit of address space that the heap used up before the
stack grew: the second table shows for formulas of few levels under which limits of space that comes. It comes for none of 20
levels, which fit the stack that a process has from its start, and the status is 1 if it does. It takes a minute."""
import random
import sys

from runs import MEGABYTE, NO_MEMORY, Tried, ending, least_that, run

PAGE = 4096

# what stands before, in and behind so many levels, and how many of them one piece has
LEVELS = {
    "signs": ("-", "1", "", 1), "percent signs": ("", "1", "%", 1), "terms": ("1+", "1", "", 1), "words": ("tax+", "tax", "", 1),
    "brackets": ("(", "1", ")", 1), "calls": ("SUM(", "1", ")", 1), "LET": ("LET(x,1,", "x", ")", 1), "LAMBDA": ("LAMBDA(x,", "x", ")", 1),
    "calls of calls": ("", "LAMBDA(x,x)", "(1)", 1), "brackets and signs": ("-------(", "1", ")", 8), "`@`": ("@", "A1", "", 1), "`#`": ("", "A1", "#", 1),
}

# what goes over a formula, which the first line writes into A1
AROUND = """update_cell_with_formula\t0\t1\t1\t={formula}
get_cell_formula\t0\t1\t1
set_language\tde
set_locale\tde
get_cell_formula\t0\t1\t1
new_defined_name\ttax\t-\tSheet1!$A$1
rename_sheet\tSheet1\tData
extend_to\t0\t1\t1\t2\t2
get_sheet_markup\t0
set_locale\ten
set_language\ten
set_user_array_formula\t0\t2\t1\t2\t2\t={formula}
extend_copied_value\t={formula}\t0\t1\t1\t0\t2\t2
new_defined_name\tdeep\t-\t=LAMBDA(q,{formula})
update_defined_name\tdeep\t-\tlow\t-\t={formula}
would_capture\ttax\t-\tx\t-\tData!$A$1
get_defined_name_list
new_defined_name\ttax\t0\tData!$A$1
duplicate_sheet\t0
update_defined_name\ttax\t-\tlevy\t-\tData!$A$1
delete_defined_name\tlevy\t-
add_sheet\tSheet1
delete_sheet\t0
delete_defined_name\tlow\t-
update_cell_with_formula\t0\t1\t1\t=1
"""

# the place of the reply that tells whether the formula is read
DEEP = AROUND[:AROUND.index("new_defined_name\tdeep")].count("\n")

# what may stand before and behind a formula, and whether it opens a bracket
PIECES = [
    ("-", "", 0), ("", "%", 0), ("1+", "", 0), ("1-", "", 0), ("1*", "", 0), ("1^", "", 0), ("1&", "", 0), ("1=", "", 0), ("tax*", "", 0), ("", "+1", 0), ("", "^1", 0),
    ("", "<1", 0), ("", "&tax", 0), ("A1:", "", 0), ("@", "", 0), ("", "#", 0), ("{1}+", "", 0), ("Sheet1!tax+", "", 0), ("(", ")", 1), ("SUM(", ")", 1), ("IF(TRUE,", ",2)", 1),
    ("IF(", ",1,2)", 1), ("LET(x,1,", ")", 1), ("LET(x,", ",x)", 1), ("LAMBDA(x,", ")", 1), ("", "(1)", 0), ("LAMBDA(x,x)(", ")", 1), ("tax(", ")", 1), ("unknown(", ")", 1),
]
INNER = ["1", "tax", "A1", "x", "Sheet1!A1", "LAMBDA(x,x)", "{1,2}"]


def around(formula):
    return AROUND.replace("{formula}", formula).encode()


def is_read(ran):
    return ran.output.split(b"\n")[DEEP] == b"ok"


def levels_of(kind, levels):
    before, inner, after, each = LEVELS[kind]
    times = levels // each
    return before * times + inner + after * times


def measured(program, tried):
    """The least stack for so many levels; a formula that is too deep is kept as a text."""
    counts = (20, 120, 600, 1020, 10_000, 1_000_000)
    print("| a formula of | " + " | ".join(f"{count:,} levels" for count in counts) + " |\n|" + "---|" * (len(counts) + 1))
    for kind in LEVELS:
        row = []
        for count in counts:
            formula = levels_of(kind, count)
            given = around(formula)
            whole = tried.whole(kind, given, run(program, given, None, 8 * MEGABYTE))
            if count <= 1020 and formula.count("(") <= 127 and not is_read(whole):
                tried.fail(f"{kind}, {count} levels: not read")
            tried.look(f"{kind}, {count} levels in 2 MB of stack", run(program, given, None, 2 * MEGABYTE), whole)
            needed = least_that(lambda stack: run(program, given, None, stack)[:2] == whole[:2], 32 * 1024, 8 * MEGABYTE, 8192)
            row.append(f"{needed // 1024} KB")
        print(f"| {kind} | " + " | ".join(row) + " |", flush=True)


def nested(pieces, times, more, inner):
    for before, after, _ in pieces * times + more:
        inner = before + inner + after
    return inner


def greatest(holds):
    """The greatest number below 1,100 for which it holds, where it does for 0."""
    low, high = 0, 1100
    while high - low > 1:
        middle = (low + high) // 2
        low, high = (middle, high) if holds(middle) else (low, middle)
    return low


def drawn(program, tried, count, chance):
    """Formulas of one to three pieces over and over, and then of one without brackets, each as often as the reader takes it."""
    def reads(formula):
        return run(program, f"new_defined_name\tdeep\t-\t=LAMBDA(q,{formula})\n".encode(), None, 64 * MEGABYTE).output == b"ok\n"

    most, read = (0, ""), 0
    while read < count:
        pieces = [chance.choice(PIECES) for _ in range(chance.randrange(1, 4))]
        more = [chance.choice([piece for piece in PIECES if not piece[2]])]
        inner = chance.choice(INNER)
        if not reads(nested(pieces, 1, more, inner)):
            continue
        times = greatest(lambda n: reads(nested(pieces, n, [], inner)))
        left = greatest(lambda n: reads(nested(pieces, times, more * n, inner)))
        given = around(nested(pieces, times, more * left, inner))
        whole = tried.whole("drawn", given, run(program, given, None, 8 * MEGABYTE))
        what = f"{times} times {pieces}, {left} times {more}, about {inner}"
        if not is_read(whole):
            tried.fail(f"{what}: not read")
        tried.look(f"{what}, in 2 MB of stack", run(program, given, None, 2 * MEGABYTE), whole)
        most = max(most, (least_that(lambda stack: run(program, given, None, stack)[:2] == whole[:2], 32 * 1024, 8 * MEGABYTE, 8192), what))
        read += 1
    print(f"of {count} formulas that were drawn, as deep as the reader takes them, the most that one takes is {most[0] // 1024} KB: {most[1]}")


def crowded(program, tried):
    """Under each limit of address space from the least one on, page by page, until the formula is answered."""
    start = least_that(lambda space: run(program, b"", space).status == 0, PAGE, 64 * MEGABYTE, PAGE)
    print("| signs | no stack, ended by a signal | no memory, ended with status 6 | answered from |\n|---|---|---|---|")
    for count in (20, 60, 120, 600, 1020):
        given = around(levels_of("signs", count))
        whole = tried.whole("signs", given, run(program, given))
        killed, refused, space, enough = [], [], start, 0
        while enough < 16 and space < start + 64 * MEGABYTE:
            ran = run(program, given, space)
            if count <= 20:
                tried.look(f"{count} signs in {space // 1024} KB", ran, whole)
            enough = enough + 1 if ran.status == whole.status else 0
            if ran.status < 0:
                killed.append(space // 1024)
            elif ran.status == NO_MEMORY:
                refused.append(space // 1024)
            elif ran.status != whole.status:
                tried.fail(f"{count} signs in {space // 1024} KB: {ending(ran.status)}")
            space += PAGE
        spans = [f"{min(found)} to {max(found)} KB" if found else "never" for found in (killed, refused)]
        print(f"| {count} | {spans[0]} | {spans[1]} | {(space - 16 * PAGE) // 1024} KB |", flush=True)


def main(words):
    told = {name: next((int(word.split("=")[1]) for word in words if word.startswith(f"--{name}=")), usual) for name, usual in (("mixed", 40), ("seed", 1))}
    program = next(word for word in words if not word.startswith("--"))
    tried = Tried()
    measured(program, tried)
    drawn(program, tried, told["mixed"], random.Random(told["seed"]))
    crowded(program, tried)
    return tried.told()


if __name__ == "__main__":
    sys.exit(main(sys.argv[1:]))
