"""Little memory: lists of every kind, and lists and lines that grow, under limits of address space, with 1 MB of stack.

python3 tests/hostile/memory.py PROGRAM [FOLDER..]: each folder has files NAME.lines, whose first 200 lines are run under each limit
of address space from the least one in which the program starts, page by page, until 64 limits in a row were enough; those of
tests/reading/sessions always. Then lists that grow in each direction, and long lines, run within 4 MB, 16 MB and 64 MB. A run may
end as it does without a limit, or with status 6 and the first of the same replies. Last, short lines that ask for gigabytes have to end
with status 6 within 64 MB, after the replies to the lines before. The status is 1 where some run ends otherwise. No formula here is
deep: stack.py tries those. It takes half a minute, and 2 GB."""
import glob
import os
import sys

from runs import MEGABYTE, NO_MEMORY, Tried, ending, least_that, run

HERE = os.path.dirname(os.path.abspath(__file__))
PAGE = 4096

# a line of the number i
GROWING = {
    "texts": "set_user_input\t0\t{i}\t1\tcell number {i}",
    "numbers": "update_cell_with_number\t0\t{i}\t1\t{i}",
    "one formula": "set_user_input\t0\t{i}\t1\t=SUM(A$1:B$2)*1.5",
    "formulas": "set_user_input\t0\t{i}\t1\t=SUM(A$1:B$2)*{i}",
    "formulas that don't read": "set_user_input\t0\t{i}\t1\t=SUM(A$1:B$2)*{i}+",
    "sheets": "add_sheet\tSheet number {i}",
    "definitions": "new_defined_name\tname_{i}\t-\tSheet1!$A${i}",
    "styles": "set_row_style\t0\t{i}\t0.00 \"of {i}\"\t0\t1\t#FF8800",
    "widths": "set_row_height\t0\t{i}\t{i}",
    "arrays": "set_user_array_formula\t0\t{i}\t1\t16384\t1\t=A1",
}

# how many lines; those of the kinds that aren't named grow to FOR_EVER
COUNTS = {"sheets": 4_000, "definitions": 4_000, "arrays": 200}
FOR_EVER = 400_000

# a line of so many bytes
LONG = {
    "a text": "set_user_input\t0\t1\t1\t{}",
    "a formula": "set_user_input\t0\t1\t1\t={}1",
    "a theme": "set_theme\t{}",
    "no command": "{}",
}


# lines of which the last one asks for so much that it is never tried without a limit
HUGE = {
    "rows up to the last cell of a sheet": ["set_user_input\t0\t1048576\t16384\t1", "get_sheet_markup\t0"],
    "an array of a whole sheet": ["set_user_array_formula\t0\t1\t1\t16384\t1048576\t=A1"],
    "an array of a thousand columns": ["set_user_array_formula\t0\t1\t1\t1000\t1048576\t=A1"],
    "a long name for what is mentioned often": ["new_defined_name\ttax\t-\tSheet1!$A$1", "set_user_input\t0\t1\t1\t=SUM(" + "tax," * 10_000 + "tax)",
                                                "update_defined_name\ttax\t-\t" + "a" * 200_000 + "\t-\tSheet1!$A$1"],
}


def huge(program, tried):
    for name, lines in HUGE.items():
        ran = run(program, ("\n".join(lines) + "\n").encode(), 64 * MEGABYTE, MEGABYTE)
        tried.look(f"{name} in 64 MB", ran, ran._replace(status=0, output=b"ok\n" * len(lines)))
        if ran.status != NO_MEMORY or ran.output != b"ok\n" * (len(lines) - 1):
            tried.fail(f"{name} in 64 MB: {ending(ran.status)} and {len(ran.output)} bytes")
        print(f"{name}: in 64 MB {ending(ran.status)} after {ran.output.count(10)} lines, {ran.seconds:.1f} seconds", flush=True)


def in_pages(program, start, given, name, tried):
    """Under each limit from the least one on, page by page, until 64 limits in a row were enough."""
    whole = tried.whole(name, given, run(program, given))
    space, enough = start, 0
    while enough < 64:
        if space > start + 64 * MEGABYTE:
            return tried.fail(f"{name}: no end in {space // MEGABYTE} MB")
        ran = run(program, given, space, MEGABYTE)
        tried.look(f"{name} in {space // 1024} KB", ran, whole)
        enough = enough + 1 if ran.status == whole.status else 0
        space += PAGE


def grown(program, start, tried):
    """Lists and lines that grow, within a few limits."""
    for name, form in GROWING.items():
        given = "".join(form.format(i=i) + "\n" for i in range(1, COUNTS.get(name, FOR_EVER) + 1)).encode()
        whole = tried.whole(name, given, run(program, given))
        for space in (4 * MEGABYTE, start + 4 * MEGABYTE, 16 * MEGABYTE, 64 * MEGABYTE):
            ran = run(program, given, space, MEGABYTE)
            tried.look(f"{name} in {space // 1024} KB", ran, whole)
            print(f"{name}: {space // 1024} KB: {ending(ran.status)} after {ran.output.count(10)} of {whole.output.count(10)} lines", flush=True)
    for name, form in LONG.items():
        for size in (1 << shift for shift in range(16, 27, 2)):
            given = ("add_sheet\tA\n" + form.format("1+" * (size // 2)) + "\nadd_sheet\tB\n").encode()
            whole = tried.whole(name, given, run(program, given))
            for space in (4 * MEGABYTE, start + 4 * MEGABYTE, 64 * MEGABYTE):
                tried.look(f"{name} of {size} bytes in {space // 1024} KB", run(program, given, space, MEGABYTE), whole)


def main(program, *folders):
    start = least_that(lambda space: run(program, b"", space, MEGABYTE).status == 0, PAGE, 64 * MEGABYTE, PAGE)
    print(f"the program starts in {start // 1024} KB of address space")
    tried = Tried()
    for folder in (os.path.join(os.path.dirname(HERE), "reading", "sessions"), *folders):
        for path in sorted(glob.glob(os.path.join(folder, "*.lines"))):
            with open(path, "rb") as f:
                given = b"".join(f.readlines()[:200])
            in_pages(program, start, given, path, tried)
    print(f"page by page: {tried.runs} runs, {tried.cut} cut, {tried.wrong} wrong", flush=True)
    grown(program, start, tried)
    huge(program, tried)
    return tried.told()


if __name__ == "__main__":
    sys.exit(main(*sys.argv[1:]))
