"""One long line for each command that takes a text: time and memory should grow with its length, and with nothing else.

python3 tests/hostile/long_lines.py PROGRAM [BYTES]: each line has so many bytes, 200 million unless told, and half as many. Shown are
the nanoseconds and the bytes of memory that a byte of both takes. The status is 1 where twice the length takes more than three times the time or the
memory, or where a line isn't answered. It takes a minute and a half and 2 GB; with ten million bytes, some seconds."""
import sys
import tempfile

from runs import ending, run_file

# the command with a place for the text, which is a piece as often as it fits, and lines before it
KINDS = [
    ("add_sheet\t{}", "a", ""), ("rename_sheet\tSheet1\t{}", "a", ""), ("rename_sheet\t{}\tB", "é", ""), ("rename_sheet_by_index\t0\t{}", "a", ""),
    ("insert_sheet\t{}\t0\t-", "a", ""), ("delete_sheet_by_name\t{}", "ß", ""), ("new_defined_name\t{}\t-\tSheet1!$A$1", "a", ""), ("new_defined_name\ttax\t-\t{}", "1+", ""),
    ("new_defined_name\ttax\t-\t=LAMBDA(x,{}1)", "x+", ""), ("is_valid_defined_name\ttax\t-\t{}", "(", ""), ("delete_defined_name\t{}\t-", "a", "new_defined_name\ttax\t-\tSheet1!$A$1\n"),
    ("update_defined_name\ttax\t-\ttax\t-\t{}1", "1+", "new_defined_name\ttax\t-\tSheet1!$A$1\n"), ("update_defined_name\ttax\t-\t{}\t-\t1", "a", "new_defined_name\ttax\t-\tSheet1!$A$1\n"),
    ("would_capture\ttax\t-\tlevy\t-\t{}1", "tax+", "new_defined_name\ttax\t-\tSheet1!$A$1\n"), ("set_locale\t{}", "e", ""), ("set_language\t{}", "e", ""), ("set_timezone\t{}", "U", ""),
    ("set_user_input\t0\t1\t1\t{}", "a", ""), ("set_user_input\t0\t1\t1\t{}", "1", ""), ("set_user_input\t0\t1\t1\t={}1", "1+", ""), ("set_user_input\t0\t1\t1\t={}1", "A1+", ""),
    ("update_cell_with_text\t0\t1\t1\t{}", "\\t", ""), ("update_cell_with_formula\t0\t1\t1\t={}1", "SUM(1,", ""), ("update_cell_with_formula\t0\t1\t1\t={}1", "tax*", "new_defined_name\ttax\t-\tSheet1!$A$1\n"),
    ("set_user_array_formula\t0\t1\t1\t1\t1\t={}1", "A1+", ""), ("put_formula_value\t0\t1\t1\tt:{}", "a", "set_user_input\t0\t1\t1\t=1\n"), ("put_spill\t0\t1\t1\t1\t1\tt:{}", "a", "set_user_input\t0\t1\t1\t=A1:A2\n"),
    ("get_cell_value_by_ref\t{}!A1", "a", ""), ("parse_reference\tSheet1!{}", "A", ""), ("extend_copied_value\t={}1\t0\t1\t1\t0\t2\t2", "A1+", ""), ("set_column_style\t0\t1\t{}\t0\t0\t-", "0", ""),
    ("set_row_style\t0\t1\tGeneral\t0\t0\t{}", "F", ""), ("set_sheet_color\t0\t{}", "F", ""), ("set_theme\t{}", "a", ""), ("{}", "a", ""), ("{}", "\t", ""),
]


# what is held of an input that is written piece by piece, so that this interpreter stays small
PIECES = 1 << 16


def spent(program, before, form, piece, size):
    """The run over some lines and a long one, and the last reply."""
    start, end = (part.encode() for part in form.split("{}"))
    text = piece.encode()
    count = size // len(text)
    with tempfile.TemporaryFile() as given, tempfile.TemporaryFile() as output:
        given.write(before.encode() + start)
        many = text * PIECES
        for _ in range(count // PIECES):
            given.write(many)
        given.write(text * (count % PIECES) + end + b"\n")
        given.seek(0)
        ran = run_file(program, given, output)
        output.seek(0)
        replies = 0
        last = b""
        for reply in output:
            replies, last = replies + 1, reply[:30]
        return ran, replies, last


def main(program, most=200_000_000):
    print("| the line | ns a byte, of half | ns a byte | memory a byte, of half | memory a byte | the reply |\n|---|---|---|---|---|---|")
    worst = wrong = 0
    for form, piece, before in KINDS:
        both = []
        for size in (most // 2, most):
            ran, replies, last = spent(program, before, form, piece, size)
            both.append((max(ran.seconds, 0.01), ran.kilobytes))
            if ran.status or replies != before.count("\n") + 1:
                wrong += 1
                print(f"WRONG: {ending(ran.status)} and {replies} replies")
        times = both[1][0] / both[0][0]
        worst = max(worst, times)
        shown = form.format(piece + "..").replace("\t", "→")
        print(f"| `{shown}` | {both[0][0] * 2e9 / most:.1f} | {both[1][0] * 1e9 / most:.1f} | {both[0][1] * 2048 / most:.1f} | {both[1][1] * 1024 / most:.1f} "
              f"| `{last.decode('utf-8', 'replace').strip()}` |", flush=True)
        if times > 3 or both[1][1] > 3 * both[0][1]:
            wrong += 1
            print("WRONG: more than three times as much for twice the length")
    print(f"{len(KINDS)} kinds of lines of {most:,} bytes; at the worst twice the length took {worst:.1f} times the time; {wrong} wrong")
    return 1 if wrong else 0


if __name__ == "__main__":
    sys.exit(main(sys.argv[1], *(int(word) for word in sys.argv[2:])))
