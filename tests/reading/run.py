"""Runs sessions of command lines by the definitions of the machine, as they were retold here, and compares the replies.

python3 tests/reading/run.py FOLDER.. [--no-names-behind-sheets] [--core] [--without=WORD]: each folder has files NAME.lines with the
lines and NAME.replies with the replies that are wanted. With --core the identity machine answers, with its commands alone; commands
with a word in their name can be left out. The first difference of each session is shown; the status is 1 where there is one."""
import glob
import os
import sys
import threading

sys.path.insert(0, os.path.dirname(os.path.abspath(__file__)))

from ic_laws import tokens  # noqa: E402
from ic_laws.lines import line_text, lines_of  # noqa: E402
from ic_machine.book import new_book  # noqa: E402
from ic_machine.command import COMMANDS, CORE_COMMANDS  # noqa: E402
from ic_machine.step import core_machine, machine  # noqa: E402
from ic_tables.sample import SAMPLE  # noqa: E402


def read(path):
    with open(path, "rb") as f:
        return f.read()


def replies_to(lines, one_step=machine, rows=COMMANDS):
    book = new_book(SAMPLE, "en", "en", "UTC", "workbook", "Sheet1")
    for line in lines:
        book, reply = one_step(rows, book, line_text(line))
        yield reply


def differences(lines, replies, one_step=machine, rows=COMMANDS):
    """The numbers of the lines whose reply is another than the one that is wanted, with both."""
    for i, reply in enumerate(replies_to(lines, one_step, rows)):
        wanted = replies[i] + b"\n" if i < len(replies) else b""
        if reply != wanted:
            yield i, reply, wanted


def show(name, lines, found):
    i, reply, wanted = found[0]
    print(f"{name}: {len(found)} replies differ, first that to line {i + 1}")
    print("  line  ", lines[i].decode("utf-8", "replace"))
    print("  wanted", wanted.decode("utf-8", "replace").rstrip("\n"))
    print("  given ", reply.decode("utf-8", "replace").rstrip("\n"))


def main(words):
    tokens.READS_LOCALS = "--no-names-behind-sheets" not in words
    one_step, rows = (core_machine, CORE_COMMANDS) if "--core" in words else (machine, COMMANDS)
    for word in words:
        if word.startswith("--without="):
            rows = [row for row in rows if word[len("--without="):] not in row[0]]
    sessions = bad = count = 0
    for folder in (word for word in words if not word.startswith("--")):
        for path in sorted(glob.glob(os.path.join(folder, "*.lines"))):
            lines = lines_of(read(path))
            found = list(differences(lines, read(path[:-len("lines")] + "replies").split(b"\n")[:-1], one_step, rows))
            sessions, count = sessions + 1, count + len(lines)
            if found:
                bad += 1
                show(path, lines, found)
    print(f"{sessions} sessions, {count} lines, {bad} sessions with differences")
    return 1 if bad else 0


if __name__ == "__main__":
    sys.setrecursionlimit(1000000)
    sys.set_int_max_str_digits(0)
    threading.stack_size(512 * 1024 * 1024)
    status = []
    thread = threading.Thread(target=lambda: status.append(main(sys.argv[1:])))
    thread.start()
    thread.join()
    sys.exit(status[0] if status else 2)
