#!/usr/bin/env python3
"""Tries what docs/GUIDE.md says by example of the shared book, of records, of dumps and of the evaluator.

  tests/pages/tried.py SHARE IMPORT DUMP SUMS    the programs: ic_share_desk, ic_import_desk, ic_dump_desk and ic_sums_desk

The lines of users with their replies, the bank's file with its sheet, each row of bytes with its records, the dump of a book
and of that dump, the values of formulas, and both gateways: the named pipe, and sockets, where socat is installed. It prints what comes out otherwise, and ends
with 1 where something does."""
import os
import re
import shutil
import subprocess
import sys
import tempfile
import time

GUIDE = os.path.join(os.path.dirname(os.path.realpath(__file__)), "../../docs/GUIDE.md")
SAMPLE = os.path.join(os.path.dirname(os.path.realpath(__file__)), "../../sample.lines")
wrong = 0


def section(title):
    """The text of the guide under a title, up to the next one."""
    with open(GUIDE, encoding="utf-8") as it:
        return re.search(rf"^#+ {title}\n(.*?)(?=^#|\Z)", it.read(), re.M | re.S)[1]


def rows(text):
    """The first two columns of the rows of the tables, without their heads."""
    cells = [re.split(r"(?<!\\) \| ", it.strip("| ") + " | ") for it in text.split("\n") if it.startswith("| ") and "`" in it]
    return [(it[0].strip(), it[1].strip()) for it in cells]


def blocks(text):
    """The indented blocks."""
    return ["".join(line[4:] + "\n" for line in it.strip("\n").split("\n")) for it in re.findall(r"(?:^    .*\n)+", text, re.M)]


def same(what, wanted, got):
    global wrong
    if wanted != got:
        wrong += 1
        print(f"{what}: {got!r}, and not {wanted!r}")


def run(program, given, *words):
    return subprocess.run([program, *words], input=given.encode(), stdout=subprocess.PIPE, check=True).stdout.decode()


def try_users(program):
    table = [(a.strip("`").replace("→", "\t"), b.strip("`").replace("→", "\t")) for a, b in rows(section("Two people, one book"))]
    replies = run(program, "".join(f"{line}\n" for line, _ in table)).splitlines()
    same("lines of users", len(table), len(replies))
    for (line, wanted), got in zip(table, replies):
        same(line, wanted, got)


def try_gateways(program):
    pipe, sockets = (it.replace("crates/ic_share_desk/out/ic_share_desk", program) for it in blocks(section("A gateway")))
    with tempfile.TemporaryDirectory() as room:
        said = subprocess.run(["bash", "-c", pipe + "exec 3>&-\nwait\ncat replies"], cwd=room, stdout=subprocess.PIPE, check=True, text=True)
        same("the named pipe", "ok\nok\ten\n", said.stdout)
    if not shutil.which("socat"):
        print("socat isn't installed: the gateway over sockets isn't tried")
        return
    with tempfile.TemporaryDirectory() as room:
        gateway = subprocess.Popen(["bash", "-c", sockets.replace("\nsocat", "\nexec socat")], cwd=room)
        time.sleep(2)
        for user, lines, wanted in (("Ana", "set_language\tde\nget_language\n", "ok\nok\tde\n"), ("Ben", "get_language\n", "ok\ten\n")):
            same(f"{user} over a socket", wanted, run("socat", f"{user}\n{lines}", "-t", "5", "-", "TCP:127.0.0.1:7070"))
        gateway.terminate()
        gateway.wait()


def bytes_of(cell):
    """The bytes that a cell of the table of records tells."""
    text = cell.partition(", and the end")[0].partition(", with")[0].replace("a byte order mark, then ", "\ufeff").replace("`", "")
    return re.sub(r" ?LF ?", "\n", re.sub(r" ?CR ?", "\r", text))


def records_of(cell):
    """The records that it tells, each by its fields."""
    return [re.findall(r"\[([^\]]*)\]", re.sub(r" ?LF ?", "\n", it.replace("`", ""))) for it in cell.split("`, `")]


def sheet_of(records):
    """The sheet as text, of records whose fields are plain texts."""
    wide = max(map(len, records))
    return "\n".join("|".join([*it, *[""] * (wide - len(it))]) for it in records) + "\n"


def try_records(program):
    text = section("A file of records")
    file, sheet = blocks(text)[:2]
    same("the bank's file", sheet, run(program, file, "de", "de"))
    for given, told in rows(text):
        told = re.sub(r"`[^`]*$", "", told)
        if " and ` " in given:
            for one, its in zip(given.split(" and "), told.split("`, `")):
                same(one, sheet_of(records_of(its)), run(program, bytes_of(one) + "\n"))
        else:
            same(given, sheet_of(records_of(told)), run(program, bytes_of(given)))


def try_dump(program):
    lines, told = (it.replace("→", "\t") for it in blocks(section("A book as text"))[:2])
    same("the dump of a book", told, run(program, lines))
    same("the dump of a dump", told, run(program, told))


def try_sums(program):
    lines, values, of_sample = (it.replace("→", "\t") for it in blocks(section("A small evaluator")))
    same("the evaluated lines", values, run(program, lines))
    with open(SAMPLE, encoding="utf-8") as it:
        same("the evaluated sample", of_sample, run(program, it.read()))


if len(sys.argv) != 5:
    sys.exit(__doc__)
share, imports, dump, sums = (os.path.realpath(it) for it in sys.argv[1:])
try_users(share)
try_gateways(share)
try_records(imports)
try_dump(dump)
try_sums(sums)
print("examples of the guide:", f"{wrong} wrong" if wrong else "all as told")
sys.exit(wrong > 0)
