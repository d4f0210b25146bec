#!/usr/bin/env python3
"""Answers lists of lines through the library for C and through the Python package, and compares the replies.

  tests/bindings/sessions.py LINES FOLDER..

LINES is the program of tests/bindings/lines.c; a folder has files *.lines, each with its *.replies. For each folder it prints
how many lists and lines there are and how many replies differ: in one call, a line a call into rooms of 65,536, 16 and 0
bytes, and through Python by `run_bytes` and by `answer`. It ends with 1 where one way differs from another.
"""
import glob
import os
import subprocess
import sys

TOP = os.path.dirname(os.path.dirname(os.path.dirname(os.path.realpath(__file__))))
sys.path.insert(0, f"{TOP}/python")
from lurvetta import Book  # noqa: E402


def c_ways(program):
    for words in (("run",), ("answer", "65536"), ("answer", "16"), ("answer", "0")):
        yield " ".join(words), lambda given, words=words: subprocess.run(
            [program, *words], input=given, capture_output=True, check=True
        ).stdout


def by_run(given):
    with Book() as book:
        return book.run_bytes(given)


def by_answer(given):
    """A line a call; a line that isn't UTF-8 is the empty one."""
    lines = given.split(b"\n")
    last = lines.pop()
    lines = [it[:-1] if it.endswith(b"\r") else it for it in lines] + [last] * bool(last)
    with Book() as book:
        return b"".join(f"{book.answer(text_of(it))}\n".encode() for it in lines)


def text_of(line):
    try:
        return line.decode()
    except UnicodeDecodeError:
        return ""


def main(program, *folders):
    ways = [*c_ways(program), ("python run", by_run), ("python answer", by_answer)]
    wrong = 0
    for folder in folders:
        lists = lines = 0
        differ = dict.fromkeys(name for name, _ in ways)
        for name in differ:
            differ[name] = 0
        for path in sorted(glob.glob(f"{folder}/*.lines")):
            with open(path, "rb") as it:
                given = it.read()
            with open(f"{path.removesuffix('.lines')}.replies", "rb") as it:
                wanted = it.read().split(b"\n")
            lists, lines = lists + 1, lines + len(wanted) - 1
            answers = [(name, way(given)) for name, way in ways]
            wrong += sum(answer != answers[0][1] for _, answer in answers)
            for name, answer in answers:
                got = answer.split(b"\n")
                differ[name] += sum(a != b for a, b in zip(wanted, got)) + abs(len(wanted) - len(got))
        told = ", ".join(f"{name} {count}" for name, count in differ.items())
        print(f"{os.path.basename(os.path.normpath(folder))}: {lists} lists, {lines} lines; differ: {told}", flush=True)
    return 1 if wrong else 0


if __name__ == "__main__":
    sys.exit(main(*sys.argv[1:]))
