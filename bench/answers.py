"""Answers the lines of a file through the Python package so often on a new book each, and prints the nanoseconds of processor
time that the least round took: a line a call by `answer`, or all in one by `run_bytes`.

    answers.py answer|run FILE ROUNDS
"""
import os
import sys
import time

sys.path.insert(0, f"{os.path.dirname(os.path.realpath(__file__))}/../python")
from lurvetta import Book  # noqa: E402

with open(sys.argv[2], "rb") as it:
    given = it.read()
lines, least = given.decode().splitlines(), None
for _ in range(int(sys.argv[3])):
    with Book() as book:
        begun = time.process_time_ns()
        if sys.argv[1] == "run":
            book.run_bytes(given)
        else:
            answer = book.answer
            for line in lines:
                answer(line)
        took = time.process_time_ns() - begun
    least = took if least is None else min(took, least)
print(least)
