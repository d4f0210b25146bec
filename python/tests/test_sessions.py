"""Lists of lines with their replies: those of the repository, and those of the folders that SESSIONS names."""
import glob
import os

import pytest

from lurvetta import Book

TOP = os.path.dirname(os.path.dirname(os.path.dirname(os.path.realpath(__file__))))
FOLDERS = [f"{TOP}/tests/reading/sessions", *os.environ.get("SESSIONS", "").split()]
LISTS = sorted(path for folder in FOLDERS for path in glob.glob(f"{folder}/*.lines"))


@pytest.mark.parametrize("path", LISTS)
def test_list(path):
    with open(path, "rb") as it:
        lines = it.read()
    with open(f"{path[:-6]}.replies", "rb") as it:
        replies = it.read()
    with Book() as book:
        assert book.run_bytes(lines) == replies
