"""The table of one subject: rows of a name, what the words after it are, and the command that they make."""
from .word import words_said


def named(english, rows, name, words):
    for row_name, forms, command in rows:
        if row_name == name:
            values = words_said(english, forms, words)
            return None if values is None else command(*values)
    return None


def spelled(english, rows, words):
    return named(english, rows, words[0], words[1:])
