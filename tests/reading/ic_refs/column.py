"""How a column is written."""
from ic_laws.position import LAST_COLUMN, letters_number
from ic_laws.scan import is_upper


def column_letters(n):
    letters = ""
    while n > 0:
        n, digit = divmod(n - 1, 26)
        letters = chr(ord("A") + digit) + letters
    return letters


def column_number(text):
    """The column that letters in upper case name, or the name of an error."""
    if text == "":
        return "Empty"
    if not all(ord(c) < 128 for c in text):
        return "NotAscii"
    if not all(is_upper(c) for c in text):
        return "NotLetters"
    number = letters_number(text)
    return number if number <= LAST_COLUMN else "NotValid"
