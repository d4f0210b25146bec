"""Characters of names and formulas, and the runs of them at the front of a text."""
import unicodedata

# Letters that are alphabetic though they are of no category L or Nl. Python has no table of the property Alphabetic;
# marks that have it are left out here.
CIRCLED = ((0x24B6, 0x24E9), (0x1F130, 0x1F149), (0x1F150, 0x1F169), (0x1F170, 0x1F189))


def is_upper(c):
    return "A" <= c <= "Z"


def is_ascii_letter(c):
    return is_upper(c) or "a" <= c <= "z"


def is_letter(c):
    return c.isalpha() or unicodedata.category(c) == "Nl" or any(a <= ord(c) <= b for a, b in CIRCLED)


def is_digit(c):
    return "0" <= c <= "9"


def is_blank(c):
    return c in " \t\n\r"


def is_plain(c):
    return is_letter(c) or is_digit(c) or c in "_."


def is_word_character(c):
    return is_plain(c) or c == "\\"


def begins_word(c):
    return is_letter(c) or c in "_\\"


def first_is(p, text):
    return text != "" and p(text[0])


def past_dollar(text):
    return text[1:] if text.startswith("$") else text


def run_of(p, text):
    for i, c in enumerate(text):
        if not p(c):
            return text[:i]
    return text


def past_run(p, text):
    return text[len(run_of(p, text)):]


def between(mark, text):
    return mark + text.replace(mark, mark + mark) + mark


def all_ascii_digits(text):
    return all(is_digit(c) for c in text)


def digits_value(text):
    return int(text) if text else 0
