"""Translates lists of command lines into five notations, runs what they become there, and compares the books that are left.

python3 tests/words/translated.py PROGRAM FOLDER..: PROGRAM answers command lines, as ic_desk_all does, and each list is a file NAME.lines of a folder. A
line that can't be translated is taken out, and the rest goes on. Both books are asked for their sheets, definitions and
cells, in the notation and in English; not for styles, which a translation may leave otherwise. The status is 1 where the
answers differ."""
import glob
import os
import subprocess
import sys

NOTATIONS = ("en", "es", "fr", "de", "it")
OF_BOOK = ["get_worksheets_properties", "get_defined_name_list", "get_locale", "get_language", "get_all_cells"]
OF_CELL = ("get_cell_formula", "get_localized_cell_content", "get_cell_type", "get_cell_value_by_index")


class Desk:
    def __init__(self, program):
        self.program = program

    def run(self, lines, *words):
        done = subprocess.run([self.program, *words], input=b"".join(line + b"\n" for line in lines), capture_output=True)
        return done.stdout.split(b"\n")[:-1]

    def translated(self, lines, notation):
        """The lines that can be translated, and what they become."""
        left = list(lines)
        while True:
            told = self.run(left, "translate", notation, notation)
            if not told[0].startswith(b"cannot\t"):
                return left, told
            del left[int(told[0].split(b"\t")[1]) - 1]

    def answers(self, lines, notation):
        """What the book after these lines answers in a notation."""
        asked = [f"set_locale\t{notation}", f"set_language\t{notation}", *OF_BOOK]
        book = self.run(lines + [it.encode() for it in asked])[-len(asked):]
        fields = book[-1].decode().split("\t")[1:]
        cells = ["\t".join(fields[at:at + 3]) for at in range(0, len(fields), 3)]
        asked_of_cells = [f"{call}\t{cell}".encode() for cell in cells for call in OF_CELL]
        of_cells = self.run(lines + [it.encode() for it in asked[:2]] + asked_of_cells)
        return book, dict(zip(asked_of_cells, of_cells[len(of_cells) - len(asked_of_cells):]))


def main(words):
    if len(words) < 2:
        print(__doc__, file=sys.stderr)
        return 2
    desk, lists, became, out, bad = Desk(words[0]), 0, 0, 0, 0
    for path in sorted(it for folder in words[1:] for it in glob.glob(os.path.join(folder, "*.lines"))):
        with open(path, "rb") as it:
            lines = it.read().split(b"\n")[:-1]
        for notation in NOTATIONS:
            left, told = desk.translated(lines, notation)
            lists, became, out = lists + 1, became + len(told), out + len(lines) - len(left)
            for own in {notation, "en"}:
                if desk.answers(left, own) != desk.answers(told, own):
                    bad += 1
                    print(f"{path} to {notation}: the books answer otherwise in {own}")
    print(f"{lists} translations, {became} lines, {out} taken out, {bad} with differences")
    return 1 if bad else 0


if __name__ == "__main__":
    sys.exit(main(sys.argv[1:]))
