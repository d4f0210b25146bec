"""Types formulas in each notation, shows them in each other one, and compares.

python3 tests/words/formulas.py PROGRAM FORMULAS: FORMULAS has a formula on each line, in English and with commas, as it is typed; a backslash,
a tab and an end of line within one stand as in command lines. The program answers command lines with the tables of all functions, as ic_desk_all.

Each formula is typed in a cell in English, shown in each of five notations, and typed there in a cell of its own. Each of
the five cells must then show the same text as the first in each notation. Formulas that don't read are told apart by `translate`.
The status is 1 where a text differs."""
import subprocess
import sys

NOTATIONS = ("en", "es", "fr", "de", "it")
AT_ONCE = 1000


class Desk:
    def __init__(self, program):
        self.program = program

    def run(self, lines, *words):
        text = "".join("\t".join(map(str, line)) + "\n" for line in lines)
        done = subprocess.run([self.program, *words], input=text.encode(), capture_output=True)
        return done.stdout.decode().split("\n")[:-1]

    def unread(self, formulas):
        """The places of those that can't be written in another notation, since they don't read."""
        found, left = [], list(range(len(formulas)))
        while True:
            lines = [typed(formulas[at], row, 1) for row, at in enumerate(left, 1)]
            told = self.run(lines, "translate", "de", "de")[0].split("\t")
            if told[0] != "cannot":
                return found
            found.append(left.pop(int(told[1]) - 1))


def typed(text, row, column):
    return ("update_cell_with_formula", 0, row, column, text)


def in_notation(notation):
    return [("set_locale", notation), ("set_language", notation)]


def texts(replies):
    """The formulas of replies."""
    return [reply.split("\t", 1)[1] if reply.startswith("ok\t") else None for reply in replies]


def shown_in(desk, lines, notation, column, count):
    """What the cells of a column show in a notation, after these lines."""
    asked = in_notation(notation) + [("get_cell_formula", 0, row, column) for row in range(1, count + 1)]
    return texts(desk.run(lines + asked)[-count:])


def differing(desk, formulas):
    """How many of these show otherwise in some notation after they were typed in some notation."""
    count = len(formulas)
    first = [typed(text, row, 1) for row, text in enumerate(formulas, 1)]
    by_notation = {notation: shown_in(desk, first, notation, 1, count) for notation in NOTATIONS}
    differs = set()
    for own in NOTATIONS:
        again = first + in_notation(own) + [typed(text, row, 2) for row, text in enumerate(by_notation[own], 1)]
        for other in NOTATIONS:
            shown = shown_in(desk, again, other, 2, count)
            for row, (one, two) in enumerate(zip(by_notation[other], shown)):
                if one is None or one != two:
                    differs.add(row)
                    print("\t".join(("differs", own, other, formulas[row], str(one), str(two))))
    changed = sum(by_notation["en"][row] != by_notation["de"][row] for row in range(count))
    return len(differs), changed


def main(words):
    if len(words) != 2:
        print(__doc__, file=sys.stderr)
        return 2
    desk = Desk(words[0])
    with open(words[1], encoding="utf-8") as it:
        formulas = it.read().split("\n")[:-1]
    lost = unread = changed = 0
    for at in range(0, len(formulas), AT_ONCE):
        some = formulas[at:at + AT_ONCE]
        out = desk.unread(some)
        unread += len(out)
        read = [text for place, text in enumerate(some) if place not in out]
        differ, other = differing(desk, read)
        lost, changed = lost + differ, changed + other
    print(f"{len(formulas)} formulas, {unread} of them don't read; of the others {changed} show otherwise in German, {lost} differ after they were typed again")
    return 1 if lost else 0


if __name__ == "__main__":
    sys.exit(main(sys.argv[1:]))
