"""What `desk make SEED COUNT` writes, by the definitions of the machine as they were retold here.

python3 tests/reading/made.py SEED COUNT prints it; python3 tests/reading/made.py FILE compares it with each line of the file
(the seed, the count and what is written, tabs between, its own tabs and line feeds escaped)."""
import sys

sys.path.insert(0, __file__.rsplit("/", 1)[0])

from ic_laws.lines import escaped, unescaped  # noqa: E402
from ic_machine.book import core_sheet, new_book  # noqa: E402
from ic_machine.command import COMMANDS  # noqa: E402
from ic_machine.step import machine  # noqa: E402
from ic_tables.sample import SAMPLE  # noqa: E402

PLACES = ["en", "es", "fr", "de", "it"]
REFUSALS = """BadLine InvalidSheet InvalidRow InvalidColumn BadArea OutOfRange SheetIndexTooLarge TargetTooLarge InvalidSheetName
SheetExists SheetNotFound OnlySheet IdLive IdsUsedUp InvalidName InvalidScope NameExists NameNotFound InvalidNameFormula
InvalidFormula NotAFormula BadReference InvalidLocale InvalidLanguage InvalidTimezone MergedPart ArrayPart ClearArray
FrozenNegative TooManyRows TooManyColumns NoFormulaCell SpillBlocked BadWorkbook WouldCapture""".split()


def lines_of(seed, count):
    state = seed

    def draw(bound):
        nonlocal state
        state = (state * 6364136223846793005 + 1442695040888963407) % 2**64
        return (state >> 33) % bound

    def formula(text):
        place = [draw(4), 1 + draw(20), 1 + draw(8)]
        return ["update_cell_with_formula", *place, text()]

    for i in range(1, count + 1):
        kind = draw(8)
        if kind == 0:
            line = ["add_sheet", f"S{i}"]
        elif kind == 1:
            line = ["rename_sheet_by_index", draw(6), f"N{i}"]
        elif kind == 2:
            line = ["move_sheet", draw(6), draw(6)]
        elif kind == 3:
            line = formula(lambda: f"=SUM('S{1 + draw(i)}'!B2)*{draw(100)}")
        elif kind == 4:
            line = formula(lambda: f"=tax+B{1 + draw(9)}")
        elif kind == 5:
            line = ["new_defined_name", "tax", "-", "Sheet1!$A$1"]
        else:
            line = ["set_locale" if kind == 6 else "set_language", PLACES[draw(5)]]
        yield "\t".join(str(word) for word in line)


def summary(seed, count):
    book = new_book(SAMPLE, "en", "en", "UTC", "workbook", "Sheet1")
    accepted, refused = 0, {}
    for line in lines_of(seed, count):
        book, reply = machine(COMMANDS, book, line)
        words = reply.decode().rstrip("\n").split("\t")
        if words[0] == "ok":
            accepted += 1
        else:
            refused[words[1]] = refused.get(words[1], 0) + 1
    told = [("lines", count), ("ok", accepted)]
    told += [("error", name, refused.pop(name)) for name in REFUSALS if name in refused]
    assert not refused, refused
    told += [("sheets", len(book.sheets)), ("formulas", sum(len(core_sheet(sheet).cells) for sheet in book.sheets))]
    return "".join("\t".join(str(word) for word in line) + "\n" for line in told)


def main(words):
    if len(words) == 2:
        sys.stdout.write(summary(int(words[0]), int(words[1])))
        return 0
    bad = 0
    with open(words[0], encoding="utf-8") as rows:
        for row in rows:
            seed, count, wanted = row.rstrip("\n").split("\t")
            given = summary(int(seed), int(count))
            if given != unescaped(wanted):
                bad += 1
                print(seed, count, "wanted", wanted, "given", escaped(given))
    print(f"{bad} rows with differences")
    return 1 if bad else 0


if __name__ == "__main__":
    sys.exit(main(sys.argv[1:]))
