"""Makes the rows of ic_desk_all: each word of each function in each language, and each function's kind.

python3 tests/words/rows.py [--check]: reads tests/words/functions.tsv, which says where each word comes from, and writes crates/ic_desk_all/stdin
and stdout. With --check it only tells whether they are so, by its status.

Ten functions at a time stand in one formula. It is typed in English and shown in each language, typed in each language and
shown in English and in that language. A formula of functions that take their arguments whole is dynamic for no argument,
one of a function cell by cell is for a range alone, one of a dynamic function for any: only a dynamic formula takes an array."""
import os
import sys

HERE = os.path.dirname(os.path.abspath(__file__))
CRATE = os.path.join(os.path.dirname(os.path.dirname(HERE)), "crates", "ic_desk_all")
LANGUAGES = ("en", "es", "fr", "de", "it")
AT_ONCE = 10


def functions():
    """Each function by number: its kind, and its word in each language."""
    with open(os.path.join(HERE, "functions.tsv"), encoding="utf-8") as it:
        rows = [line.rstrip("\n").split("\t") for line in it][1:]
    assert [int(row[0]) for row in rows] == list(range(len(rows)))
    return [(row[1], dict(zip(LANGUAGES, row[2:7]))) for row in rows]


def call(words, language, arguments):
    """A call of a function. LET and LAMBDA have arguments of their own."""
    special = {"LET": "(a,1,a)", "LAMBDA": "(a,a)(1)"}
    return words[language] + special.get(words["en"], f"({arguments})")


def formula(some, language, arguments="1"):
    return "=" + "+".join(call(words, language, arguments) for words in some)


def groups(some):
    return [some[at:at + AT_ONCE] for at in range(0, len(some), AT_ONCE)]


class Rows:
    def __init__(self):
        self.lines, self.replies = [], []

    def add(self, *words, reply="ok"):
        self.lines.append("\t".join(str(word) for word in words))
        self.replies.append(reply)

    def put_words(self, all_groups):
        """Cells of column 1 are typed in English; those of column 2 in a language, over those of the one before."""
        for row, some in enumerate(all_groups, 1):
            self.add("update_cell_with_formula", 0, row, 1, formula(some, "en"))
        for language in LANGUAGES:
            self.add("set_language", language)
            for row, some in enumerate(all_groups, 1):
                self.add("get_cell_formula", 0, row, 1, reply="ok\t" + formula(some, language))
                self.add("update_cell_with_formula", 0, row, 2, formula(some, language))
            self.add("set_language", "en")
            for row, some in enumerate(all_groups, 1):
                self.add("get_cell_formula", 0, row, 2, reply="ok\t" + formula(some, "en"))

    def put_kind(self, some, arguments, dynamic):
        """Whether a formula of these is dynamic. The cell is empty before and after."""
        self.add("update_cell_with_formula", 0, 1, 9, formula(some, "en", arguments))
        self.add("put_spill", 0, 1, 9, 1, 1, "n:1", reply="ok" if dynamic else "error\tNoFormulaCell")

    def put_kinds(self, all_functions):
        whole, each, dynamic = ([words for kind, words in all_functions if kind == letter and words["en"] not in ("LET", "LAMBDA")]
                                for letter in "WED")
        for some in groups(whole):
            self.put_kind(some, "C1:C2", False)
        for some in groups(each):
            self.put_kind(some, "C1", False)
        for words in each:
            self.put_kind([words], "C1:C2", True)
        for words in dynamic:
            self.put_kind([words], "C1", True)


def made():
    rows = Rows()
    all_functions = functions()
    rows.put_words(groups([words for _, words in all_functions]))
    rows.put_kinds(all_functions)
    return ["".join(line + "\n" for line in lines) for lines in (rows.lines, rows.replies)]


def main(words):
    if words not in ([], ["--check"]):
        print(__doc__, file=sys.stderr)
        return 2
    same = True
    for name, text in zip(("stdin", "stdout"), made()):
        path = os.path.join(CRATE, name)
        if words:
            with open(path, encoding="utf-8") as it:
                same = same and it.read() == text
        else:
            with open(path, "w", encoding="utf-8") as it:
                it.write(text)
    return 0 if same else 1


if __name__ == "__main__":
    sys.exit(main(sys.argv[1:]))
