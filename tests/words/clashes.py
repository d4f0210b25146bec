"""Asks for each word of each language whether a name that is spelled so clashes with each language.

python3 tests/words/clashes.py PROGRAM: PROGRAM answers command lines, as ic_desk_all does. In English `=WORD(1)` calls a name where
WORD isn't a word of English. It can't be written in a language that has the word, and can in every other one. A word that is
a cell, as GDA2 of German, is left out: before `(` it doesn't read in English. The status is 1 where something is otherwise."""
import re
import subprocess
import sys

from rows import LANGUAGES, functions


def told(program, lines, language):
    """What `translate` writes of these lines."""
    done = subprocess.run([program, "translate", "en", language], input="".join(lines).encode(), capture_output=True)
    return done.stdout.decode().split("\n")[:-1]


def main(words):
    if len(words) != 1:
        print(__doc__, file=sys.stderr)
        return 2
    of = {language: {words[language] for _, words in functions()} for language in LANGUAGES}
    names = sorted(it for it in set().union(*of.values()) - of["en"] if not re.fullmatch("[A-Z]{1,3}[0-9]+", it))
    clashes = bad = 0
    for language in LANGUAGES:
        def line(name):
            return f"update_cell_with_formula\t0\t1\t1\t={name}(1)\n"

        own = [name for name in names if name in of[language]]
        others = [line(name) for name in names if name not in of[language]]
        for name in own:
            clashes += 1
            if told(words[0], [line(name)], language) != ["cannot\t1\tClash"]:
                bad += 1
                print(f"{name} doesn't clash with {language}")
        if len(told(words[0], others, language)) != 2 + len(others):
            bad += 1
            print(f"another word clashes with {language}")
    print(f"{len(names)} names, {clashes} clashes, {bad} with differences")
    return 1 if bad else 0


if __name__ == "__main__":
    sys.exit(main(sys.argv[1:]))
