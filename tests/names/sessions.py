#!/usr/bin/env python3
"""Whether name_index has each sheet and each definition of the book, and nothing else, after each line of lists.

sessions.py PROGRAM [FOLDER..] [--lists=N] [--seed=N]: PROGRAM is ic_cases; FOLDERs hold lists (*.lines).
"""
import glob
import random
import subprocess
import sys

NAMES = ["Data", "data 2", "Été", "STRASSE", "straße", "Tabelle1", "ΣΊΣΥΦΟΣ", "İl", "x", "My Data", "ﬁn", "Ǆ"]
WORDS = ["Tax", "TAX", "tax_1", "Été", "rate", "STRASSE", "straße", "Zoll", "σς", "Name.1", "_x", "ﬁn"]
BODIES = ["=Data!$A$1", "=1+2", "=Été!B2", "=Tax*2", "=rate+TAX", "=x!A1", "=SUM(A1:B2)"]


def escaped(text):
    return text.replace("\\", "\\\\").replace("\t", "\\t").replace("\n", "\\n").replace("\r", "\\r")


def unescaped(word):
    out, at = [], 0
    while at < len(word):
        if word[at] == "\\":
            out.append({"t": "\t", "n": "\n", "r": "\r"}.get(word[at + 1], word[at + 1]))
            at += 1
        else:
            out.append(word[at])
        at += 1
    return "".join(out)


def drawn(rng, count=200):
    """Lines on sheets and definitions, some of which are refused."""
    lines, sheets = [], 1
    for _ in range(count):
        at = rng.randrange(sheets + 1)
        scope = rng.choice(["-", "-", str(rng.randrange(sheets + 1))])
        word, other = rng.choice(WORDS), rng.choice(WORDS)
        kind = rng.randrange(14)
        if kind < 2:
            sheets += 1
            lines.append(f"add_sheet\t{rng.choice(NAMES)}{rng.choice(['', str(rng.randrange(9))])}")
        elif kind < 4:
            lines.append(f"rename_sheet_by_index\t{at}\t{rng.choice(NAMES)}")
        elif kind == 4:
            lines.append(f"move_sheet\t{at}\t{rng.randrange(sheets + 1)}")
        elif kind == 5:
            sheets = max(1, sheets - 1)
            lines.append(f"delete_sheet\t{at}")
        elif kind == 6:
            sheets += 1
            lines.append(f"insert_sheet\t{rng.choice(NAMES)}\t{at}\t{rng.choice(['-', str(rng.randrange(1, 30))])}")
        elif kind == 7:
            sheets += 1
            lines.append(rng.choice(["new_sheet", f"duplicate_sheet\t{at}"]))
        elif kind < 11:
            lines.append(f"new_defined_name\t{word}\t{scope}\t{rng.choice(BODIES)}")
        elif kind == 11:
            lines.append(f"update_defined_name\t{word}\t{scope}\t{other}\t{rng.choice(['-', scope])}\t{rng.choice(BODIES)}")
        elif kind == 12:
            lines.append(f"delete_defined_name\t{word}\t{scope}")
        else:
            lines.append(f"update_cell_with_formula\t{at}\t1\t1\t=Tax+Data!A1+x!rate")
    return lines


def text_of(line):
    """The text of a line; None where it is no UTF-8: such a line is no command."""
    try:
        return line.decode()
    except UnicodeDecodeError:
        return None


def triples(fields, size):
    return [tuple(fields[at:at + size]) for at in range(0, len(fields) - 1, size)]


def index_told(answer):
    """The sheets and the names of an answer to name_index."""
    words = answer.rstrip("\t").split("\t")
    sheets, names, at = {}, {}, 0
    while at < len(words):
        if words[at] == "sheet":
            sheets[unescaped(words[at + 1])] = int(words[at + 2])
            at += 3
        else:
            names[unescaped(words[at + 1]), words[at + 2]] = int(words[at + 3])
            at += 4
    return sheets, names


def sheets_listed(answer):
    """The folded names of the sheets with their ids, of a reply to get_worksheets_properties."""
    words = answer.split("\t")
    assert words[0] == "ok", answer
    each = triples(words[1:] + [""], 4)
    return {unescaped(name).casefold(): int(id) for name, _, _, id in each}, len(each)


def names_listed(answer):
    words = answer.split("\t")
    each = triples(words[1:] + [""], 3)
    assert len(each) == int(words[0]), answer
    return {(unescaped(name).casefold(), scope): at for at, (name, scope, _) in enumerate(each)}, len(each)


def run(program, lines):
    rows = ["new_empty\ten\ten\tUTC"]
    for line in lines:
        rows.append("line\t" + escaped(line))
        rows += ["name_index", "line\tget_worksheets_properties", "workbook\tnames"]
    done = subprocess.run([program], input="\n".join(rows) + "\n", capture_output=True, text=True, check=True)
    answers = done.stdout.split("\n")[1:-1]
    assert len(answers) == 4 * len(lines), (len(answers), len(lines))
    wrong = 0
    for at, line in enumerate(lines):
        _, index, sheets, names = answers[4 * at:4 * at + 4]
        found, named = index_told(index)
        want, count = sheets_listed(sheets)
        want_named, count_named = names_listed(names)
        if found != want or named != want_named or len(want) != count or len(want_named) != count_named:
            print(f"after line {at + 1}, {line!r}: {found} {named}, wanted {want} {want_named}")
            wrong += 1
    kept = sum(answers[4 * at].startswith("ok") for at in range(len(lines)))
    return wrong, kept


def main(words):
    options = dict(it[2:].split("=") for it in words if it.startswith("--"))
    program, *folders = [it for it in words if not it.startswith("--")]
    lists = []
    for folder in folders:
        for file in sorted(glob.glob(f"{folder}/*.lines")):
            with open(file, "rb") as it:
                lists.append([text for text in map(text_of, it.read().split(b"\n")[:-1]) if text is not None])
    rng = random.Random(int(options.get("seed", 1)))
    lists += [drawn(rng) for _ in range(int(options.get("lists", 20)))]
    wrong = lines = kept = 0
    for it in lists:
        bad, ok = run(program, it)
        wrong, lines, kept = wrong + bad, lines + len(it), kept + ok
    print(f"{len(lists)} lists, {lines} lines, {kept} of them accepted: after {wrong} the index was not the lists'")
    return 1 if wrong else 0


if __name__ == "__main__":
    sys.exit(main(sys.argv[1:]))
