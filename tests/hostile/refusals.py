"""Finds a row of cases for each refusal, and looks whether the rows that two pages name say what these say: docs/REFUSALS.md and
tests/hostile/REFUSED.md.

python3 tests/hostile/refusals.py [ROWS ANSWERS].. [--table]: the rows are those of crates/ic_cases and
crates/ic_text_cases (stdin and stdout), and of the files told besides. For each command of docs/COMMANDS.md each refusal that it lists, and a bad line, has to have a row; and in the tables of
the two pages each row has to be answered with its refusal. With --table it writes the table of REFUSED.md anew, in which
commands with the same rows share a line. The status is 1 where something is missing. It takes a second."""
import os
import re
import sys

TOP = os.path.dirname(os.path.dirname(os.path.dirname(os.path.abspath(__file__))))


# what the cells of the table refer to
LIKEWISE = {
    "as `new_defined_name`": "new_defined_name", "as `update_defined_name`, except the last": "update_defined_name",
}


def text_of(*path):
    with open(os.path.join(TOP, *path), encoding="utf-8") as f:
        return f.read()


def asked(text):
    """Each command with its refusals in their order, from the table of docs/COMMANDS.md."""
    found, before = {}, []
    for line in text.splitlines():
        cells = [cell.strip() for cell in re.split(r"(?<!\\)\|", line)]
        if not line.startswith("| `") or len(cells) < 6:
            continue
        commands, last = re.findall(r"`([a-z_]+)", cells[1]), cells[4]
        names = re.findall(r"`([A-Z][a-z]+[A-Za-z]*)`", last)
        if last in LIKEWISE:
            names = found[LIKEWISE[last]][:-1] if "except" in last else found[LIKEWISE[last]]
        elif last.startswith("likewise, and last"):
            names = before + names
        elif last == "likewise":
            names = before
        for command in commands:
            own = names
            if "then `InvalidColumn` or `InvalidRow`" in last or last == "likewise" and before == ["InvalidSheet", "InvalidColumn", "InvalidRow"]:
                own = ["InvalidSheet", "InvalidColumn" if "column" in command else "InvalidRow"]
            found[command] = own
        before = names
    return found


def readable(row):
    """Rows that can be read come first: no empty words, no blank at the end, no escapes, plain letters, and short."""
    return "\\t\\t" in row + "\\t" or row.endswith(" "), "\\\\" in row, not row.isascii(), len(row)


def as_shown(row):
    """A row as docs/REFUSALS.md writes it: a command line alone, tabs as arrows."""
    if row.startswith("line\t"):
        row = row[len("line\t"):].replace("\\t", "→")
    return row.replace("\t", "→").replace("|", "\\|")


def shown(rows):
    """The most readable row for each command that is refused with each error, and the errors of each row as it is shown."""
    lines, answers = {}, {}
    for row, answer in rows:
        words, said = row.split("\t"), answer.split("\t")
        if row.startswith("#"):
            continue
        answers.setdefault(as_shown(row), set()).add(" ".join(said[:2]) if said[0] == "condition" else said[1] if said[0] == "error" else said[0])
        if words[0] == "line" and len(words) == 2 and said[0] == "error":
            key = (words[1].split("\\t")[0], said[1])
            lines[key] = min(lines.get(key, words[1]), words[1], key=readable)
    return lines, answers


def table(tellings):
    """The table of commands: a line for all commands with the same rows, in the order of docs/COMMANDS.md."""
    groups = {}
    for command, pairs in tellings.items():
        said = "; ".join(f"`{words}` {refusal}" if words else refusal for words, refusal in pairs)
        groups.setdefault(said, []).append(f"`{command}`")
    for said, commands in groups.items():
        print(f"| {', '.join(commands)} | {said} |")


def told(text):
    """The rows of cases that docs/REFUSALS.md names, each with its refusal: the last table has the words of the commands' rows, the
    one before it whole rows behind their refusals."""
    for line in text.splitlines():
        cells = [cell.strip() for cell in re.split(r"(?<!\\)\|", line)][1:-1]
        if len(cells) == 4 and cells[-1].startswith("`"):
            yield cells[1].strip("`"), cells[-1].strip("`")
        elif len(cells) == 2 and cells[0].startswith("`"):
            for command in re.findall(r"`([a-z_]+)`", cells[0]):
                for words, refusal in re.findall(r"(?:`([^`]*)` )?([A-Z][A-Za-z]+)(?:; |$)", cells[1]):
                    yield refusal, f"{command}→{words}" if words else command


def main(words):
    paths = [os.path.join(TOP, "crates", crate, name) for crate in ("ic_cases", "ic_text_cases") for name in ("stdin", "stdout")]
    paths += [word for word in words if not word.startswith("--")]
    rows = []
    for stdin, stdout in zip(paths[::2], paths[1::2]):
        with open(stdin, encoding="utf-8", newline="\n") as questions, open(stdout, encoding="utf-8", newline="\n") as answers:
            rows += list(zip(questions.read().split("\n"), answers.read().split("\n")))
    lines, answers = shown(rows)
    count = wrong = 0
    tellings = {}
    for command, refusals in asked(text_of("docs", "COMMANDS.md")).items():
        for refusal in refusals + ["BadLine"]:
            count += 1
            if (command, refusal) not in lines:
                wrong += 1
                print(f"no row: {command} refused with {refusal}")
            elif refusal != "BadLine":
                shown_line = lines[command, refusal].replace("\\t", "→").replace("|", "\\|")
                tellings.setdefault(command, []).append((shown_line[len(command) + 1:], refusal))
    if "--table" in words:
        table(tellings)
    named = 0
    for refusal, row in told(text_of("docs", "REFUSALS.md") + text_of("tests", "hostile", "REFUSED.md")):
        named += 1
        if refusal not in answers.get(row, ()):
            wrong += 1
            print(f"{row} isn't answered with {refusal}, but with {answers.get(row, 'nothing: no such row')}")
    print(f"{count} refusals of commands and {named} rows of the pages, {wrong} wrong")
    return 1 if wrong else 0


if __name__ == "__main__":
    sys.exit(main(sys.argv[1:]))
