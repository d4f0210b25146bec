"""Each allocation refused in turn, over lists of lines.

python3 tests/hostile/allocations.py PROGRAM [FOLDER..] [--most=N]: each folder has files NAME.lines; those of
tests/reading/sessions are run whole, the household book translated, too, the first list of each other folder to its 40th line,
and 40 made lines besides. Once alone, and once with all that come after it, each call of malloc and realloc is refused:
refuse.c, which needs a C compiler, stands before the C library. With --most=N only so many of each list's calls are, at even
distances; the first and the last are always. A run has to end as it does without, or with status 6 and the first of the same
replies, and with status 6 where the first call and all later ones are refused; the status is 1 where some run ends otherwise.
It takes four minutes.

python3 tests/hostile/allocations.py --unproved FILE N..: the same of the source that isn't proved, by `rt try --fail-alloc N` for the numbers
N, over one list of lines. Each run takes a minute."""
import glob
import os
import subprocess
import sys
import tempfile

from runs import NO_MEMORY, Ran, Tried, run

HERE = os.path.dirname(os.path.abspath(__file__))
READING = os.path.join(os.path.dirname(HERE), "reading", "sessions")
DESK = os.path.join(os.path.dirname(os.path.dirname(HERE)), "crates", "ic_desk")


def lists_in(folders):
    """The lists of lines, with their names and the words of the program."""
    yield "make 7 40", b"", ("make", "7", "40")
    paths = sorted(glob.glob(os.path.join(READING, "*.lines")))
    household = os.path.join(READING, "household.lines")
    with open(household, "rb") as f:
        yield f"translate de de, {household}", f.read(), ("translate", "de", "de")
    for path in paths + [sorted(glob.glob(os.path.join(folder, "*.lines")))[0] for folder in folders]:
        with open(path, "rb") as f:
            lines = f.readlines()
        yield path, b"".join(lines if path in paths else lines[:40]), ()


def chosen(count, most):
    """The numbers from 1 to count, or some of them."""
    if count <= most:
        return range(1, count + 1)
    return sorted({1 + i * (count - 1) // (most - 1) for i in range(most)})


def refused(program, folders, most):
    tried = Tried()
    with tempfile.TemporaryDirectory() as made:
        shim, counted = os.path.join(made, "refuse.so"), os.path.join(made, "counted")
        subprocess.run(["cc", "-O2", "-shared", "-fPIC", "-o", shim, os.path.join(HERE, "refuse.c")], check=True)
        for path, given, words in lists_in(folders):
            whole = run(program, given, words=words, environment={"LD_PRELOAD": shim, "COUNTED": counted})
            if not words:
                tried.whole(path, given, whole)
            with open(counted, encoding="ascii") as f:
                count = int(f.read())
            os.remove(counted)
            if run(program, given, words=words, environment={"LD_PRELOAD": shim, "REFUSE": "1+"})[:2] != (NO_MEMORY, b""):
                tried.fail(f"{path}: where no call is granted it doesn't end with status 6, or {count} calls aren't all that it makes")
            before = tried.runs, tried.cut
            numbers = chosen(count, most)
            for number in numbers:
                for word in (f"{number}", f"{number}+"):
                    ran = run(program, given, words=words, environment={"LD_PRELOAD": shim, "REFUSE": word})
                    tried.look(f"{path}, refused {word} of {count}", ran, whole)
            print(f"{path}: {whole.output.count(10)} lines of replies, {count} calls, {len(numbers)} refused alone and with the later ones: "
                  f"{tried.runs - before[0]} runs, {tried.cut - before[1]} ended with status 6", flush=True)
    return tried.told()


def tried_unproved(given, words):
    """What the source does, by the last line that `rt try` writes."""
    ran = subprocess.run(["rt", "try", *words], cwd=DESK, input=given, stdout=subprocess.PIPE, stderr=subprocess.PIPE)
    told = ran.stderr.splitlines()[-1:]
    return Ran(ran.returncode if told and b"run=ended" in told[0] else 1000 + ran.returncode, ran.stdout, 0, 0)


def unproved(path, *numbers):
    tried = Tried()
    with open(path, "rb") as f:
        given = f.read()
    whole = tried_unproved(given, [])
    for number in numbers:
        ran = tried_unproved(given, ["--fail-alloc", number])
        tried.look(f"{path}, refused {number}", ran, whole)
        print(f"{number}: status {ran.status}, {ran.output.count(10)} of {whole.output.count(10)} lines", flush=True)
    return tried.told()


def main(words):
    if words[0] == "--unproved":
        return unproved(*words[1:])
    most = next((int(word[len("--most="):]) for word in words if word.startswith("--most=")), 1_000_000)
    program, *folders = (word for word in words if not word.startswith("--"))
    return refused(program, folders, most)


if __name__ == "__main__":
    sys.exit(main(sys.argv[1:]))
