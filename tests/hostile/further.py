"""The shared book, the import and the dump in hostile use: memory, streams and words.

python3 tests/hostile/further.py share|import|dump PROGRAM [--most=N]: PROGRAM is ic_share_desk, ic_import_desk or ic_dump_desk. `share` runs
tests/reading/sessions/household.lines as the lines of three users with languages of their own, between some that are nobody's;
`import` runs a file of a bank in German, and files that are refused; `dump` runs the household book with a sheet deleted, and a text
that would read. In turn: each call of malloc and realloc is refused, alone and with
all that come after it (with --most=N only so many, at even distances); each limit of address space; each read and each
write fails once, in pieces of 1, 7 and 4,096 bytes; each beginning of the input; inputs and outputs that are closed, full, folders or
left; words that are none. A shared book ends as it does unharmed, or with the status for the harm after the first of the same
replies, whole, and after a write that failed after exactly what was taken. An import and a dump end as they do unharmed, or with that
status and nothing written, or exactly what was taken. The status is 1 where some run ends otherwise. Each takes two minutes."""
import os
import signal
import subprocess
import sys
import tempfile

import faults
import streams
from allocations import chosen
from memory import PAGE
from runs import MEGABYTE, NO_MEMORY, Tried, ending, least_that, run

HERE = os.path.dirname(os.path.abspath(__file__))
USERS = (b"ann", b"bo", b"\xc3\xa9")
FIRST = b"ann\tset_language\tde\nbo\tset_language\tit\nnobody\n\tget_language\n\xff\tget_language\nbo\\\tget_language\nAnn\tget_language\n"
BANK = (b"\xef\xbb\xbfDatum;Text;Betrag;Saldo\r\n15/01/2026;\"Miete; Januar\";-750,00;=C2\r\n\r\n16/01/2026;\"sagte \"\"ja\"\"\";1.250,5\xe2\x82\xac;=D2+C3\r\n"
        b"17/01/2026;;12%;=SUMME(C2:C4)\r\n2026-01-18;'12;=WENN(WAHR;1,5;\"nein\");WAHR\r\n;;=1+;=Tabelle1!A1\r\n")
# what is imported, and its words
FILES = {
    "a file of a bank": (BANK, ("de", "de")),
    "the same in English": (BANK, ()),
    "a field that isn't UTF-8": (b"a,b\n" * 20 + b"c,\xff\n", ()),
    "a field outside the sheet": (b"a,b\n" * 20 + b"," * 16384 + b"\n", ()),
    "nothing": (b"", ()),
}


GONE = b"add_sheet\tGone\nnew_defined_name\tlast\t1\tGone!$A$1\nupdate_cell_with_formula\t0\t99\t1\t=Gone!last+gone!B2\ndelete_sheet\t1\n"
# what a dump without lines tells of a new book
NEW = b"rename_sheet_by_index\t0\tSheet1\n"
CANNOT = b"cannot\tRereads\n"


def household():
    with open(faults.HOUSEHOLD, "rb") as f:
        return f.read()


def dumped():
    """What is dumped."""
    return {
        "a book with a sheet deleted": (GONE + household(), ()),
        "a text that would read": (b"set_locale\tfr\nupdate_cell_with_formula\t0\t1\t1\t=SUM(1.5,2)\n", ()),
        "nothing": (b"", ()),
    }


def shared():
    """The lines of the three users."""
    lines = household().splitlines(keepends=True)
    return FIRST + b"".join(USERS[i % len(USERS)] + b"\t" + line for i, line in enumerate(lines))


class Cut(Tried):
    """An import or a dump that lacks memory has written nothing."""

    def __init__(self, kind):
        super().__init__()
        self.kind = kind

    def look(self, what, ran, whole):
        if self.kind == "share":
            return super().look(what, ran, whole)
        self.runs += 1
        self.cut += ran.status == NO_MEMORY
        if ran[:2] not in (whole[:2], (NO_MEMORY, b"")):
            self.fail(f"{what}: {ending(ran.status)}, {len(ran.output)} of {len(whole.output)} bytes; unharmed {ending(whole.status)}")
        return None


def compiled(made, name):
    shim = os.path.join(made, f"{name}.so")
    subprocess.run(["cc", "-O2", "-shared", "-fPIC", "-o", shim, os.path.join(HERE, f"{name}.c")], check=True)
    return shim


def refused(program, name, given, words, most, tried):
    """Each call of malloc and realloc, refused alone and with all later ones."""
    with tempfile.TemporaryDirectory() as made:
        shim, counted = compiled(made, "refuse"), os.path.join(made, "counted")
        whole = run(program, given, words=words, environment={"LD_PRELOAD": shim, "COUNTED": counted})
        with open(counted, encoding="ascii") as f:
            count = int(f.read())
        if run(program, given, words=words, environment={"LD_PRELOAD": shim, "REFUSE": "1+"})[:2] != (NO_MEMORY, b""):
            tried.fail(f"{name}: where no call is granted it doesn't end with status 6")
        for number in chosen(count, most):
            for word in (f"{number}", f"{number}+"):
                ran = run(program, given, words=words, environment={"LD_PRELOAD": shim, "REFUSE": word})
                tried.look(f"{name}, refused {word} of {count}", ran, whole)
    print(f"{name}: {count} calls of malloc and realloc; {tried.runs} runs, {tried.cut} with status 6, {tried.wrong} wrong so far", flush=True)


def in_little(program, name, given, words, tried):
    """Each limit of address space from the least in which the program starts, until 20 in a row were enough: page by page, and for thirty
    times as much by 16 pages."""
    start = least_that(lambda space: run(program, b"", space, MEGABYTE).status == 0, PAGE, 64 * MEGABYTE, PAGE)
    for times, step in ((1, PAGE), (30, 16 * PAGE)):
        many = given * times
        whole = run(program, many, words=words)
        space, enough = start, 0
        while enough < 20 and space < start + 256 * MEGABYTE:
            ran = run(program, many, space, MEGABYTE, words=words)
            tried.look(f"{name}, {times} times, in {space // 1024} KB", ran, whole)
            enough = enough + 1 if ran.status == whole.status else 0
            space += step
        print(f"{name}, {times} times: in {start // 1024} to {space // 1024} KB; {tried.runs} runs, {tried.cut} with status 6, {tried.wrong} wrong so far", flush=True)


def faulty(kind, program, name, given, words, looked):
    """Each read and each write failing once."""
    whole = run(program, given, words=words)
    with tempfile.TemporaryDirectory() as made:
        shim = compiled(made, "faults")
        for size in (1, 7, 4096):
            if kind == "share":
                tries = faults.faulty(program, shim, given, whole.output.splitlines(keepends=True), size)
            else:
                tries = faulty_whole(program, shim, given, words, whole, size)
            for what, ran, status, output in tries:
                looked.look(f"{name}, pieces of {size} bytes, {what}", ran[:2], (status, output))
    print(f"{name}, reads and writes that fail: {looked.runs} runs, {looked.wrong} wrong so far", flush=True)


def faulty_whole(program, shim, given, words, whole, size):
    """The same of an import or a dump, which reads all before it writes."""
    def ran(name, number):
        return run(program, given, words=words, environment={"LD_PRELOAD": shim, "PIECE": str(size), name: str(number)})

    yield "no fault", ran("NONE", 0), *whole[:2]
    for number in range(1, (len(given) + size - 1) // size + 2):
        yield f"read {number}", ran("FAIL_READ", number), faults.READ_FAULT, b""
    taken = faults.pieces([whole.output], size)
    for number in range(1, len(taken) + 1):
        written = b"".join(taken[:number - 1])
        yield f"write {number}", ran("FAIL_WRITE", number), faults.WRITE_FAULT, written
        yield f"write {number} of nothing", ran("NOTHING", number), faults.WRITE_FAULT, written


def ended(program, words, given, **with_streams):
    """The status of a run, what it wrote, and what it said."""
    ran = subprocess.run([program, *words], input=given, stdout=with_streams.get("stdout", subprocess.PIPE), stderr=subprocess.PIPE)
    return ran.returncode, ran.stdout or b"", ran.stderr


def well_told(status, output):
    """Whether all was written, or the one line that tells why not."""
    if status == 7:
        return output == CANNOT
    return output.endswith(b"\tNotUtf8\n") if status == 8 else status == 0 and output.endswith(b"\n")


def streams_of_whole(program, given, words, nothing, looked):
    """Beginnings, and inputs and outputs that are none; where nothing is given, `nothing` is written."""
    for end in range(len(given) + 1):
        status, output, said = ended(program, words, given[:end])
        looked.look(f"the first {end} bytes", (well_told(status, output), said), (True, b""))
    for name, path, flags in (("a folder as the input", HERE, os.O_RDONLY), ("an input that can't be read", os.devnull, os.O_WRONLY)):
        source = os.open(path, flags)
        ran = subprocess.run([program, *words], stdin=source, stdout=subprocess.PIPE, stderr=subprocess.PIPE)
        looked.look(name, (ran.returncode, ran.stdout, ran.stderr), (streams.READ_FAULT, b"", b""))
        os.close(source)
    for redirected, status, output in (("<&-", streams.READ_FAULT, b""), (">&-", streams.WRITE_FAULT, b""), (">/dev/full", streams.WRITE_FAULT, b""),
                                       ("</dev/null", 0, nothing), ("</dev/null >&-", streams.WRITE_FAULT, b"")):
        ran = subprocess.run(["sh", "-c", f"exec '{program}' {' '.join(words)} {redirected}"], input=given, stdout=subprocess.PIPE, stderr=subprocess.PIPE)
        looked.look(redirected, (ran.returncode, ran.stdout, ran.stderr), (status, output, b""))
    reading, writing = os.pipe()
    os.close(reading)
    looked.look("a reader that is gone", ended(program, words, given, stdout=writing), (streams.WRITE_FAULT, b"", b""))
    os.close(writing)


def words_of_dump(program, looked):
    for words in ([""], ["-"], ["--help"], ["run", "en", "en", "UTC"], ["a" * 100_000], ["de"] * 10_000, [b"\xff"]):
        looked.look(f"the words {words[:5]}", ended(program, words, b"a\n"), (streams.USAGE, b"", b""))


def words_of_import(program, looked):
    for wanted, forms in ((streams.USAGE, ([""], ["de"], ["de", "de", ""], ["--help"], ["a" * 100_000], ["de"] * 10_000, [b"\xff", b"de"], [b"de", b"\xc3"])),
                          (2, (["", ""], ["xx", "de"], ["de", "xx"], ["DE", "de"], ["de", "de "], ["e" * 100_000, "de"]))):
        for words in forms:
            looked.look(f"the words {words[:5]}", ended(program, words, b"a\n"), (wanted, b"", b""))


def main(kind, program, *options):
    signal.alarm(3600)
    program = os.path.abspath(program)
    most = next((int(word[len("--most="):]) for word in options if word.startswith("--most=")), 1_000_000)
    files = {"share": lambda: {"three users": (shared(), ())}, "import": lambda: FILES, "dump": dumped}[kind]()
    tried, looked = Cut(kind), streams.Looked()
    for name, (given, words) in files.items():
        refused(program, name, given, words, most, tried)
        in_little(program, name, given, words, tried)
        faulty(kind, program, name, given, words, looked)
    if kind == "share":
        for part in (streams.inputs, streams.outputs, streams.slow_reader):
            part(program, shared(), looked)
        streams.words(program, looked)
    elif kind == "dump":
        streams_of_whole(program, GONE + household(), (), NEW, looked)
        words_of_dump(program, looked)
    else:
        streams_of_whole(program, BANK, ("de", "de"), b"\n", looked)
        words_of_import(program, looked)
    print(f"streams and words: {looked.runs} runs, of which {looked.wrong} ended as none may")
    return 1 if looked.wrong or tried.told() else 0


if __name__ == "__main__":
    sys.exit(main(*sys.argv[1:]))
