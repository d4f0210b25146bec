"""Streams that fail: inputs that come in pieces, end or fail, and outputs that are closed, full or left by their reader.

python3 tests/hostile/streams.py PROGRAM [LIST]: the list of lines is that of tests/reading/sessions/household.lines unless told. The
input comes in pieces of 1, 7 and 4,096 bytes, with pauses and without, and while the program is stopped and goes on; each of its
beginnings is given as a whole input; it is a folder, closed, or nothing, or a pipe that doesn't wait for bytes; the output is closed, a full disk (/dev/full), or a pipe whose reader goes away after so many bytes, or reads slowly.
The status has to be that of docs/GUIDE.md: 0, 3 where a read failed, 4 where a write did, 1 for words that are none; what was written
has to be the replies, or a part of them, and nothing may go to standard error. The status is 1 where some run ends otherwise. It takes a
quarter of a minute."""
import os
import random
import signal
import subprocess
import sys
import threading
import time

HERE = os.path.dirname(os.path.abspath(__file__))
HOUSEHOLD = os.path.join(os.path.dirname(HERE), "reading", "sessions", "household.lines")

READ_FAULT = 3
WRITE_FAULT = 4
USAGE = 1


class Looked:
    """Counts the runs, and shows those that end as they mustn't."""

    def __init__(self):
        self.runs = self.wrong = 0

    def look(self, what, ended, wanted):
        self.runs += 1
        if ended != wanted:
            self.wrong += 1
            print(f"WRONG: {what}: {str(ended)[:300]}, wanted {str(wanted)[:300]}", flush=True)


def begun(program, **streams):
    return subprocess.Popen([program], stderr=subprocess.PIPE, **streams)


def in_pieces(program, given, size, pause):
    """The status and what was written, the input given so many bytes at once; the output is read meanwhile."""
    child = begun(program, stdin=subprocess.PIPE, stdout=subprocess.PIPE)
    read = []
    reader = threading.Thread(target=lambda: read.append(child.stdout.read()))
    reader.start()
    for at in range(0, len(given), size):
        os.write(child.stdin.fileno(), given[at:at + size])
        if pause and random.randrange(100) == 0:
            time.sleep(pause)
    child.stdin.close()
    reader.join()
    return child.wait(), read[0], child.stderr.read()


def whole(program, given):
    ran = subprocess.run([program], input=given, stdout=subprocess.PIPE, stderr=subprocess.PIPE)
    return ran.returncode, ran.stdout, ran.stderr


def left_by_reader(program, given, taken):
    """A pipe whose reader goes away after so many bytes; the rest of the input comes then. SIGPIPE is left as it is by default."""
    reading, writing = os.pipe()
    child = begun(program, stdin=subprocess.PIPE, stdout=writing)
    os.close(writing)
    lines = given.splitlines(keepends=True)
    got = b""
    try:
        for line in lines:
            if reading is not None and len(got) >= taken:
                os.close(reading)
                reading = None
            os.write(child.stdin.fileno(), line)
            if reading is not None:
                got += os.read(reading, 65536)
        child.stdin.close()
    except BrokenPipeError:
        pass
    if reading is not None:
        os.close(reading)
    return child.wait(), got, child.stderr.read()


def stopped_and_continued(program, given):
    """The status and what was written, where the program is stopped before each line, and goes on after it was given."""
    child = begun(program, stdin=subprocess.PIPE, stdout=subprocess.PIPE)
    written = b""
    for line in given.splitlines(keepends=True):
        child.send_signal(signal.SIGSTOP)
        os.write(child.stdin.fileno(), line)
        child.send_signal(signal.SIGCONT)
        written += child.stdout.readline()
    child.stdin.close()
    written += child.stdout.read()
    return child.wait(), written, child.stderr.read()


def without_waiting(program, given):
    """The same with a pipe of which a read fails where it would have to wait: one list, and then nothing, which isn't its end."""
    reading, writing = os.pipe()
    os.set_blocking(reading, False)
    os.write(writing, given)
    child = begun(program, stdin=reading, stdout=subprocess.PIPE)
    os.close(reading)
    ended = *child.communicate(), child.returncode
    os.close(writing)
    return ended


def inputs(program, given, looked):
    wanted = whole(program, given)
    looked.look("the list as a whole", wanted[::2], (0, b""))
    for size in (1, 7, 4096):
        for pause in (0, 0.001):
            looked.look(f"pieces of {size} bytes", in_pieces(program, given, size, pause), wanted)
    looked.look("stopped and continued", stopped_and_continued(program, given), wanted)
    looked.look("a pipe that doesn't wait", without_waiting(program, given), (wanted[1], b"", READ_FAULT))
    for end in range(0, len(given) + 1, 1):
        part = whole(program, given[:end])
        complete = given[:end].count(10)
        replies = wanted[1].splitlines(keepends=True)[:complete]
        rest = part[1][len(b"".join(replies)):]
        as_it_is = part[0] == 0 and part[1].startswith(b"".join(replies)) and rest.count(10) == (not given[:end].endswith(b"\n") and end > 0)
        looked.look(f"the first {end} bytes", (as_it_is, part[2]), (True, b""))
    folder = os.open(HERE, os.O_RDONLY)
    child = begun(program, stdin=folder, stdout=subprocess.PIPE)
    looked.look("a folder as the input", (*child.communicate(), child.returncode), (b"", b"", READ_FAULT))
    os.close(folder)
    closed = subprocess.run(["sh", "-c", f"exec '{program}' <&-"], stdout=subprocess.PIPE, stderr=subprocess.PIPE)
    looked.look("a closed input", (closed.returncode, closed.stdout, closed.stderr), (READ_FAULT, b"", b""))
    nothing = subprocess.run([program], stdin=subprocess.DEVNULL, stdout=subprocess.PIPE, stderr=subprocess.PIPE)
    looked.look("nothing as the input", (nothing.returncode, nothing.stdout, nothing.stderr), (0, b"", b""))
    write_only = os.open(os.devnull, os.O_WRONLY)
    child = begun(program, stdin=write_only, stdout=subprocess.PIPE)
    looked.look("an input that can't be read", (*child.communicate(), child.returncode), (b"", b"", READ_FAULT))
    os.close(write_only)


def outputs(program, given, looked):
    wanted = whole(program, given)[1]
    with open("/dev/full", "wb") as full:
        child = begun(program, stdin=subprocess.PIPE, stdout=full)
        looked.look("a full disk", (child.communicate(given)[1], child.returncode), (b"", WRITE_FAULT))
    with open(os.devnull, "rb") as read_only:
        child = begun(program, stdin=subprocess.PIPE, stdout=read_only)
        looked.look("an output that can't be written", (child.communicate(given)[1], child.returncode), (b"", WRITE_FAULT))
    for shape, stop in ((f"exec '{program}' >&-", WRITE_FAULT), (f"exec '{program}' >&- 2>&-", WRITE_FAULT)):
        closed = subprocess.run(["sh", "-c", shape], input=given, stderr=subprocess.PIPE)
        looked.look("a closed output", (closed.returncode, closed.stderr), (stop, b""))
    nothing = subprocess.run(["sh", "-c", f"exec '{program}' >&-"], input=b"", stderr=subprocess.PIPE)
    looked.look("a closed output and no lines", (nothing.returncode, nothing.stderr), (0, b""))
    for taken in [1, *range(10, len(wanted) - 100, 37)]:
        status, got, said = left_by_reader(program, given, taken)
        looked.look(f"a reader that goes away after {taken} bytes", (status, said, wanted.startswith(got)), (WRITE_FAULT, b"", True))


def slow_reader(program, given, looked):
    """A reader that takes a few bytes at a time from a pipe that is full, and then goes away."""
    long_list = given * 200
    wanted = whole(program, long_list)[1]
    for taken in (1, 70_000, len(wanted) // 2, len(wanted) + 1):
        child = begun(program, stdin=subprocess.PIPE, stdout=subprocess.PIPE)
        writer = threading.Thread(target=feed, args=(child.stdin, long_list))
        writer.start()
        got = b""
        while len(got) < taken:
            piece = os.read(child.stdout.fileno(), 997)
            if not piece:
                break
            got += piece
        child.stdout.close()
        status = child.wait()
        writer.join()
        ends = 0 if taken > len(wanted) else WRITE_FAULT
        looked.look(f"a slow reader of {taken} bytes", (status, child.stderr.read(), wanted.startswith(got)), (ends, b"", True))


def feed(stream, given):
    try:
        stream.write(given)
        stream.close()
    except BrokenPipeError:
        pass


def words(program, looked):
    for given in ([""], ["run"], ["run", "en", "en"], ["run", "en", "en", "UTC", ""], ["Run", "en", "en", "UTC"], ["--help"], ["a" * 100_000], ["run"] * 10_000):
        ran = subprocess.run([program, *given], input=b"get_locale\n", stdout=subprocess.PIPE, stderr=subprocess.PIPE)
        looked.look(f"the words {given[:5]}", (ran.returncode, ran.stdout, ran.stderr), (USAGE, b"", b""))
    for given in ([b"\xff"], [b"run", b"en", b"en", b"\xc3"]):
        ran = subprocess.run([program.encode(), *given], input=b"get_locale\n", stdout=subprocess.PIPE, stderr=subprocess.PIPE)
        looked.look(f"the words {given}", (ran.returncode, ran.stdout, ran.stderr), (USAGE, b"", b""))
    for given in (["run", "xx", "en", "UTC"], ["run", "en", "EN", "UTC"], ["run", "en", "en", "utc"], ["run", "", "", ""], ["run", "e" * 100_000, "en", "UTC"]):
        ran = subprocess.run([program, *given], input=b"get_locale\n", stdout=subprocess.PIPE, stderr=subprocess.PIPE)
        looked.look(f"the words {given[:5]}", (ran.returncode, ran.stdout, ran.stderr), (2, b"", b""))


def main(program, path=HOUSEHOLD):
    random.seed(1)
    # a run that waits for ever ends this one by SIGALRM
    signal.alarm(1200)
    program = os.path.abspath(program)
    with open(path, "rb") as f:
        given = f.read()
    looked = Looked()
    for part in (inputs, outputs, slow_reader):
        part(program, given, looked)
        print(f"{part.__name__}: {looked.runs} runs, {looked.wrong} wrong so far", flush=True)
    words(program, looked)
    print(f"{looked.runs} runs, of which {looked.wrong} ended as none may")
    return 1 if looked.wrong else 0


if __name__ == "__main__":
    sys.exit(main(*sys.argv[1:]))
