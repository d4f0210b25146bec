"""Each read and each write failing once, in pieces of 1, 7 and 4,096 bytes.

python3 tests/hostile/faults.py PROGRAM [LIST]: the list of lines is that of tests/reading/sessions/household.lines unless told. faults.c,
which needs a C compiler, stands before the C library: each read gives and each write takes so many bytes at most, and for each number one read fails, or one
write fails or takes nothing. Where a read failed the status has to be 3, and written have to be the replies to the lines that were
ended by then, whole; where a write failed the status has to be 4, and written exactly what the writes before it took. The status is
1 where some run ends otherwise. It takes half a minute."""
import os
import subprocess
import sys
import tempfile

from runs import ending, run

HERE = os.path.dirname(os.path.abspath(__file__))
HOUSEHOLD = os.path.join(os.path.dirname(HERE), "reading", "sessions", "household.lines")

READ_FAULT = 3
WRITE_FAULT = 4


def pieces(replies, size):
    """What each write takes: each reply by itself, in pieces."""
    return [reply[at:at + size] for reply in replies for at in range(0, len(reply), size)]


def faulty(program, shim, given, replies, size):
    """Each run with one fault: its name, the run, and the status and the output that are wanted."""
    def ran(name, number):
        return run(program, given, environment={"LD_PRELOAD": shim, "PIECE": str(size), name: str(number)})

    yield "no fault", ran("NONE", 0), 0, b"".join(replies)
    # the last read is the one that finds the end
    for number in range(1, (len(given) + size - 1) // size + 2):
        ended = given[:(number - 1) * size].count(10)
        yield f"read {number}", ran("FAIL_READ", number), READ_FAULT, b"".join(replies[:ended])
    taken = pieces(replies, size)
    for number in range(1, len(taken) + 1):
        written = b"".join(taken[:number - 1])
        yield f"write {number}", ran("FAIL_WRITE", number), WRITE_FAULT, written
        yield f"write {number} of nothing", ran("NOTHING", number), WRITE_FAULT, written


def main(program, path=HOUSEHOLD):
    with open(path, "rb") as f:
        given = f.read()
    whole = run(program, given)
    replies = whole.output.splitlines(keepends=True)
    if whole.status or len(replies) != len(given.splitlines()):
        print(f"WRONG: {ending(whole.status)} and {len(replies)} replies without a fault")
        return 1
    runs = wrong = 0
    with tempfile.TemporaryDirectory() as made:
        shim = os.path.join(made, "faults.so")
        subprocess.run(["cc", "-O2", "-shared", "-fPIC", "-o", shim, os.path.join(HERE, "faults.c")], check=True)
        for size in (1, 7, 4096):
            for what, ran, status, output in faulty(program, shim, given, replies, size):
                runs += 1
                if (ran.status, ran.output) != (status, output):
                    wrong += 1
                    print(f"WRONG: pieces of {size} bytes, {what}: {ending(ran.status)} with {ran.output[-60:]!r}, wanted status {status} "
                          f"with {output[-60:]!r}", flush=True)
            print(f"pieces of {size} bytes: {runs} runs, {wrong} wrong so far", flush=True)
    print(f"{runs} runs, of which {wrong} ended as none may")
    return 1 if wrong or whole.status else 0


if __name__ == "__main__":
    sys.exit(main(*sys.argv[1:]))
