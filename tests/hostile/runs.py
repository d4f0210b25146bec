"""Runs of the program over files, under limits: what the other scripts here share."""
import os
import resource
import signal
import subprocess
import sys
import tempfile
from typing import NamedTuple

MEGABYTE = 1 << 20

# the seconds of the processor after which a run is ended by SIGXCPU: no run that ends by itself takes as long
MOST_SECONDS = 1800

# the status where memory ran out
NO_MEMORY = 6


class Ran(NamedTuple):
    """The status (below 0 for a signal), what was written, the seconds of the processor, and the most memory in KB.
    The memory is at least what this interpreter itself holds, so a script that asks for it keeps its own small."""
    status: int
    output: bytes
    seconds: float
    kilobytes: int


def limited(space, stack):
    """Sets the limits, in bytes, of address space and of stack in the process that becomes the program."""
    def limit():
        resource.setrlimit(resource.RLIMIT_CORE, (0, 0))
        resource.setrlimit(resource.RLIMIT_CPU, (MOST_SECONDS, MOST_SECONDS + 1))
        if stack is not None:
            resource.setrlimit(resource.RLIMIT_STACK, (stack, stack))
        if space is not None:
            resource.setrlimit(resource.RLIMIT_AS, (space, space))
    return limit


def run_file(program, given, output, space=None, stack=None, words=(), environment=None):
    """Runs the program from one open file into another; what Ran has, without what was written."""
    child = subprocess.Popen([program, *words], stdin=given, stdout=output, stderr=subprocess.DEVNULL, env=environment,
                             preexec_fn=limited(space, stack))
    _, ended, used = os.wait4(child.pid, 0)
    child.returncode = os.waitstatus_to_exitcode(ended)
    return Ran(child.returncode, b"", used.ru_utime + used.ru_stime, used.ru_maxrss)


def run(program, given, space=None, stack=None, words=(), environment=None):
    """Runs the program over bytes."""
    with tempfile.TemporaryFile() as source, tempfile.TemporaryFile() as sink:
        source.write(given)
        source.seek(0)
        ran = run_file(program, source, sink, space, stack, words, environment)
        sink.seek(0)
        return ran._replace(output=sink.read())


def ending(status):
    """A status in words."""
    return f"status {status}" if status >= 0 else f"signal {signal.Signals(-status).name}"


def is_cut(ran, whole):
    """Whether a run ended as it may where memory is short: as the whole one, or with status 6 and its first replies, whole."""
    if ran.status == whole.status:
        return ran.output == whole.output
    return ran.status == NO_MEMORY and whole.output.startswith(ran.output) and ran.output[-1:] in (b"", b"\n")


def least_that(holds, low, high, step):
    """The least of low, low + step, .. for which it holds; it has to hold for high."""
    if not holds(high):
        sys.exit(f"WRONG: it doesn't hold for {high} bytes either")
    while high - low > step:
        middle = low + (high - low) // (2 * step) * step
        low, high = (low, middle) if holds(middle) else (middle, high)
    return high


class Tried:
    """Counts the runs, and shows those that end as they mustn't."""

    def __init__(self):
        self.runs = self.cut = self.wrong = 0

    def fail(self, what):
        self.wrong += 1
        print(f"WRONG: {what}", flush=True)

    def look(self, what, ran, whole):
        self.runs += 1
        self.cut += ran.status == NO_MEMORY
        if whole.status or not is_cut(ran, whole):
            self.fail(f"{what}: {ending(ran.status)}, {len(ran.output)} of {len(whole.output)} bytes; without limits {ending(whole.status)}")

    def whole(self, what, given, ran):
        """The run without limits, which has to have one reply for each line."""
        lines = given.count(b"\n") + (given[-1:] not in (b"", b"\n"))
        if ran.status or ran.output.count(b"\n") != lines:
            self.fail(f"{what}, without limits: {ending(ran.status)}, {ran.output.count(10)} replies to {lines} lines")
        return ran

    def told(self):
        """The status of the script, with the counts written."""
        print(f"{self.runs} runs, of which {self.cut} ended with status 6 and {self.wrong} as none may")
        return 1 if self.wrong or not self.runs else 0
