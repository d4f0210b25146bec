#!/usr/bin/env python3
"""Gives ./desk words, streams, terminals and missing tools, and looks at what it says, where, and how it ends.

  tests/scripts/desk_words.py

It works with a copy of ./desk in a new folder. Shell scripts play the program and the toolchain, so nothing is compiled.
It prints a line for each thing that it tried, and ends with 1 where one went wrong.
"""
import os
import pty
import select
import shutil
import signal
import subprocess
import sys
import tempfile
import time

TOP = os.path.dirname(os.path.dirname(os.path.dirname(os.path.realpath(__file__))))
# A shell that runs this in the background has these ignored, and what is ignored can't be trapped below.
for it in (signal.SIGINT, signal.SIGQUIT, signal.SIGHUP):
    signal.signal(it, signal.SIG_DFL)
# Plays the toolchain: `rt version`, and `rt try -- WORDS`, which tells the words and the input, and ends as it is told to.
RT = """#!/bin/bash
if [ "$1" = version ]; then echo "played-kit logic 0123"; exit 0; fi
echo "in $(basename "$PWD") with $*"
echo "began" > "$PLAYED/began"
cat
trap 'echo told > "$PLAYED/told"; exit 143' TERM
for turn in $(seq "$(cat "$PLAYED/turns" 2> /dev/null || echo 0)"); do sleep 0.1; done
cat "$PLAYED/last" >&2 2> /dev/null || printf 'notes that nobody needs\nrun=ended proved=no\n' >&2
exit "$(cat "$PLAYED/status" 2> /dev/null || echo 0)"
"""
# Plays the program that ./build makes.
PROGRAM = """#!/bin/bash
echo "program with $*"
echo "began" > "$PLAYED/began"
[ "${1-}" = make ] || cat
[ ! -e "$PLAYED/waits" ] || exec sleep 20
[ ! -e "$PLAYED/faults" ] || { ulimit -c 0; kill -SEGV $$; }
exit "$(cat "$PLAYED/status" 2> /dev/null || echo 0)"
"""
RIGHT = [
    [],
    ["run", "de", "de", "Europe/Berlin"],
    ["run", "", "", ""],
    ["run", "--help", "help", "-h"],
    ["make", "7", "2000"],
    ["make", "0", "0"],
    ["make", "0018446744073709551615", "0010000"],
    ["translate", "de", "fr"],
    ["translate", "xx", "yy"],
]
WRONG = [
    ["foo"],
    [""],
    ["run"],
    ["run", "de", "de"],
    ["run", "de", "de", "UTC", "more"],
    ["Run", "de", "de", "UTC"],
    ["make"],
    ["make", "7"],
    ["make", "7", "10001"],
    ["make", "7", "-1"],
    ["make", "+7", "1"],
    ["make", "", "1"],
    ["make", "7", "1 "],
    ["make", "7", "١"],
    ["make", "18446744073709551616", "1"],
    ["make", "100000000000000000000", "1"],
    ["make", "7", "20", "3"],
    ["translate", "de"],
    ["translate", "de", "de", "UTC"],
    ["--verbose"],
    ["-v"],
    ["versions"],
]
wrong = 0


def found(what, faults):
    global wrong
    wrong += bool(faults)
    print(f"{what}: {'; '.join(faults) or 'as it should be'}", flush=True)


class Desk:
    def __init__(self, folder, built):
        self.top, self.played, self.temp, self.bin = (f"{folder}/{it}" for it in ("top", "played", "temp", "bin"))
        parts = [f"{self.top}/crates/{crate}/{part}" for crate in ("ic_desk", "ic_desk_all") for part in ("src", "specs", "proofs")]
        for it in (*parts, self.played, self.temp, self.bin):
            os.makedirs(it)
        with open(f"{TOP}/desk", encoding="utf-8") as it:
            text = it.read()
        assert "\ntick=10 " in text and "most=$((64 << 20))" in text
        self.write(f"{self.top}/desk", text.replace("\ntick=10 ", "\ntick=1 ").replace("$((64 << 20))", "1000"))
        self.write(f"{self.top}/crates/ic_desk/src/main.rt", "// nothing\n")
        self.write(f"{self.bin}/rt", RT)
        if built:
            time.sleep(0.02)
            self.write(f"{self.top}/crates/ic_desk/out/ic_desk", PROGRAM)
            self.write(f"{self.top}/crates/ic_desk_all/out/ic_desk_all", PROGRAM.replace("program with", "all with"))
        self.env = {**os.environ, "PATH": f"{self.bin}:{os.environ['PATH']}", "PLAYED": self.played, "TMPDIR": self.temp}

    def write(self, name, text):
        os.makedirs(os.path.dirname(name), exist_ok=True)
        with open(name, "w", encoding="utf-8") as it:
            it.write(text)
        os.chmod(name, 0o755)

    def play(self, name, text=""):
        self.write(f"{self.played}/{name}", text)

    def unplay(self, name):
        os.remove(f"{self.played}/{name}")

    def began(self):
        try:
            self.unplay("began")
            return True
        except FileNotFoundError:
            return False

    def run(self, *words, given=b"a\tb\n", **more):
        how = {"stdout": subprocess.PIPE, "stderr": subprocess.PIPE, "env": self.env, "timeout": 60, **more}
        if "stdin" not in how:
            how["input"] = given
        it = subprocess.run([f"{self.top}/desk", *words], **how)
        return it.returncode, (it.stdout or b"").decode(), (it.stderr or b"").decode()

    def left(self):
        return ["temporary files are left"] * bool(os.listdir(self.temp))


def at_terminal(desk, words, typed, seconds, streams):
    """Runs ./desk with some of its streams at a terminal, types, and answers its status and what came there."""
    host, guest = pty.openpty()
    how = {it: guest for it in streams}
    for it in ("stdin", "stdout", "stderr"):
        how.setdefault(it, subprocess.DEVNULL if it == "stdin" else subprocess.PIPE)
    run = subprocess.Popen([f"{desk.top}/desk", *words], env=desk.env, start_new_session=True, **how)
    os.close(guest)
    came, end = b"", time.monotonic() + seconds
    typed = list(typed)
    while time.monotonic() < end:
        ready, _, _ = select.select([host], [], [], 0.1)
        if ready:
            try:
                came += os.read(host, 65536)
            except OSError:
                break
        elif typed:
            os.write(host, typed.pop(0))
        elif run.poll() is not None:
            break
    status = run.wait(10)
    os.close(host)
    out = run.stdout.read().decode() if run.stdout else ""
    return status, came.decode(), out


def words_of(desk, built):
    kind = "built" if built else "not built"
    for words in (["--help"], ["-h"], ["help"], ["--help", "more"]):
        begun = time.monotonic()
        status, out, err = desk.run(*words)
        faults = [f"{status}, {err}"] * (status != 0 or err != "") + ["it ran something"] * desk.began()
        faults += [f"it took {time.monotonic() - begun:.1f} s"] * (time.monotonic() - begun > 2)
        for text in ("./desk run LOCALE LANGUAGE ZONE", "./desk make SEED COUNT", "./desk translate LOCALE LANGUAGE", "./desk < sample.lines", *(f"\n  {n}  " for n in range(8))):
            faults += [f"it doesn't tell {text!r}"] * (text not in out)
        found(f"{kind}: {' '.join(words)}", faults)
    status, out, err = desk.run("--version")
    found(f"{kind}: --version", [f"{status}, {out}, {err}"] * (status != 0 or err != "" or not out.startswith("Lurvetta, ") or "played-kit logic 0123" not in out))
    for words in RIGHT:
        status, out, err = desk.run(*words)
        head = f"program with {' '.join(words)}\n" if built else f"in ic_desk with {' '.join(['try', '--', *words])}\n"
        wanted = head + ("" if words[:1] == ["make"] else "a\tb\n")
        faults = [f"{status}, {out!r}"] * (status != 0 or out != wanted)
        faults += [f"it said {err!r}"] * ((err != "") if built else (err.count("\n") != 1 or "2.5 GB" not in err))
        desk.began()
        found(f"{kind}: words {words}", faults + desk.left())
        status, out, err = desk.run("--all", *words)
        faults = [f"{status}, {out!r}"] * (status != 0 or out != wanted.replace("program", "all", 1).replace("in ic_desk", "in ic_desk_all", 1))
        desk.began()
        found(f"{kind}: --all and words {words}", faults + desk.left())
    for words in WRONG:
        status, out, err = desk.run(*words)
        faults = [f"{status}, {out!r}, {err!r}"] * (status != 1 or out != "" or "./desk make SEED COUNT" not in err)
        found(f"{kind}: wrong words {words}", faults + ["it ran something"] * desk.began() + desk.left())
    for number in range(1, 8):
        desk.play("status", str(number))
        status, out, err = desk.run("translate", "de", "de")
        lines = err.split("\n")[:-1]
        if not built:
            lines = lines[1:]
        faults = [f"{status}, {err!r}"] * (status != number)
        if number == 1:
            faults += [f"it said {err!r}"] * ("./desk make SEED COUNT" not in err)
        else:
            faults += [f"it said {err!r}"] * (len(lines) != 1 or not lines[0].startswith(f"desk: status {number}: "))
        found(f"{kind}: status {number}", faults + desk.left())
    desk.unplay("status")
    desk.began()


def main():
    with tempfile.TemporaryDirectory(prefix="desk-words-") as folder:
        desk = Desk(folder, True)
        words_of(desk, True)
        status, came, _ = at_terminal(desk, [], [b"x\ty\n", b"\x04"], 20, ["stdin", "stderr"])
        found("built, at a terminal: how to type", [f"{status}, {came!r}"] * (status != 0 or "Ctrl-D" not in came or "tab" not in came))
        status, came, _ = at_terminal(desk, ["make", "1", "2"], [], 20, ["stdin", "stderr"])
        found("built, at a terminal: make needs no typing", [f"{status}, {came!r}"] * (status != 0 or "Ctrl-D" in came))
        closed = subprocess.run(["bash", "-c", '"$0" make 1 2 <&-', f"{desk.top}/desk"], env=desk.env, capture_output=True)
        found("built, with a closed input", [f"{closed}"] * (closed.returncode != 0 or closed.stdout != b"program with make 1 2\n" or closed.stderr != b""))
        desk.play("faults")
        status, out, err = desk.run()
        found("built: a program that faults", [f"{status}, {err!r}"] * (status != 128 + signal.SIGSEGV or err != "desk: the program ended with 139, which is none of its statuses: the signal SEGV\n"))
        desk.unplay("faults")
        desk.play("waits")
        for number in (signal.SIGTERM, signal.SIGINT, signal.SIGHUP):
            desk.began()
            run = subprocess.Popen([f"{desk.top}/desk"], env=desk.env, stdin=subprocess.DEVNULL, stdout=subprocess.PIPE)
            while not os.path.exists(f"{desk.played}/began"):
                time.sleep(0.02)
            time.sleep(0.2)
            begun = time.monotonic()
            run.send_signal(number)
            run.communicate(timeout=30)
            faults = [f"it ended with {run.returncode}"] * (run.returncode != -number)
            found(f"built: {number.name} ends the program too", faults + ["the program went on"] * (time.monotonic() - begun > 5))
        desk.unplay("waits")
        status, out, err = desk.run(env={**desk.env, "PATH": "/nowhere:/usr/bin:/bin", "TMPDIR": "/nowhere"})
        found("built: it needs no toolchain and no temporary files", [f"{status}, {err!r}"] * (status != 0 or err != ""))
        time.sleep(0.02)
        desk.write(f"{desk.top}/crates/ic_desk/src/main.rt", "// newer\n")
        status, out, err = desk.run()
        found("built, and a source is newer", [f"{status}, {out!r}"] * (not out.startswith("in ic_desk with try")))

    with tempfile.TemporaryDirectory(prefix="desk-words-") as folder:
        desk = Desk(folder, False)
        words_of(desk, False)
        tools = f"{folder}/tools"
        os.makedirs(tools)
        for it in ("bash", "env", "dirname", "readlink", "find", "mktemp", "cat", "rm", "wc", "sed", "tail", "grep", "seq", "sleep", "basename", "git"):
            if shutil.which(it):
                os.symlink(shutil.which(it), f"{tools}/{it}")
        status, out, err = desk.run(env={**desk.env, "PATH": tools})
        found("not built, without rt", [f"{status}, {err!r}"] * (status != 125 or out != "" or err.count("\n") != 1 or "rt, the toolchain, isn't found" not in err))
        status, out, err = desk.run("--version", env={**desk.env, "PATH": tools})
        found("--version without rt", [f"{status}, {out!r}, {err!r}"] * (status != 0 or err != "" or "isn't here" not in out))
        status, out, err = desk.run(env={**desk.env, "PATH": f"{desk.bin}:{tools}"})
        found("not built, without python3", [f"{status}, {err!r}"] * (status != 125 or out != "" or err.count("\n") != 1 or "python3 isn't found" not in err))
        status, out, err = desk.run(env={**desk.env, "TMPDIR": f"{folder}/nowhere"})
        found("not built, without a place for temporary files", [f"{status}, {err!r}"] * (status != 125 or out != "" or err.count("\n") != 1 or f"temporary files in {folder}/nowhere" not in err))
        found("none of these ran anything", ["it did"] * desk.began())
        status, out, err = desk.run(given=b"x" * 1001)
        found("not built, with more input than rt takes", [f"{status}, {err!r}"] * (status != 125 or "64 MiB" not in err or desk.began()) + desk.left())
        status, out, err = desk.run(given=None, stdin=os.open(folder, os.O_RDONLY))
        found("not built, with an input that can't be read", [f"{status}, {err!r}"] * (status != 125 or "wasn't read to its end" not in err or desk.began()) + desk.left())
        closed = subprocess.run(["bash", "-c", '"$0" <&-', f"{desk.top}/desk"], env=desk.env, capture_output=True)
        found("not built, with a closed input", [f"{closed}"] * (closed.returncode != 125 or b"wasn't read to its end" not in closed.stderr or desk.began()) + desk.left())
        slow = subprocess.Popen(["sh", "-c", "echo a; sleep 3; echo b"], stdout=subprocess.PIPE)
        status, out, err = desk.run(given=None, stdin=slow.stdout)
        slow.wait()
        found("not built, with an input that pauses", [f"{status}, {out!r}"] * (status != 0 or not out.endswith("a\nb\n")))
        for last, text in (("run=no-answer", "within a minute and a megabyte"), ("it ran out of stack\nrun=no-answer", "no more stack"), ("error: it doesn't compile\nrun=none", "it doesn't compile\ndesk: the source didn't run"), ("run=none", "want of memory\ndesk: the source didn't run")):
            desk.play("last", f"{last}\n")
            desk.play("status", "6")
            status, out, err = desk.run()
            found(f"not built, with the notes {last!r}", [f"{status}, {err!r}"] * (status != 125 or text not in err) + desk.left())
            desk.unplay("last")
            desk.unplay("status")
        desk.play("turns", "35")
        status, came, out = at_terminal(desk, [], [], 30, ["stderr"])
        faults = [f"{status}, {came!r}"] * (status != 0 or "at work for 1 s" not in came or "at work for 3 s" not in came)
        found("not built: signs of life at a terminal", faults + desk.left())
        begun = time.monotonic()
        status, out, err = desk.run()
        found("not built: none elsewhere", [f"{status}, {err!r}"] * (status != 0 or "at work" in err))
        for number in (signal.SIGTERM, signal.SIGINT, signal.SIGHUP):
            desk.began()
            run = subprocess.Popen([f"{desk.top}/desk"], env=desk.env, stdin=subprocess.DEVNULL, stdout=subprocess.PIPE, stderr=subprocess.PIPE)
            while not os.path.exists(f"{desk.played}/began"):
                time.sleep(0.02)
            time.sleep(0.3)
            run.send_signal(number)
            run.communicate(timeout=30)
            faults = [f"it ended with {run.returncode}"] * (run.returncode != -number)
            faults += ["the toolchain wasn't told"] * (not os.path.exists(f"{desk.played}/told"))
            found(f"not built: {number.name} ends the toolchain too", faults + desk.left())
            os.path.exists(f"{desk.played}/told") and desk.unplay("told")
        desk.unplay("turns")
        status, came, out = at_terminal(desk, [], [b"x\ty\n", b"z\n", b"\x04"], 30, ["stdin", "stderr"])
        faults = [f"{status}, {came!r}, {out!r}"] * (status != 0 or "Ctrl-D" not in came or not out.endswith("x\ty\nz\n"))
        found("not built, at a terminal: what is typed comes to the program", faults + desk.left())
    print(f"{wrong} of these went wrong" if wrong else "all of these went as they should")
    return 1 if wrong else 0


if __name__ == "__main__":
    sys.exit(main())
