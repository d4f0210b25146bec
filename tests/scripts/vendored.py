#!/usr/bin/env python3
"""Copies the crates of the workbook by ./vendor into folders of several kinds, and looks at what stands there.

  tests/scripts/vendored.py

It proves and compiles nothing. It prints a line for each thing that it tried, and ends with 1 where one went wrong.
"""
import os
import signal
import subprocess
import sys
import tempfile

TOP = os.path.dirname(os.path.dirname(os.path.dirname(os.path.realpath(__file__))))
PARTS = ("src", "specs", "proofs")
# Runs ./vendor and kills it before the N-th crate gets its name.
KILLER = """
import importlib.machinery, importlib.util, os, signal, sys
sys.dont_write_bytecode = True
loader = importlib.machinery.SourceFileLoader("vendor_script", sys.argv[1])
script = importlib.util.module_from_spec(importlib.util.spec_from_loader("vendor_script", loader))
loader.exec_module(script)
whole, count, name = getattr(os, sys.argv[2]), 0, sys.argv[2]

def changed(*words, **more):
    global count
    count += 1
    if count == int(sys.argv[3]):
        os.kill(os.getpid(), signal.SIGKILL)
    return whole(*words, **more)

setattr(os, name, changed)
sys.exit(script.main(sys.argv[4:]))
"""
wrong = 0


def found(what, faults):
    global wrong
    wrong += bool(faults)
    print(f"{what}: {'; '.join(faults) or 'as it should be'}", flush=True)


def run(*words, killed=None):
    script = ["-c", KILLER, f"{TOP}/vendor", *map(str, killed)] if killed else [f"{TOP}/vendor"]
    it = subprocess.run([sys.executable, *script, *words], capture_output=True, encoding="utf-8")
    return it.returncode, it.stdout, it.stderr


def read(name):
    with open(name, "rb") as it:
        return it.read()


def write(name, text):
    os.makedirs(os.path.dirname(name), exist_ok=True)
    with open(name, "w", encoding="utf-8") as it:
        it.write(text)


def files(folder):
    return {os.path.relpath(f"{at}/{it}", folder): read(f"{at}/{it}") for at, _, names in os.walk(folder) for it in names}


def lines(folder):
    """The crates that crates.txt lists, each with what it stands on, and how often each is listed."""
    texts = read(f"{folder}/crates.txt").decode().split("\n")
    return sorted((it.split(":")[0], it.split(":")[1].split()) for it in texts if ":" in it and not it.startswith("#"))


def needed(name):
    own = dict(lines(TOP))
    return sorted({name}.union(*(needed(it) for it in own[name] if it in own)))


def faults_of(folder, name, at="crates"):
    """What is wrong with a folder that should have this crate and those below it."""
    faults = []
    for crate in needed(name):
        for part in PARTS:
            here, there = files(f"{TOP}/crates/{crate}/{part}"), files(f"{folder}/{at}/{crate}/{part}")
            faults += [f"{crate}/{part} differs"] * (here != there)
        faults += [f"{crate} has no licence"] * (not os.path.isfile(f"{folder}/{at}/{crate}/LICENSE-MIT"))
        faults += [f"{crate} has no line, or several"] * (lines(folder).count((crate, dict(lines(TOP))[crate])) != 1)
    return faults + ["a half is left"] * any(".vendor-half" in it for it in files(folder))


def main():
    with tempfile.TemporaryDirectory(prefix="vendored-") as folder:
        status, out, err = run(folder)
        found("into an empty folder", [f"{status}, {err}"] * (status != 0) + faults_of(folder, "ic_book"))
        found("nothing else came along", sorted(set(os.listdir(f"{folder}/crates")) ^ set(needed("ic_book"))))
        before = files(folder)
        status, out, err = run(folder)
        found("once more", [f"{status}, {err}"] * (status != 0) + ["something changed"] * (files(folder) != before))
        status, out, err = run(folder, "ic_run")
        found("more crates", [f"{status}, {err}"] * (status != 0) + faults_of(folder, "ic_run") + faults_of(folder, "ic_book"))
        write(f"{folder}/crates/ic_pool/out/kept", "kept")
        os.remove(f"{folder}/crates/ic_pool/LICENSE-MIT")
        status, out, err = run(folder)
        found("over a crate that was proved there", [f"{status}, {err}"] * (status != 0))
    for name, what in (("crates/ic_pool/src/lib.rt", "over a crate that was changed"), ("crates/ic_laws/src/more.rt", "over a crate with a file more")):
        with tempfile.TemporaryDirectory(prefix="vendored-") as folder:
            write(f"{folder}/{name}", "// mine\n")
            before = files(folder)
            status, out, err = run(folder)
            faults = ["something changed"] * (files(folder) != before)
            found(what, faults + [f"{status}, {err}"] * (status != 1 or name.split("/")[1] not in err))
    with tempfile.TemporaryDirectory(prefix="vendored-") as folder:
        write(f"{folder}/crates/mine/src/main.rt", "// mine\n")
        write(f"{folder}/crates.txt", "# my crates\nmine may_abort=1: ic_book jiff # the book\n# the end")
        status, out, err = run(folder)
        faults = faults_of(folder, "ic_book") + ["my crate changed"] * (read(f"{folder}/crates/mine/src/main.rt") != b"// mine\n")
        faults += ["my lines changed"] * (not read(f"{folder}/crates.txt").startswith(b"# my crates\nmine may_abort=1: ic_book jiff # the book\n# the end\n"))
        found("beside a crate with its line", faults + [f"{status}, {err}"] * (status != 0))
    with tempfile.TemporaryDirectory(prefix="vendored-") as folder:
        write(f"{folder}/crates.txt", "ic_pool: other\n")
        before = files(folder)
        status, out, err = run(folder)
        found("beside another line for a crate", ["something changed"] * (files(folder) != before) + [f"{status}, {err}"] * (status != 1))
    with tempfile.TemporaryDirectory(prefix="vendored-") as folder:
        write(f"{folder}/mine/src/lib.rt", "// mine\n")
        write(f"{folder}/crates.txt", "mine:\n")
        status, out, err = run(folder)
        found("into a repository with its crates at the top", faults_of(folder, "ic_book", ".") + [f"{status}, {err}"] * (status != 0))
    for name, number in (("rename", 1), ("rename", 5), ("replace", 1), ("makedirs", 4)):
        with tempfile.TemporaryDirectory(prefix="vendored-") as folder:
            killed, _, _ = run(folder, killed=(name, number))
            status, out, err = run(folder)
            faults = [f"it wasn't killed: {killed}"] * (killed != -signal.SIGKILL) + [f"{status}, {err}"] * (status != 0)
            found(f"killed at the call {number} of {name}, and once more", faults + faults_of(folder, "ic_book"))
    with tempfile.TemporaryDirectory(prefix="vendored-") as folder:
        for words, wanted, text in (
            (["--help"], 0, "./vendor FOLDER"),
            ([], 2, "./vendor FOLDER"),
            (["--wrong", folder], 2, "./vendor FOLDER"),
            ([folder, "nothing"], 2, "crates.txt has no crate nothing"),
            ([f"{folder}/nowhere"], 2, "there is no folder"),
            ([TOP], 2, "is this project"),
        ):
            status, out, err = run(*words)
            told = out if wanted == 0 else err
            silent = err if wanted == 0 else out
            found(f"words {words}", [f"{status}, {out}, {err}"] * (status != wanted or text not in told or silent != ""))
        found("none of these copied anything", os.listdir(folder))
    print(f"{wrong} of these went wrong" if wrong else "all of these went as they should")
    return 1 if wrong else 0


if __name__ == "__main__":
    sys.exit(main())
