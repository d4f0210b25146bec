#!/usr/bin/env python3
"""Kills ./build at many moments, and looks whether what the crates had kept is still there after the next run.

  tests/scripts/killed_builds.py

It works on a project of four small crates in a new folder, with a copy of ./build and a shell script that plays the
toolchain: that takes half a second for a crate, and refuses one whose kept file is gone. It prints a line for each
thing that it tried, and ends with 1 where one went wrong.
"""
import os
import re
import signal
import subprocess
import sys
import tempfile
import time

TOP = os.path.dirname(os.path.dirname(os.path.dirname(os.path.realpath(__file__))))
CRATES = {"low": "", "left": "low", "right": "low", "ic_desk": "left right"}
RT = """#!/bin/sh
# Plays the toolchain: proves the crate of this folder, if it has what it kept.
crate=$(basename "$PWD")
echo "proves $crate with $*"
[ ! -e "$PLAYED/refuses-$crate" ] || { echo "$crate: a clause isn't proved"; exit 1; }
[ ! -e "$PLAYED/vanishes" ] || rm -f "$0"
[ ! -e "$PLAYED/deaf" ] || trap '' TERM
[ -e out/kept ] || { echo "what $crate had kept is gone"; exit 9; }
echo half > out/half
for turn in 1 2 3 4 5; do sleep "$(cat "$PLAYED/pace")"; done
mkdir -p out/rlib && echo "$crate" > out/rlib/stamp
[ ! -e src/main.rt ] || { echo true > "out/$crate"; chmod +x "out/$crate"; }
echo proved >> out/kept
rm out/half
"""
# Runs ./build and kills it at a moment: before or after the N-th call of a function that it uses.
KILLER = """
import importlib.machinery, importlib.util, os, shutil, signal, subprocess, sys, tempfile, time
script, where, name, number, words = sys.argv[1], sys.argv[2], sys.argv[3], int(sys.argv[4]), sys.argv[5:]
loader = importlib.machinery.SourceFileLoader("build_script", script)
sys.dont_write_bytecode = True
build = importlib.util.module_from_spec(importlib.util.spec_from_loader("build_script", loader))
loader.exec_module(build)
owner, _, last = name.rpartition(".")
owner = {"os": os, "shutil": shutil, "subprocess": subprocess, "tempfile": tempfile, "build": build}[owner]
whole, count = getattr(owner, last), 0

def die():
    os.kill(os.getpid(), signal.SIGKILL)

def changed(*words, **more):
    global count
    count += 1
    if count == number and where == "before":
        die()
    if count == number and where == "amid":
        # Half of a folder is removed.
        for at, _, files in os.walk(words[0], topdown=False):
            for file in files[: (len(files) + 1) // 2]:
                os.remove(f"{at}/{file}")
        die()
    answer = whole(*words, **more)
    if count == number:
        die()
    return answer

setattr(owner, last, changed)
sys.exit(build.main(words))
"""
# The moments: the function, which call of it, and what it is for.
MOMENTS = [
    ("before", "tempfile.mkdtemp", 1, "before the first room is made"),
    ("after", "tempfile.mkdtemp", 1, "with an empty room"),
    ("after", "shutil.copytree", 1, "while files are linked"),
    ("before", "os.rename", 1, "just before what was kept is moved"),
    ("after", "os.rename", 1, "just after it was moved"),
    ("after", "subprocess.Popen", 1, "just after the proof began"),
    ("after", "build.pause", 2, "while the first crate is proved"),
    ("before", "os.rename", 2, "just before what was kept is moved back"),
    ("after", "os.rename", 2, "just after it was moved back"),
    ("amid", "shutil.rmtree", 1, "while the first room is removed"),
    ("after", "subprocess.Popen", 3, "with two proofs beside each other"),
    ("before", "os.rename", 5, "with one of the two proved"),
    ("after", "subprocess.Popen", 4, "while the program is proved"),
]
# Moments of the run after, while it puts back.
AGAIN = [
    ("before", "os.kill", 1, "before it ends what was left at work"),
    ("after", "os.kill", 1, "after it told that to end"),
    ("before", "os.rename", 1, "before it puts back"),
    ("after", "os.rename", 1, "after it put back"),
    ("amid", "shutil.rmtree", 1, "while it removes the room"),
]

wrong = 0


def found(what, faults):
    global wrong
    wrong += bool(faults)
    print(f"{what}: {'; '.join(faults) or 'as it should be'}", flush=True)


class Project:
    """Four small crates with what they kept, ./build, and a toolchain that is played."""

    def __init__(self, folder, pace=0.1):
        self.top, self.played = f"{folder}/project", f"{folder}/played"
        os.makedirs(f"{self.top}/crates")
        os.makedirs(self.played)
        with open(f"{TOP}/build", encoding="utf-8") as it:
            text = it.read()
        assert "NEWS, PATIENCE = 60, 10" in text
        self.write("build", text.replace("NEWS, PATIENCE = 60, 10", "NEWS, PATIENCE = 1, 1"))
        self.write("crates.txt", "".join(f"{it}: {deps}\n" for it, deps in CRATES.items()))
        for it in CRATES:
            self.write(f"crates/{it}/src/{'main' if it == 'ic_desk' else 'lib'}.rt", "// nothing\n")
            self.write(f"crates/{it}/out/kept", "kept by an early run\n")
        self.play("pace", str(pace))
        self.rt = f"{folder}/bin/rt"
        os.makedirs(f"{folder}/bin")
        self.bring_rt()
        self.env = {**os.environ, "PLAYED": self.played, "RT": self.rt}

    def bring_rt(self):
        with open(self.rt, "w", encoding="utf-8") as it:
            it.write(RT)
        os.chmod(self.rt, 0o755)

    def write(self, name, text):
        os.makedirs(os.path.dirname(f"{self.top}/{name}"), exist_ok=True)
        with open(f"{self.top}/{name}", "w", encoding="utf-8") as it:
            it.write(text)

    def play(self, name, text=""):
        with open(f"{self.played}/{name}", "w", encoding="utf-8") as it:
            it.write(text)

    def start(self, *words, killed=None, **more):
        script = f"{self.top}/build"
        killer = ["-c", KILLER, script, *map(str, killed)] if killed else [script]
        how = {"stdout": subprocess.PIPE, "stderr": subprocess.PIPE, "encoding": "utf-8", "env": self.env, **more}
        return subprocess.Popen([sys.executable, *killer, *words], **how)

    def run(self, *words, **more):
        it = self.start(*words, **more)
        out, err = it.communicate(timeout=120)
        return it.returncode, out, err

    def at_work(self):
        mark, count = self.top.encode() + b"/out/room-", 0
        for it in filter(str.isdigit, os.listdir("/proc")):
            try:
                with open(f"/proc/{it}/environ", "rb") as file:
                    count += mark in file.read()
            except OSError:
                pass
        return count

    def lost(self):
        """The crates that lack what the early run kept."""
        faults = []
        for it in CRATES:
            try:
                with open(f"{self.top}/crates/{it}/out/kept", encoding="utf-8") as file:
                    if not file.read().startswith("kept by an early run\n"):
                        faults.append(f"{it} began from nothing")
            except OSError:
                faults.append(f"{it} lost what it had kept")
        return faults

    def left(self):
        """What should be gone after a run."""
        at = f"{self.top}/out"
        rooms = [it for it in os.listdir(at) if it.startswith("room-")] if os.path.isdir(at) else []
        return ["a room is left"] * bool(rooms) + ["a proof is left at work"] * bool(self.at_work())

    def whole(self):
        """What is wrong after one more run."""
        status, _, err = self.run()
        faults = self.lost() + self.left()
        for it in CRATES:
            if not os.path.isfile(f"{self.top}/crates/{it}/out/rlib/stamp"):
                faults.append(f"{it} isn't proved")
        return faults + [f"the next run ended with {status}: {err[-300:]}"] * (status != 0)


def project(**more):
    return tempfile.TemporaryDirectory(prefix="killed-builds-", **more)


def main():
    for where, name, number, words in MOMENTS:
        with project() as folder:
            it = Project(folder, 0.02 if number > 2 else 0.1)
            status, _, _ = it.run(killed=(where, name, number))
            gone = len(it.lost())
            faults = [f"it wasn't killed, and ended with {status}"] * (status != -signal.SIGKILL)
            found(f"killed {words}, with {gone} of 4 crates' kept files out of place", faults + it.whole())
    for where, name, number, words in AGAIN:
        with project() as folder:
            it = Project(folder, 20)
            it.run(killed=("after", "build.pause", 10))
            it.play("pace", "0.05")
            status, _, _ = it.run(killed=(where, name, number))
            faults = [f"the second run wasn't killed, and ended with {status}"] * (status != -signal.SIGKILL)
            found(f"killed, and the next run killed {words}", faults + it.whole())
    for turn in range(10):
        with project() as folder:
            it = Project(folder)
            run = it.start()
            time.sleep(0.15 + 0.2 * turn)
            run.kill()
            run.communicate()
            found(f"killed after {0.15 + 0.2 * turn:.2f} s, with {len(it.lost())} of 4 out of place", it.whole())
    for number, turns in ((signal.SIGTERM, (0.3, 0.8, 1.3, 1.8)), (signal.SIGINT, (0.3, 0.8, 1.3, 1.8)), (signal.SIGHUP, (0.8,))):
        for seconds in turns:
            with project() as folder:
                it = Project(folder)
                run = it.start()
                time.sleep(seconds)
                run.send_signal(number)
                _, err = run.communicate(timeout=60)
                faults = it.lost() + it.left()
                # On a busy machine it may be told before it listens.
                faults += [f"it ended with {run.returncode}"] * (run.returncode not in (128 + number, -number))
                found(f"told to stop by {number.name} after {seconds} s, at once and after the next run", faults + it.whole())
    with project() as folder:
        it = Project(folder)
        it.play("deaf")
        run = it.start()
        time.sleep(0.5)
        run.terminate()
        run.communicate(timeout=60)
        faults = it.lost() + it.left()
        os.remove(f"{it.played}/deaf")
        found("told to stop, with a toolchain that doesn't listen", faults + it.whole())
    with project() as folder:
        it = Project(folder)
        status, _, err = it.run(env={**it.env, "RT": "/nowhere/rt"})
        faults = it.lost() + it.left() + [f"it ended with {status}: {err}"] * (status != 2 or "isn't found" not in err)
        found("without a toolchain", faults + it.whole())
    with project() as folder:
        it = Project(folder)
        it.play("vanishes")
        status, _, err = it.run()
        faults = it.lost() + it.left() + [f"it ended with {status}: {err}"] * (status != 2 or "can't be begun" not in err)
        os.remove(f"{it.played}/vanishes")
        it.bring_rt()
        found("with a toolchain that vanishes after the first crate", faults + it.whole())
    with project() as folder:
        it = Project(folder)
        it.play("refuses-left")
        status, _, err = it.run(cwd=it.top)
        faults = it.lost() + it.left() + [f"it ended with {status}: {err}"] * (status != 1)
        log = f"{it.top}/out/logs/left.log"
        said = os.path.isfile(log) and open(log, encoding="utf-8").read()
        faults += [f"its log isn't kept or isn't named: {err}"] * (not said or "a clause isn't proved" not in said or "out/logs/left.log" not in err)
        os.remove(f"{it.played}/refuses-left")
        found("with a crate that isn't proved", faults + it.whole())
    with project() as folder:
        it = Project(folder)
        it.run(killed=("after", "build.pause", 2))
        it.write("crates/low/out/other", "made by another rt meanwhile\n")
        found("killed, and another rt began the crate anew", it.whole())
    with project() as folder:
        it = Project(folder, 0.5)
        status, _, err = it.run()
        faults = [f"it ended with {status}"] * (status != 0)
        for text in ("4 crates, none of them proved by earlier runs", "expect ", r"at work: low for \d+ s", "3 of 4 crates done"):
            faults += [f"it didn't say '{text}'"] * (not re.search(text, err))
        faults += ["a log is left"] * bool(os.listdir(f"{it.top}/out/logs"))
        status, _, err = it.run()
        faults += [f"the second run said otherwise: {err}"] * ("4 of them proved by earlier runs" not in err or status != 0)
        found("what it tells as it goes", faults)
        status, out, err = it.run("--help")
        found("asked for help", [f"{status}, {out}, {err}"] * (status != 0 or err != "" or "./build CRATE" not in out))
        status, out, err = it.run("--wrong")
        found("a wrong flag", [f"{status}, {out}, {err}"] * (status != 2 or out != "" or "./build CRATE" not in err))
        status, out, err = it.run("nothing")
        found("a crate that isn't there", [f"{status}, {out}, {err}"] * (status != 2 or "crates.txt has no crate nothing" not in err))
    print(f"{wrong} of these went wrong" if wrong else "all of these went as they should")
    return 1 if wrong else 0


if __name__ == "__main__":
    sys.exit(main())
