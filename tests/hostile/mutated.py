"""Command lists, changed by a seed, given to the program whole and line by line, and to the definitions read a second time.

python3 tests/hostile/mutated.py PROGRAM FOLDER.. [--seed=N]: each folder has files NAME.lines. The status is 1 where some reply
differs."""
import glob
import os
import random
import subprocess
import sys
import threading

HERE = os.path.dirname(os.path.abspath(__file__))
sys.path.insert(0, os.path.join(os.path.dirname(HERE), "reading"))

import run as reading  # noqa: E402
from ic_laws.lines import lines_of  # noqa: E402


def changed(line, chance):
    """A line with something of it changed."""
    kind = chance.randrange(6)
    words = line.split(b"\t")
    at = chance.randrange(len(words))
    if kind == 0 and line:
        place = chance.randrange(len(line))
        return line[:place] + bytes([line[place] ^ (1 << chance.randrange(8))]) + line[place + 1:]
    if kind == 1:
        return line[:chance.randrange(len(line) + 1)]
    if kind == 2:
        return b"\t".join(words[:at + 1] + words[at:])
    if kind == 3:
        return b"\t".join(words[:at] + words[at + 1:])
    if kind == 4:
        words[at] = words[chance.randrange(len(words))]
        return b"\t".join(words)
    return line + bytes([chance.randrange(256)])


def mutated(lines, chance):
    """One line in four is changed; line feeds that come so part lines."""
    return b"".join((changed(line, chance) if chance.randrange(4) == 0 else line) + b"\n" for line in lines)


def whole(program, given):
    return subprocess.run([program], input=given, stdout=subprocess.PIPE, check=True, timeout=600).stdout.splitlines(keepends=True)


def by_lines(program, lines):
    """Each line is given once the reply to the one before it is read."""
    child = subprocess.Popen([program], stdin=subprocess.PIPE, stdout=subprocess.PIPE)
    replies = []
    for line in lines:
        child.stdin.write(line + b"\n")
        child.stdin.flush()
        replies.append(child.stdout.readline())
    child.stdin.close()
    rest = child.stdout.read()
    return replies + ([rest] if rest else []), child.wait()


def show(name, what, lines, ours, others):
    for i, (a, b) in enumerate(zip(ours, others)):
        if a != b:
            print(f"{name}: {what}, line {i + 1}: {lines[i][:200]!r}\n  {a[:200]!r}\n  {b[:200]!r}")
            return
    print(f"{name}: {what}: {len(ours)} replies and {len(others)}")


def main(words):
    seed = next((int(word[len("--seed="):]) for word in words if word.startswith("--seed=")), 1)
    program, *folders = (word for word in words if not word.startswith("--"))
    count = lists = bad = 0
    for folder in folders:
        for path in sorted(glob.glob(os.path.join(folder, "*.lines"))):
            chance = random.Random(f"{seed} {path}")
            given = mutated(lines_of(reading.read(path)), chance)
            lines = lines_of(given)
            ours = whole(program, given)
            slow, status = by_lines(program, [line for line in given.split(b"\n")[:-1]])
            read = list(reading.replies_to(lines))
            lists, count = lists + 1, count + len(lines)
            if ours != slow or status:
                bad += 1
                show(path, "whole and by lines", lines, ours, slow)
            if ours != read:
                bad += 1
                show(path, "the program and the definitions", lines, ours, read)
    print(f"{lists} lists, {count} lines, {bad} differences")
    return 1 if bad or not lists else 0


if __name__ == "__main__":
    sys.setrecursionlimit(1_000_000)
    threading.stack_size(512 * 1024 * 1024)
    result = []
    thread = threading.Thread(target=lambda: result.append(main(sys.argv[1:])))
    thread.start()
    thread.join()
    sys.exit(result[0] if result else 2)
