#!/usr/bin/env python3
"""Looks whether the links of all pages lead somewhere.

  tests/pages/links.py    reads every page *.md of the repository

Each file that a link names must be there, and each title; each name in [brackets] that stands for a link must be used and told
where it leads; and README.md must lead to every page of docs/. It prints what doesn't hold, and ends with 1 then."""
import glob
import os
import re
import sys

TOP = os.path.realpath(os.path.join(os.path.dirname(os.path.realpath(__file__)), "../.."))
wrong = []


def text_of(page):
    """A page without its blocks and texts of code."""
    with open(page, encoding="utf-8") as it:
        return re.sub(r"`[^`\n]*`", "``", re.sub(r"^(```.*?^```$|    .*?$)", "", it.read(), flags=re.M | re.S))


def anchors(page):
    """What leads to each title of a page."""
    with open(page, encoding="utf-8") as it:
        titles = re.findall(r"^#+ (.*)$", re.sub(r"^```.*?^```$", "", it.read(), flags=re.M | re.S), re.M)
    return {re.sub(r"[^\w\- ]", "", re.sub(r"\]\([^)]*\)", "", title).lower()).replace(" ", "-") for title in titles}


def look(page, target):
    """Notes a link that leads nowhere, and answers the file that it names."""
    name, _, anchor = target.partition("#")
    file = os.path.normpath(os.path.join(os.path.dirname(page), name)) if name else page
    if not os.path.exists(file):
        wrong.append(f"{os.path.relpath(page, TOP)}: {target} isn't there")
    elif anchor and anchor not in anchors(file):
        wrong.append(f"{os.path.relpath(page, TOP)}: {name or 'the page'} has no title #{anchor}")
    return file


def read(page):
    """The files that a page leads to."""
    text = text_of(page)
    told = dict(re.findall(r"^\[([^\]]+)\]: (\S+)$", text, re.M))
    body = re.sub(r"^\[[^\]]+\]: \S+$", "", text, flags=re.M)
    used = set(re.findall(r"\[[^\[\]]+\]\[([^\[\]]+)\]", body)) | {name for name in told if f"[{name}]" in body}
    wrong.extend(f"{os.path.relpath(page, TOP)}: [{name}] is told and not used" for name in told.keys() - used)
    wrong.extend(f"{os.path.relpath(page, TOP)}: [{name}] leads nowhere" for name in used - told.keys())
    targets = re.findall(r"\]\(([^()\s]+)\)", body) + list(told.values())
    return {look(page, target) for target in targets if "://" not in target}


pages = [it for it in glob.glob(f"{TOP}/**/*.md", recursive=True) if "/target/" not in it and "/out/" not in it]
led = {page: read(page) for page in pages}
for page in glob.glob(f"{TOP}/docs/*.md"):
    if page not in led[f"{TOP}/README.md"]:
        wrong.append(f"README.md doesn't lead to {os.path.relpath(page, TOP)}")
print("\n".join(wrong) or f"the links of {len(pages)} pages lead somewhere")
sys.exit(bool(wrong))
