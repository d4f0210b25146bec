#!/usr/bin/env python3
"""Changes a copy of the sources, and looks whether tools/api_page tells that docs/API.md is stale.

  tests/scripts/api_stale.py

It prints a line for each thing that it tried, and ends with 1 where one went wrong.
"""
import os
import shutil
import subprocess
import sys
import tempfile

TOP = os.path.dirname(os.path.dirname(os.path.dirname(os.path.realpath(__file__))))
wrong = 0


def found(what, faults):
    global wrong
    wrong += bool(faults)
    print(f"{what}: {'; '.join(faults) or 'as it should be'}", flush=True)


def read(name):
    with open(name, encoding="utf-8") as it:
        return it.read()


def write(name, text):
    os.makedirs(os.path.dirname(name), exist_ok=True)
    with open(name, "w", encoding="utf-8") as it:
        it.write(text)


class Copy:
    """A copy of all that the script reads, with a page that is up to date."""

    def __init__(self, top):
        self.top = top
        shutil.copytree(f"{TOP}/tools", f"{top}/tools", ignore=shutil.ignore_patterns("__pycache__"))
        for it in os.listdir(f"{TOP}/crates"):
            if os.path.isdir(f"{TOP}/crates/{it}/src"):
                shutil.copytree(f"{TOP}/crates/{it}/src", f"{top}/crates/{it}/src")
        shutil.copy2(f"{TOP}/crates.txt", top)
        os.makedirs(f"{top}/docs")
        self.run()

    def run(self, *words):
        it = subprocess.run([f"{self.top}/tools/api_page", *words], capture_output=True, encoding="utf-8")
        return it.returncode, it.stdout, it.stderr

    def page(self):
        return read(f"{self.top}/docs/API.md")

    def edit(self, name, old, new):
        text = read(f"{self.top}/{name}")
        assert old in text, (name, old)
        write(f"{self.top}/{name}", text.replace(old, new, 1))

    def is_stale(self, what, text):
        """The page is told to be stale, and once it is made anew it has this text and isn't any more."""
        status, out, err = self.run("--check")
        faults = [f"--check ended with {status}: {err}"] * (status != 1 or "tools/api_page makes it anew" not in err or out != "")
        status, out, err = self.run()
        faults += [f"it ended with {status}: {err}"] * (status != 0)
        faults += [f"the page lacks {text!r}"] * (text not in self.page())
        status, out, err = self.run("--check")
        found(what, faults + [f"--check ended with {status} on the new page: {err}"] * (status != 0))


def main():
    status = subprocess.run([f"{TOP}/tools/api_page", "--check"], capture_output=True).returncode
    found("the page of this project is up to date", [f"--check ended with {status}"] * (status != 0))
    with tempfile.TemporaryDirectory(prefix="api-stale-") as top:
        it = Copy(top)
        status, out, err = it.run("--check")
        found("a page just made", [f"{status}, {err}"] * (status != 0 or out + err != ""))
        it.edit("crates/ic_book/src/sheet_changes.rt", "/// Adds a sheet of this name at the end", "/// Puts a sheet of this name last")
        it.is_stale("another comment", "Puts a sheet of this name last")
        it.edit("crates/ic_book/src/sheet_changes.rt", "pub fn move_sheet(&mut self, sheet_index: u32", "pub fn move_sheet(&mut self, moved: u32")
        it.is_stale("another parameter", "`fn move_sheet(&mut self, moved: u32, new_index: u32) -> Result<(), BookError>`")
        head = "/// Calls of a new kind.\nimpl<'a> Model<'a> {\n    /// What is new. More is said.\n"
        write(f"{top}/crates/ic_book/src/brand_new.rt", f"{head}    pub fn is_new(\n        &self,\n        by: u32,\n    ) -> bool\n        requires {{ 0 < by }}\n    {{\n        by > 1\n    }}\n}}\n")
        it.is_stale("a call in a file that no rule knows", "- `fn is_new(&self, by: u32) -> bool`, with `requires`: What is new. More is said.")
        it.edit("crates/ic_laws/src/lib.rt", "pub use boxed::Boxed;", "pub use boxed::{Boxed, Gone};")
        status, out, err = it.run("--check")
        found("a name that no file has", [f"{status}, {err}"] * (status != 0 or "ic_laws exports what wasn't found in its files: Gone" not in err))
        it.edit("crates.txt", "ic_book: ", "ic_book: ic_fresh ")
        with open(f"{top}/crates.txt", "a", encoding="utf-8") as file:
            file.write("ic_fresh:\n")
        write(f"{top}/crates/ic_fresh/src/lib.rt", "//! Fresh.\nmod only;\n\npub use only::{Fresh, freshen as made_fresh};\n")
        write(f"{top}/crates/ic_fresh/src/only.rt", "/// What is fresh.\n#[derive(\n    Drop,\n)]\npub struct Fresh {\n    pub age: u32,\n}\n\nimpl Fresh {\n    /// Its age.\n    pub const fn age(&self) -> u32 {\n        self.age\n    }\n\n    fn hidden(&self) {}\n}\n\nstruct Hidden;\n")
        it.is_stale("a crate that no rule knows", "- `struct Fresh`: What is fresh.\n  - `const fn age(&self) -> u32`: Its age.")
        found("what isn't public stays out", ["it's there"] * ("idden" in it.page().split("`ic_fresh`")[1].split("##")[0]))
        shutil.rmtree(f"{top}/docs")
        os.makedirs(f"{top}/docs")
        it.is_stale("no page at all", "- `fn is_new")
        for words, wanted, text in ((["--help"], 0, "tools/api_page --check"), (["--wrong"], 2, "tools/api_page --check"), (["--check", "more"], 2, "tools/api_page --check")):
            before = it.page()
            status, out, err = it.run(*words)
            told, silent = (out, err) if wanted == 0 else (err, out)
            found(f"words {words}", [f"{status}, {out}, {err}"] * (status != wanted or text not in told or "tools/api_page" in silent) + ["it wrote the page"] * (it.page() != before))
    print(f"{wrong} of these went wrong" if wrong else "all of these went as they should")
    return 1 if wrong else 0


if __name__ == "__main__":
    sys.exit(main())
