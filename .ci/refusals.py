#!/usr/bin/env python3
"""Tells each public function that returns a Result or an Option and that docs/refusals.md doesn't name, and each name there of none.

A function is named by its type, if it has one, and its name, in the first cell of a row of its crate's table. The programs that run
rows of text are left out.
"""
import os
import re
import sys

from pages import ROOT, read

PAGE = "docs/refusals.md"


def sources(crate):
    """Yields the text of each file of a crate but its tests."""
    for folder, _, files in os.walk(f"{ROOT}/crates/{crate}/src"):
        for file in files:
            if file.endswith(".rt") and file != "tests.rt":
                yield read(os.path.relpath(f"{folder}/{file}", ROOT))


def without_parameters(text):
    """Returns what stands after the parameters between angle brackets, if a text begins with such."""
    depth = 0
    for at, sign in enumerate(text):
        depth += (sign == "<") - (sign == ">" and text[at - 1] != "-")
        if not depth:
            return text[at + 1 :] if sign == ">" else text
    return text


def owner(head):
    """Returns the type that an `impl` or a `trait` is of."""
    text = without_parameters(re.sub(r"^(unsafe )?impl|^pub trait", "", " ".join(head.split())).strip())
    found = re.match(r"\W*(?:\w+::)*(\w+)", text.split(" for ")[-1])
    return found[1] if found else ""


def refusing(text):
    """Yields the public functions of a file, and those of its traits, that return a Result or an Option."""
    owned, is_trait = None, False
    for part in re.split(r"^(?=impl\b|unsafe impl\b|pub trait\b|\}|pub fn|pub const fn)|(?=^    (?:pub (?:const )?)?fn )", text, flags=re.M):
        if re.match(r"(unsafe )?impl\b|pub trait\b", part):
            owned, is_trait = owner(part.split("{")[0]), part.startswith("pub trait")
        elif part.startswith("}"):
            owned, is_trait = None, False
        found = re.match(r"( *)(pub )?(?:const )?fn (\w+)", part)
        if found and (found[2] or is_trait) and len(found[1]) == (4 if owned else 0):
            head = re.split(r"\n\s*(?:requires|ensures|decreases|\{)|;\n| \{\n", part)[0]
            if re.search(r"\)\s*->\s*(?:Result|Option)\b", head):
                yield f"{owned}::{found[3]}" if owned else found[3]


def named():
    """Returns the names in the first cells of the page's rows, by crate."""
    found, crate = {}, None
    for line in read(PAGE).split("\n"):
        if line.startswith("## "):
            crate = line[3:]
        elif crate and line.startswith("| `"):
            found.setdefault(crate, set()).update(re.findall(r"`([\w:]+)`", line.split(" | ")[0]))
    return found


def main():
    crates = [it for it in sorted(os.listdir(f"{ROOT}/crates")) if not it.endswith("_rows")]
    due = {it: {name for text in sources(it) for name in refusing(text)} for it in crates}
    reported, there = 0, named()
    for crate in sorted({*due, *there}):
        lacking, extra = due.get(crate, set()) - there.get(crate, set()), there.get(crate, set()) - due.get(crate, set())
        for name in sorted(lacking | extra):
            print(f"repository: {crate}: {name} {'has no row in' if name in lacking else 'refuses nothing, and has a row in'} {PAGE}", file=sys.stderr)
            reported += 1
    return 1 if reported else 0


if __name__ == "__main__":
    sys.exit(main())
