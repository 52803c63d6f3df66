#!/usr/bin/env python3
"""Tells each must-fail edit that cannot be applied: an `old:` text has to stand in its file once. `rt ci` passes over such an edit."""
import glob
import os
import sys

ROOT = os.path.dirname(os.path.dirname(os.path.abspath(__file__)))


def read(path):
    with open(path, encoding="utf-8") as file:
        return file.read()


def fault(edit, crate):
    """Returns why an edit cannot be applied to its crate, or None. Its lines are read as `rt must-fail` reads them."""
    path, old, texts = "", "", {}
    for line in read(edit).split("\n"):
        if line.startswith("file: "):
            path = line[len("file: "):].strip()
        elif line.startswith("old: "):
            old = line[len("old: "):]
        elif line.startswith("new:"):
            if path not in texts:
                if not os.path.isfile(f"{crate}/{path}"):
                    return f"there is no file {path}"
                texts[path] = read(f"{crate}/{path}")
            found = texts[path].count(old)
            if not old or found != 1:
                return f"an old text is in {path} {found if old else 0} times"
            texts[path] = texts[path].replace(old, line[len("new:"):].removeprefix(" "))
            old = ""
    return None if texts else "it has no old and new text"


def main():
    faults = 0
    for edit in sorted(glob.glob(f"{ROOT}/crates/*/must-fail/*.edit")):
        why = fault(edit, os.path.dirname(os.path.dirname(edit)))
        if why:
            print(f"{os.path.relpath(edit, ROOT)}: {why}")
            faults += 1
    return 1 if faults else 0


if __name__ == "__main__":
    sys.exit(main())
