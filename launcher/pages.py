"""Prints what the documents say of a fault: python3 pages.py CODE.., as K26, F2, 22003, syntax or status 6."""
import os
import re
import signal
import sys

import mends

ROOT = os.path.dirname(os.path.dirname(os.path.abspath(__file__)))
PAGES = ("docs/faults.md", "docs/language.md")
HEADING = re.compile(r"^(#+) +(.*?)\s*$")
# Other words for an entry.
SAME = {"syntax fault": "syntax", "nested too deep": "nesting", "turns used": "status 6"}


def bare(text):
    """Returns a heading or a code as it is compared: without marks, in small letters."""
    return re.sub(r"\s+", " ", re.sub(r"[`*_{}\[\]]", "", text)).strip().lower()


def headings(lines):
    """Yields the index, the level and the bare text of each heading outside of fences."""
    is_fenced = False
    for at, line in enumerate(lines):
        if line.startswith("```"):
            is_fenced = not is_fenced
        found = None if is_fenced else HEADING.match(line)
        if found:
            yield at, len(found[1]), bare(found[2])


def codes_of(heading):
    """Returns the codes that a heading is the entry of: `K26`, `K26 no function`, `F2`, `22003`, `status 6`, `K10, K11`."""
    whole = [heading, *heading.split(", ")]
    first = re.match(r"(k\d\d|f\d|[0-9a-z]\d[0-9a-z]{3}|status \d|[a-z][a-z0-9 -]*)\b", heading)
    return {*whole, *([first[1]] if first else [])}


def entry(page, code):
    """Returns the lines of the page's entry for the code, or None."""
    path = f"{ROOT}/{page}"
    if not os.path.isfile(path):
        return None
    with open(path, encoding="utf-8") as it:
        lines = it.read().splitlines()
    found = list(headings(lines))
    for number, (at, level, heading) in enumerate(found):
        if code in codes_of(heading):
            end = next((it[0] for it in found[number + 1 :] if it[1] <= level), len(lines))
            return lines[at:end]
    return None


def row(code):
    """Returns the rows of tables that begin with the code, where no entry has a heading of its own."""
    with open(f"{ROOT}/{PAGES[1]}", encoding="utf-8") as it:
        found = [line for line in it.read().splitlines() if re.match(rf"\| `?{re.escape(code)}\b", line, re.I)]
    return [" - ".join(it.strip() for it in line.strip("|").split(" | ")) for line in found] or None


def main(words):
    if not words:
        print("psm: usage: psm explain CODE, where CODE is as K26, F2, 22003, syntax or status 6", file=sys.stderr)
        return 1
    code = re.sub(r"^((module|script) \d+:\d+|object \d+) ", "", bare(" ".join(words)))
    code = re.sub(r"^(k\d\d|f\d) .*", r"\1", SAME.get(code, code))
    number = code[7:] if code.startswith("status ") else code
    lines = entry(PAGES[0], code) or entry(PAGES[1], code)
    mend = None if lines else mends.RULES.get(code.upper()) or mends.OBJECTS.get(code.upper()) or mends.TOKENS.get(code)
    lines = lines or row(number)
    if not lines:
        print(f"psm: no entry for '{' '.join(words)}'; a code is as K26, F2, 22003, syntax or status 6", file=sys.stderr)
        return 1
    print("\n".join(lines).rstrip())
    if mend:
        print(f"\nTo mend it: {mend}.")
    return 0


if __name__ == "__main__":
    # (as other commands, it ends quietly where its output is read no further)
    signal.signal(signal.SIGPIPE, signal.SIG_DFL)
    sys.exit(main(sys.argv[1:]))
