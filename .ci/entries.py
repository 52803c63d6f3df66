#!/usr/bin/env python3
"""Tells each fault, rule of code, SQLSTATE, statement and status of the program that has no entry in docs/faults.md or docs/language.md."""
import re
import sys

from pages import ROOT, headings, is_due, exists, read

sys.path.insert(0, f"{ROOT}/launcher")
import mends  # noqa: E402

FAULTS, LANGUAGE = "docs/faults.md", "docs/language.md"


def rules():
    """Returns the code and the text of each rule of the checker."""
    return re.findall(r'=> "(K\d\d) ([^"]+)"', read("crates/psm_rules/src/rule.rt"))


def faults_of_files():
    """Returns the texts of the faults of tokens and of the grammar."""
    found = re.findall(r'Fault::\w+(?:\([^)]*\))? => "([^"]+)"', read("crates/psm_faults/src/fault.rt"))
    return [it for it in found if not re.match(r"K\d\d", it)]


def faults_of_objects():
    """Returns what a line of an object is refused for: the rules of code by their codes, and the other text as it is."""
    return re.findall(r'=> "(F\d(?= )|not an object text)', read("crates/psm_load/src/fault.rt"))


def states():
    return re.findall(r'bytes: \*b"(\w{5})"', read("crates/psm_sqlstate/src/state.rt"))


def statuses():
    """Returns the numbers of the statuses, which are those of their places in the list."""
    listed = re.search(r"^pub enum Status \{(.*?)^\}", read("crates/psm_files/src/status.rt"), re.M | re.S)[1]
    return [str(it) for it, _ in enumerate(re.findall(r"^    \w+,$", listed, re.M))]


def production(name):
    """Returns the alternatives of a production of the grammar, as they are written."""
    text = re.search(rf"^    {name} +=(.*?)(?=^    \w+ +=|^\n)", read("docs/formats.md") + "\n", re.M | re.S)[1]
    depth, parts = 0, [""]
    for sign in re.findall(r'"[^"]*"|.', text, re.S):
        depth += sign in ("(", "[", "{")
        depth -= sign in (")", "]", "}")
        parts, now = ([*parts, ""], "") if sign == "|" and not depth else (parts, sign)
        parts[-1] += now
    return [" ".join(it.split()) for it in parts]


def statements():
    """Returns the words with which statements, commands and declarations begin."""
    found = []
    for name in ("table", "module", "routine", "block", "simple", "decl", "cursor", "handler", "command"):
        for part in production(name):
            words = re.match(r"(CREATE \w+|[A-Z]+)", part)
            found += [words[1]] if words else []
    return sorted(set(found))


def is_entry(names, code):
    """Returns whether a heading is the entry of the code: it begins with it, or has it as a word in capitals."""
    return any(re.search(rf"(^|[^\w]){re.escape(code)}($|[^\w])", it.replace("`", "")) for it in names)


def is_row(text, code):
    """Returns whether a row of a table begins with the code."""
    return re.search(rf"^\| `?(?:[a-z]+: )?{re.escape(code)}\b", text, re.M) is not None


def lacking():
    names, text = [], read(LANGUAGE)
    for page in (FAULTS, LANGUAGE):
        names += headings(read(page)) if exists(page) else []
    due = [(it, it) for it in [*(code for code, _ in rules()), *states(), *faults_of_objects()]]
    # (with the page of faults came the entries of statuses and statements)
    due += [(f"status {it}", it) for it in statuses()] if is_due(FAULTS) else []
    due += [(it, it) for it in statements()] if is_due(FAULTS) else []
    for entry, in_row in due:
        if not is_entry(names, entry) and not is_row(text, in_row):
            yield f"{entry} has no entry in {FAULTS} or {LANGUAGE}"
    known = [*mends.RULES, *mends.TOKENS, *mends.OBJECTS]
    for fault in [*(code for code, _ in rules()), *faults_of_files(), *faults_of_objects()]:
        if fault not in known:
            yield f"launcher/mends.py says nothing of {fault}"
    if is_due(FAULTS) and not exists(FAULTS):
        yield f"README.md names {FAULTS}, which is not there"


def main():
    reported = list(lacking())
    for it in reported:
        print(f"repository: {it}", file=sys.stderr)
    return 1 if reported else 0


if __name__ == "__main__":
    sys.exit(main())
