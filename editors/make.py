#!/usr/bin/env python3
"""Writes the editors' files from the words in docs/formats.md: editors/make.py. With --check it only says which are stale."""
import json
import os
import sys

HERE = os.path.dirname(os.path.abspath(__file__))
sys.path.insert(0, os.path.join(os.path.dirname(HERE), "launcher"))
from tokens import word_lists  # noqa: E402

TYPES = "CHAR CHARACTER DEC DECIMAL INT INTEGER NUMERIC SMALLINT VARCHAR VARYING".split()
FUNCTIONS = (
    "AVG CAST CHARACTER_LENGTH CHAR_LENGTH COALESCE COUNT LOWER MAX MIN NULLIF POSITION SUBSTRING SUM TRIM UPPER".split()
)
OPERATORS = "AND BETWEEN EXISTS IN IS LIKE NOT OR".split()
CONSTANTS = ["NULL"]


def groups():
    """Returns the words of each group, by its name."""
    reserved, other = word_lists()
    named = {"type": TYPES, "function": FUNCTIONS, "operator": OPERATORS, "constant": CONSTANTS}
    taken = {word for words in named.values() for word in words}
    lacking = taken - {*reserved, *other}
    if lacking:
        sys.exit(f"editors/make.py: docs/formats.md does not have {' '.join(sorted(lacking))}")
    rest = lambda words: sorted(set(words) - taken)
    return {**{name: sorted(words) for name, words in named.items()}, "keyword": rest(reserved), "other": rest(other)}


def textmate(words):
    def match(name, group):
        return {"name": name, "match": rf"(?i)\b(?:{'|'.join(words[group])})\b"}

    patterns = [
        {"name": "comment.line.double-dash.psm", "match": "--.*$"},
        {"name": "string.quoted.single.psm", "begin": "'", "end": "'(?!')", "patterns": [{"match": "''"}]},
        {"name": "variable.other.quoted.psm", "begin": '"', "end": '"(?!")', "patterns": [{"match": '""'}]},
        {"name": "constant.numeric.psm", "match": r"(?<![A-Za-z0-9_])(?:\d+(?:\.\d*)?|\.\d+)"},
        match("storage.type.psm", "type"),
        match("support.function.psm", "function"),
        match("keyword.operator.word.psm", "operator"),
        match("constant.language.psm", "constant"),
        match("keyword.control.psm", "keyword"),
        match("support.constant.psm", "other"),
        {"name": "keyword.operator.psm", "match": r"<>|<=|>=|\|\||[=<>+*/?-]"},
    ]
    grammar = {"name": "SQL/PSM", "scopeName": "source.psm", "fileTypes": ["sql", "psm"], "patterns": patterns}
    return json.dumps(grammar, indent=2) + "\n"


def vim(words):
    rows = [
        '" SQL/PSM as psm reads it. Written by editors/make.py from the words in docs/formats.md.',
        "if exists('b:current_syntax') | finish | endif",
        "syntax case ignore",
        "syntax match psmComment '--.*$'",
        "syntax region psmText start=+'+ skip=+''+ end=+'+",
        'syntax region psmName start=+"+ skip=+""+ end=+"+',
        r"syntax match psmNumber '\<\d\+\(\.\d*\)\?\>\|\.\d\+\>'",
        *[f"syntax keyword psm{group.title()} {' '.join(words[group])}" for group in words],
    ]
    links = {
        "Comment": "Comment", "Text": "String", "Name": "Identifier", "Number": "Number", "Type": "Type",
        "Function": "Function", "Operator": "Operator", "Constant": "Constant", "Keyword": "Statement", "Other": "Special",
    }
    rows += [f"highlight default link psm{name} {to}" for name, to in links.items()]
    return "\n".join([*rows, "let b:current_syntax = 'psm'", ""])


def main(is_checked):
    words = groups()
    status = 0
    for name, text in (("psm.tmLanguage.json", textmate(words)), ("psm.vim", vim(words))):
        path = os.path.join(HERE, name)
        if not is_checked:
            with open(path, "w", encoding="utf-8") as it:
                it.write(text)
        elif not os.path.isfile(path) or open(path, encoding="utf-8").read() != text:
            print(f"editors/{name} is not what editors/make.py makes of docs/formats.md: run it", file=sys.stderr)
            status = 1
    return status


if __name__ == "__main__":
    sys.exit(main("--check" in sys.argv[1:]))
