#!/usr/bin/env python3
"""Runs every example, every example of the documents and every cause of a syntax fault through the program.

In a document an example is a block `sql module`, maybe a block `sql script`, and a block `text output`. A line `--   ^` marks
the place of the fault in the line above it. `sql script turns N` gives the turns. A module stands until the next one, and so does a script
over it. A block `text listing` is what the module compiles to. A block `text object` stands in place of a module, and scripts are run
over it by `exec`. A block `text command` is a call of `psm` without files. In the tutorial each block is of these, or `sh` or `yaml`.

Each example with a module and a script is run twice: by `run`, and by `exec` over what `compile` prints, which has to give the same
bytes and the same status. So are the cases of run_rows, whose own stored run says what they print. PSM_PROGRAM names the program; else
`rt try` builds one without a proof. The examples of each page, and those of the folders, are counted as they are run.
"""
import collections
import os
import re
import sys
import tempfile

from pages import ROOT, blocks, exists, is_due, read

sys.path.insert(0, f"{ROOT}/launcher")
import folders  # noqa: E402
import refusals  # noqa: E402

PAGES = (
    "docs/tutorial.md",
    "docs/language.md",
    "docs/faults.md",
    "docs/testing-routines.md",
    "docs/formats.md",
    "docs/machine.md",
    "README.md",
    ".ci/objects.md",
)
TUTORIAL = PAGES[0]
CAUSES = ".ci/causes.txt"
ROWS = "crates/run_rows/stdin"
# By the second word of a block with code, what runs a script over it.
COMMANDS = {"module": "run", "object": "exec"}
USAGE = "usage: psm run M S [--turns N] | psm compile M | psm exec O S [--turns N] | psm gen N\n"
# What `gen` prints, by its argument.
GENERATED = {
    "0": "CALLS 0\nTURNS 0\nROW 0, NULL\n",
    "1": "CALLS 1\nTURNS 1\nROW 1, 1\n",
    "97": "CALLS 97\nTURNS 97\nROW 97, 4753\n",
    "98": "CALLS 98\nTURNS 99\nROW 97, 4851\n",
    "200": "CALLS 200\nTURNS 303\nROW 97, 20100\n",
    **{it: USAGE for it in ("200001", "999999", "1000000", "00", "07", "-1", "+1", "1.0", "x", "0x10")},
}
# Where it stands, the command, its two texts (a module file, an object or arguments, and a script), the turns, and what is reported of
# this status and output, if anything.
Case = collections.namedtuple("Case", "name command code script turns judge")


def status_due(output):
    """Returns the status of a run that prints this."""
    for start, status in (("usage: ", 1), ("module ", 4), ("script ", 5), ("object ", 8)):
        if output.startswith(start):
            return status
    return 6 if output.endswith("TURNS USED\n") else 0


def place_marked(text):
    """Returns the line and the column that a line `--  ^` marks in the line above it, or None."""
    lines = text.split("\n")
    for at, line in enumerate(lines):
        mark = re.fullmatch(r"--( *)\^", line)
        if mark:
            return at, len(line)
    return None


def judge_output(wanted, marked):
    def judge(status, output):
        due = status_due(wanted)
        if output != wanted or status != due:
            return f"prints, with status {status} where {due} is due:\n{output}"
        found = refusals.REFUSED.search(output)
        if marked and (not found or marked != (int(found[2]), int(found[3]))):
            return f"marks {marked[0]}:{marked[1]}, and another place is reported: {output}"
        return None

    return judge


def cases_of(page):
    """Returns the cases of a document, and what is wrong with its blocks."""
    found, wrong = [], []
    command, code, script, turns, used = "run", None, "", None, True
    for block in blocks(read(page)):
        words = block.info.split()
        name = f"{page}:{block.line}"
        if words[:2] in (["sql", "module"], ["text", "object"]):
            command, code, script, turns, used = COMMANDS[words[1]], block.text, "", None, False
        elif words[:2] == ["text", "command"]:
            command, code, script, turns, used = "arguments", block.text.strip()[len("psm ") :], "", None, False
        elif words[:2] == ["sql", "script"]:
            script, used = block.text, False
            turns = words[3] if words[2:3] == ["turns"] else None
        elif words[:2] == ["text", "output"] and code is not None:
            marked = place_marked(code) or place_marked(script)
            found.append(Case(name, command, code, script, turns, judge_output(block.text, marked)))
            used = True
        elif words[:2] == ["text", "listing"] and code is not None and command == "run":
            found.append(Case(name, "compile", code, "", None, judge_output(block.text, place_marked(code))))
            used = True
        elif words[:2] in (["text", "output"], ["text", "listing"]) or (page == TUTORIAL and words[:1] not in (["sh"], ["yaml"])):
            wrong.append(f"{name}: a block `{block.info}` is no part of an example")
    if not used:
        wrong.append(f"{page}: the last module, object or script has no output")
    return found, wrong


def cause(number, line):
    """Returns the case of a line of the causes."""
    reported, _, text = line.partition(" | ")
    column = text.index("»") + 1
    text = text.replace("»", "")

    def judge(status, output):
        found = refusals.REFUSED.search(output)
        if status != 4 or not found or (found[2], int(found[3])) != ("1", column):
            return f"is refused at column {column}, but: {output}"
        _, mend = refusals.help_for(found[4], text, 1, column)
        return None if reported in mend else f"the help is: {mend}"

    return Case(f"{CAUSES}:{number}", "run", text, "", None, judge)


def generated():
    """Returns the cases of `gen`."""
    return [Case(f"gen {it}", "arguments", f"gen {it}", "", None, judge_output(output, None)) for it, output in GENERATED.items()]


def judge_folder(differences, folder):
    return lambda status, output: "\n".join(differences(folder, status, output)) or None


def examples():
    found = []
    for folder in folders.cases_below(f"{ROOT}/examples"):
        name = os.path.relpath(folder, ROOT)
        module, script = (folders.read(f"{folder}/{part}") for part in folders.PARTS)
        found.append(Case(name, "run", module, script, folders.turns_of(folder), judge_folder(folders.differences, folder)))
        if folders.is_listed(folder):
            judge = judge_folder(folders.listing_differences, folder)
            found.append(Case(f"{name}/{folders.LISTING}", "compile", module, "", None, judge))
    return found


def rows():
    """Returns the cases of run_rows: the module file and the first script of each."""
    found, name, texts, turns, part = [], None, {}, None, None

    def end_case():
        module, script = ("\n".join(texts.get(it, [])) for it in ("module", "script"))
        if name is not None and script:
            found.append(Case(f"{ROWS}: {name}", "run", module, script, turns, lambda status, output: None))

    for line in read(ROWS).splitlines():
        if line.startswith("== "):
            end_case()
            name, turns, part = line[3:], None, None
        elif line.startswith("= "):
            words = line.split()
            if words[1] in ("module", "script", "after"):
                part = words[1]
                # a new file comes without those that stand on it
                for it in {"module": ("module", "script", "after"), "script": ("script", "after"), "after": ("after",)}[part]:
                    texts[it] = []
            elif words[1] == "turns":
                turns = words[2]
        elif line and not line.startswith("#"):
            texts.setdefault(part, []).append(line)
    end_case()
    return found


def groups():
    """Returns the cases by where they stand, and what is wrong with the pages."""
    found, wrong = [("examples", examples()), ("gen", generated())], []
    for page in PAGES:
        if exists(page):
            cases, faults = cases_of(page)
            found, wrong = [*found, (page, cases)], [*wrong, *faults]
        elif is_due(page):
            wrong.append(f"README.md names {page}, which is not there")
    found.append((ROWS, rows()))
    lines = enumerate(read(CAUSES).splitlines(), 1)
    found.append((CAUSES, [cause(number, line) for number, line in lines if line and not line.startswith("#")]))
    return found, wrong


def call(case, code, script):
    """Returns the arguments of a case with these files."""
    if case.command == "arguments":
        return case.code.split()
    if case.command == "compile":
        return folders.to_compile(code)
    return (folders.to_exec if case.command == "exec" else folders.to_run)(code, script, case.turns)


def judge_compiled(run, compiled, over):
    """Returns what is reported of a script whose module is compiled, by the results of `run`, of `compile`, and of `exec` if it was compiled."""
    if over is None:
        return [] if run == compiled and run[0] == folders.REFUSED else [f"compile gives, with status {compiled[0]}:\n{compiled[1]}"]
    return folders.exec_differences("compiled", run, over)


def run(cases):
    """Returns what is reported of each case that is wrong, and how many are run over what is compiled too."""
    twice = [number for number, case in enumerate(cases) if case.command == "run" and case.script]
    with tempfile.TemporaryDirectory() as folder:
        files = [[f"{folder}/{number}.{part}" for part in folders.PARTS] for number in range(len(cases))]
        for case, paths in zip(cases, files):
            for path, text in zip(paths, (case.code, case.script)):
                folders.write_text(path, text)
        calls = [call(case, *paths) for case, paths in zip(cases, files)]
        results = folders.run_all([*calls, *(folders.to_compile(files[it][0]) for it in twice)])
        compiled = dict(zip(twice, results[len(cases) :]))
        written = [it for it in twice if compiled[it][0] == 0]
        over = dict(zip(written, folders.run_over([(compiled[it][1], files[it][1], cases[it].turns) for it in written])))
    reported = [f"{case.name}: {it}" for case, result in zip(cases, results) for it in [case.judge(*result)] if it]
    reported += [f"{cases[it].name}: {line}" for it in twice for line in judge_compiled(results[it], compiled[it], over.get(it))]
    return reported, len(written)


def tell(wrong):
    for it in wrong:
        print(f"repository: {it}", file=sys.stderr, flush=True)


def main():
    found, wrong = groups()
    tell(wrong)
    if not folders.program():
        # (rt try would build the program anew for each group)
        found = [("all", [it for _, cases in found for it in cases])]
    count = over_compiled = 0
    for where, cases in found:
        reported, twice = run(cases)
        tell(reported)
        print(f"{where}: {len(cases)} run, {twice} of them over what is compiled too, {len(reported)} wrong", flush=True)
        count, over_compiled, wrong = count + len(cases), over_compiled + twice, wrong + reported
    print(f"{count} examples are run, {over_compiled} of them over what is compiled too, and {len(wrong)} are wrong")
    return 1 if wrong else 0


if __name__ == "__main__":
    sys.exit(main())
