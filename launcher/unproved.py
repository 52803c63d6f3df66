"""Runs the program without a proof, by `rt try`: python3 unproved.py yes|no ARGUMENTS, where yes explains a refusal.

For many runs `program` builds it once.

The arguments are those of the program: run M S [--turns N], compile M, exec O S [--turns N] or gen N.
"""
import atexit
import functools
import glob
import os
import re
import shutil
import subprocess
import sys
import tempfile
import time

import refusals

ROOT = os.path.dirname(os.path.dirname(os.path.abspath(__file__)))
ENDED = re.compile(r"^run=ended status=(\d+) ", re.M)
CASE = re.compile(r"^case=(\S+) run=(\S+)(?: status=(\d+))?", re.M)
# Where it is run, rt try copies what lies below; so it is called in the folder of the program.
FOLDER = f"{ROOT}/crates/psm"
FAILED = 70


def say(text):
    print(f"psm: {text}", file=sys.stderr, flush=True)


def say_how_long(what):
    say(f"{what} without a proof: rt try compiles the program first, in two to five minutes, longer on a busy machine")


def keep_link(made, kept):
    """Links the file where a program stands below the folder in which it is made, if one stands there."""
    for path in glob.glob(f"{made}/*/*/program"):
        try:
            if not (os.path.isfile(kept) and os.path.samefile(path, kept)):
                os.link(path, f"{kept}.new")
                os.replace(f"{kept}.new", kept)
        except FileNotFoundError:
            # (it was removed in the meantime)
            pass


@functools.lru_cache(maxsize=None)
def program():
    """Builds the program without a proof, once, and returns its path, or None where rt try lets no program be seen.

    rt try builds it as a file in a folder below TMPDIR, runs it there, which prints the usage line, and removes the folder. A link to
    the file stays until this process ends.
    """
    say_how_long("building")
    folder = tempfile.mkdtemp(prefix="psm-unproved-")
    atexit.register(shutil.rmtree, folder, ignore_errors=True)
    made, kept = f"{folder}/made", f"{folder}/psm"
    os.mkdir(made)
    how = {"stdin": subprocess.DEVNULL, "stdout": subprocess.DEVNULL, "stderr": subprocess.DEVNULL}
    with subprocess.Popen(["rt", "try"], cwd=FOLDER, env={**os.environ, "TMPDIR": made}, **how) as building:
        while building.poll() is None:
            keep_link(made, kept)
            time.sleep(0.01)
    return kept if os.path.isfile(kept) else None


def files_of(words):
    """Returns the files of a call, by the letters that stand for them in the usage line."""
    return {} if words[0] == "gen" else dict(zip("OS" if words[0] == "exec" else "MS", words[1:3]))


def run(is_explained, words):
    """Runs the program once, prints what it prints, and returns its status."""
    say_how_long("running")
    files = files_of(words)
    given = [it for name, file in files.items() for it in ("--data", f"{name}={os.path.abspath(file)}")]
    command = ["rt", "try", *given, "--", words[0], *files, *words[1 + len(files) :]]
    how = {"stdin": subprocess.DEVNULL, "stdout": subprocess.PIPE, "stderr": subprocess.PIPE}
    ran = subprocess.run(command, cwd=FOLDER, **how)
    ended = ENDED.search(ran.stderr.decode(errors="replace"))
    text = ran.stdout
    for name, file in files.items():
        # The one line that names a file is that of a file too long.
        text = re.sub(rb"\A" + os.fsencode(name) + rb"(?= is longer than )", os.fsencode(file), text)
    sys.stdout.buffer.write(text)
    sys.stdout.flush()
    if not ended:
        sys.stderr.buffer.write(ran.stderr)
        say("rt try gave no answer")
        return FAILED
    status = int(ended[1])
    if is_explained and status in (4, 5, 8):
        refusals.explain(text.decode(errors="replace"), *files.values())
    return status


def run_many(calls):
    """Runs the program with each of these lists of arguments, and returns the list of (status, output), with None for a status that isn't known."""
    with tempfile.TemporaryDirectory(prefix="psm-cases-") as folder:
        data = []
        for number, words in enumerate(calls):
            files = {f"{letter}{number}": file for letter, file in files_of(words).items()}
            name = f"case{number:05}"
            with open(f"{folder}/{name}", "w", encoding="utf-8"):
                pass
            with open(f"{folder}/{name}.args", "w", encoding="utf-8") as args:
                args.writelines(f"{word}\n" for word in [words[0], *files, *words[1 + len(files) :]])
            for it, file in files.items():
                data += ["--data", f"{it}={os.path.abspath(file)}"]
        how = {"stdin": subprocess.DEVNULL, "stdout": subprocess.PIPE, "stderr": subprocess.PIPE}
        ran = subprocess.run(["rt", "try", *data, "--cases", folder], cwd=FOLDER, **how)
    said = ran.stderr.decode(errors="replace")
    statuses = {name: int(status) if status else None for name, _, status in CASE.findall(said)}
    if not statuses:
        sys.stderr.write(said)
        say("rt try gave no answer")
        sys.exit(FAILED)
    outputs = parted(ran.stdout.decode(errors="replace"), len(calls))
    return [(statuses.get(f"case{it:05}"), outputs[it]) for it in range(len(calls))]


def parted(text, count):
    """Returns the output of each case, which stands below the line `== NAME`."""
    outputs, at = [""] * count, None
    for line in text.splitlines(keepends=True):
        head = re.fullmatch(r"== case(\d{5})\n", line)
        if head:
            at = int(head[1])
        elif at is not None:
            outputs[at] += line
    return outputs


if __name__ == "__main__":
    sys.exit(run(sys.argv[1] == "yes", sys.argv[2:]))
