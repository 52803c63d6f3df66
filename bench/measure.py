"""What the measurements of this folder share: the program, its limits, and a run of it that is measured."""

import collections
import os
import subprocess
import sys
import tempfile
from pathlib import Path

HERE = Path(__file__).resolve().parent
ROOT = HERE.parent
MOST_BYTES = 16_777_216
MOST_TOKENS = 2_000_000
MOST_ROWS = 200_000
TURNS = 10**12
# Of the output this many bytes are kept.
KEPT = 4096
# The file that a command reads before the script.
FIRST = {"run": "module.sql", "exec": "object.txt"}

# seconds are those of the processor, elapsed those of the clock; memory is the peak in KB; written is the end of the output.
Run = collections.namedtuple("Run", "status seconds elapsed memory written")


def program_of(words):
    """The path of the program that is measured: the first word, or else what `./psm which` prints."""
    if words:
        program = words[0]
    else:
        which = subprocess.run([str(ROOT / "psm"), "which"], stdout=subprocess.PIPE)
        if which.returncode:
            sys.exit(which.returncode)
        program = which.stdout.decode().strip()
    if not os.path.isfile(program) or not os.access(program, os.X_OK):
        sys.exit(f"bench: {program} is no program")
    return str(Path(program).resolve())


def in_module(text):
    return "CREATE MODULE m " + text + " END MODULE"


def write(folder, first, script, command="run"):
    (Path(folder) / FIRST[command]).write_text(first, encoding="utf-8")
    (Path(folder) / "script.sql").write_text(script, encoding="utf-8")


def once(program, folder, turns=None, seconds=0, megabytes=0, command="run"):
    """Runs the program on the module, or the object, and the script in the folder, with so much time and memory at most, or any."""
    words = [program, command, str(Path(folder) / FIRST[command]), str(Path(folder) / "script.sql")]
    if turns:
        words += ["--turns", str(turns)]
    return measured(folder, words, seconds, megabytes)


def measured(folder, words, seconds=0, megabytes=0):
    """Runs these words, with so much time and memory at most, or any. What they write is kept in the folder while it stands."""
    output = Path(folder) / "output.txt"
    command = [sys.executable, "-I", "-S", str(HERE / "once.py"), str(output), str(seconds), str(megabytes), *words]
    reported = subprocess.run(command, stdout=subprocess.PIPE, check=True).stdout.split()
    with open(output, "rb") as file:
        file.seek(max(0, output.stat().st_size - KEPT))
        written = file.read().decode(errors="replace")
    return Run(int(reported[0]), float(reported[1]), float(reported[2]), int(reported[3]), written)


def run(program, module, script, turns=None, runs=1):
    """The run of the module and the script that took the least time by the clock, of `runs` runs."""
    with tempfile.TemporaryDirectory(prefix="psm-bench-") as folder:
        write(folder, module, script)
        return min((once(program, folder, turns) for _ in range(runs)), key=lambda each: each.elapsed)


def generated(program, calls, runs=1):
    """The run of `gen` with `calls` calls that took the least time by the clock, of `runs` runs."""
    with tempfile.TemporaryDirectory(prefix="psm-bench-") as folder:
        words = [program, "gen", str(calls)]
        return min((measured(folder, words) for _ in range(runs)), key=lambda each: each.elapsed)


def listed(program, module, runs=1):
    """The run of `compile` on the module that took the least time by the clock, of `runs` runs, and the bytes of the listing."""
    with tempfile.TemporaryDirectory(prefix="psm-bench-") as folder:
        write(folder, module, "")
        words = [program, "compile", str(Path(folder) / "module.sql")]
        done = min((measured(folder, words) for _ in range(runs)), key=lambda each: each.elapsed)
        return done, (Path(folder) / "output.txt").stat().st_size


def loaded(program, module):
    """The run of `exec` with an empty script on the listing of the module, and the bytes of that."""
    with tempfile.TemporaryDirectory(prefix="psm-bench-") as folder:
        write(folder, module, "")
        measured(folder, [program, "compile", str(Path(folder) / "module.sql")])
        listing = Path(folder) / "listing.txt"
        (Path(folder) / "output.txt").rename(listing)
        size = listing.stat().st_size
        return measured(folder, [program, "exec", str(listing), str(Path(folder) / "script.sql")]), size
