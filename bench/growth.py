"""Measures how the cost of each kind of file grows with its size. bench/growth.sh runs this; its head says how."""

import argparse
import fnmatch
import sys
import tempfile
from pathlib import Path

from kinds import KINDS
from measure import FIRST, MOST_BYTES, MOST_TOKENS, ROOT, TURNS, once, program_of, write

sys.path.insert(0, str(ROOT / "launcher"))
from tokens import FORMS  # noqa: E402

BOUND = 2.3
RUNS = 3
# A run that takes more processor seconds than this is not repeated.
LONG = 5
# The ratio of two runs is judged if the larger run takes as much as this: processor seconds, and memory in KB.
ENOUGH_SECONDS = 0.02
ENOUGH_MEMORY = 16_384
HEAD = f"{'kind':28} {'size':>7}    s 1/4   s 1/2   s all   MB 1/4  MB 1/2  MB all  ratios of s      ratios of MB"
STOPPED = -24
OUT_OF_MEMORY = 7


class Failure(Exception):
    """A run that did not end as expected."""


def options(words):
    parser = argparse.ArgumentParser(prog="bench/growth.sh", description="Measures how the cost of each kind of file grows with its size.")
    parser.add_argument("--kinds", metavar="NAME,..", default="*", help="only these kinds; * and ? are patterns")
    sizes = parser.add_mutually_exclusive_group()
    sizes.add_argument("--largest", metavar="N", type=int, help="N as the largest size of each kind, or the kind's limit if that is lower")
    sizes.add_argument("--limits", action="store_true", help="the limit of each kind as its largest size")
    parser.add_argument("--seconds", metavar="N", type=int, default=60, help="stop a run after N processor seconds (60)")
    parser.add_argument("--memory", metavar="MB", type=int, default=4000, help="refuse a run more memory than this (4000)")
    parser.add_argument("--write", metavar="FOLDER", help="only write the files, and print their bytes and tokens")
    parser.add_argument("--list", action="store_true", help="only print the kinds")
    chosen = parser.parse_args(words)
    if chosen.largest is not None and chosen.largest < 8:
        parser.error("the largest size is at least 8")
    for value in (chosen.seconds, chosen.memory):
        if value < 1:
            parser.error("seconds and memory are at least 1")
    chosen.kinds = picked(parser, chosen.kinds.split(","))
    return chosen


def picked(parser, patterns):
    for pattern in patterns:
        if not fnmatch.filter(KINDS, pattern):
            parser.error(f"there is no kind {pattern}; --list prints the kinds")
    return [kind for name, kind in KINDS.items() if any(fnmatch.fnmatchcase(name, pattern) for pattern in patterns)]


def sizes_of(kind, chosen):
    """A size, twice and four times that."""
    largest = kind.most if chosen.limits else min(chosen.largest or kind.largest, kind.most)
    return [largest // 4 * times for times in (1, 2, 4)]


def measured(kind, size, program, chosen):
    """The run of the least processor seconds."""
    files = kind.make(size)
    with tempfile.TemporaryDirectory(prefix="psm-growth-") as folder:
        write(folder, files.first, files.script, files.command)
        best = None
        for _ in range(RUNS):
            run = once(program, folder, TURNS, chosen.seconds, chosen.memory, files.command)
            check(run, files.ends, chosen)
            best = min(best or run, run, key=lambda each: each.seconds)
            if run.seconds > LONG:
                break
    return best


def check(run, ends, chosen):
    if run.status == STOPPED:
        raise Failure(f"stopped after {chosen.seconds} processor seconds")
    if run.status == OUT_OF_MEMORY:
        raise Failure(f"out of memory, of which it may take {chosen.memory} MB; it took {run.memory >> 10} MB")
    if run.status:
        raise Failure(f"status {run.status} in place of 0; the output ends with {run.written[-80:]!r}")
    if not run.written.endswith(ends):
        raise Failure(f"the output ends with {run.written[-80:]!r} in place of {ends!r}")


def ratios(values, enough):
    """For each two neighbours their ratio, and whether the larger one is enough to judge it."""
    return [(after / max(before, 1e-6), after >= enough) for before, after in zip(values, values[1:])]


def shown(ratio, is_judged):
    return f"{ratio:.2f} " if is_judged else f"({ratio:.2f})"


def cells(values, form, width):
    return " ".join((form(value) if value is not None else "-").rjust(width) for value in values)


def line(kind, sizes, runs):
    """Prints the line of a kind. Returns the ratios above the bound, in words."""
    above = []
    seconds = [run.seconds for run in runs]
    memory = [run.memory for run in runs]
    parts = [f"{kind.name:28} {sizes[-1]:7}"]
    missing = [None] * (len(sizes) - len(runs))
    parts.append(cells(seconds + missing, "{:.3f}".format, 7))
    parts.append(cells([kilobytes / 1024 for kilobytes in memory] + missing, "{:.1f}".format, 7))
    for name, values, enough in (("seconds", seconds, ENOUGH_SECONDS), ("memory", memory, ENOUGH_MEMORY)):
        found = ratios(values, enough)
        parts.append(cells([shown(*each) for each in found] + missing[:2], str, 7))
        for (ratio, is_judged), before, after in zip(found, sizes, sizes[1:]):
            if is_judged and ratio > BOUND:
                above.append(f"{kind.name}: {name} {ratio:.2f} from {before} to {after}")
    if kind.counts_rows and len(runs) == len(sizes) and memory[2] >= ENOUGH_MEMORY:
        parts.append(f"{(memory[2] - memory[1]) * 1024 // (sizes[2] - sizes[1])} bytes a row")
    print("  ".join(parts), flush=True)
    return above


def measure(chosen, program):
    above, failed = [], []
    print(HEAD, flush=True)
    for kind in chosen.kinds:
        sizes, runs = sizes_of(kind, chosen), []
        for size in sizes:
            try:
                runs.append(measured(kind, size, program, chosen))
            except Failure as failure:
                failed.append(f"{kind.name} {size}: {failure}")
                break
        above += line(kind, sizes, runs)
    print(f"\nratios above {BOUND}: {len(above) or 'none'}{' of those measured' * bool(failed)}")
    for each in above:
        print(f"  {each}")
    for each in failed:
        print(f"error: {each}")
    return 1 if failed else 0


def count_of_tokens(text):
    return sum(1 for match in FORMS.finditer(text) if match.lastgroup != "space")


def write_files(chosen):
    """Writes the files of each kind, and says which of them no program may accept."""
    status = 0
    for kind in chosen.kinds:
        for size in sizes_of(kind, chosen):
            files = kind.make(size)
            folder = Path(chosen.write) / kind.name / str(size)
            folder.mkdir(parents=True, exist_ok=True)
            write(folder, files.first, files.script, files.command)
            (folder / "ends.txt").write_text(files.ends, encoding="utf-8")
            for name, text in ((FIRST[files.command], files.first), ("script.sql", files.script)):
                bytes_of, tokens = len(text.encode()), 0 if name == FIRST["exec"] else count_of_tokens(text)
                is_over = bytes_of > MOST_BYTES or tokens > MOST_TOKENS
                status = status or int(is_over)
                print(f"{kind.name:28} {size:7}  {name}  {bytes_of:9} bytes  {tokens:8} tokens{'  TOO LARGE' * is_over}", flush=True)
    return status


def main(words):
    chosen = options(words)
    if chosen.list:
        for kind in chosen.kinds:
            print(f"{kind.name:28} {kind.largest:7} of {kind.most:7}  {kind.make.__doc__}")
        return 0
    return write_files(chosen) if chosen.write else measure(chosen, program_of([]))


def grow(program, runs):
    """Prints the lines of the kinds of which the run is measured, or of the others."""
    chosen = options([])
    chosen.kinds = [kind for kind in chosen.kinds if kind.runs == runs]
    print()
    return measure(chosen, program)


if __name__ == "__main__":
    sys.exit(main(sys.argv[1:]))
