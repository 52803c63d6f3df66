"""Proves and builds the program, crate by crate, and says how far it is: python3 prove.py ROOT."""
import collections
import os
import re
import subprocess
import sys
import time

PROGRAM = "psm"
# What a first proof of all crates takes in processor minutes, on a quick machine and on a slow one.
QUICK, SLOW = 100, 250
# rt works on one crate at a time and gives a large one up to this many processors.
MOST_PROCESSORS = 2
# Lines of rt that say why a crate isn't proved.
TELLING = re.compile(r"error|^fn .*(not proved|no proof)|^rt: mend|limit")


def say(text):
    print(f"psm: {text}", file=sys.stderr, flush=True)


def crates_below(root):
    """Returns the crates that the program stands on, lowest first, and the program last."""
    below = {}
    with open(f"{root}/crates.txt", encoding="utf-8") as lines:
        for line in lines:
            name, found, others = line.partition("#")[0].partition(":")
            if found:
                below[name.split()[0]] = others.split()
    order = []

    def visit(name):
        if name in below and name not in order:
            for other in below[name]:
                visit(other)
            order.append(name)

    visit(PROGRAM)
    return order


def minutes(seconds):
    whole = int(seconds // 60)
    return f"{whole} minute{'' if whole == 1 else 's'}"


def prove(root, name):
    """Proves a crate, and of the program also builds it. Returns the status and what is worth printing of a failure."""
    words = ["rt", "run", "--"] if name == PROGRAM else ["rt", "lib"]
    last, reported = collections.deque(maxlen=15), []
    how = {"stdout": subprocess.PIPE, "stderr": subprocess.STDOUT, "text": True, "errors": "replace"}
    with subprocess.Popen(words, cwd=f"{root}/crates/{name}", stdin=subprocess.DEVNULL, **how) as ran:
        for line in ran.stdout:
            last.append(line)
            if TELLING.search(line):
                reported.append(line)
    # The program that `rt run` has built ends with status 1 where it gets no words.
    is_built = name == PROGRAM and os.access(f"{root}/crates/{name}/out/{name}", os.X_OK)
    return 0 if is_built else ran.returncode, reported[:30] or list(last)


def main(root):
    crates = crates_below(root)
    processors = min(len(os.sched_getaffinity(0)), MOST_PROCESSORS)
    say(f"proving {len(crates)} crates, then building the program. From nothing this takes {QUICK} to {SLOW} processor minutes,")
    say(f"here about {QUICK // processors} to {SLOW // processors} minutes. Finished crates are kept, so it can be stopped and started again.")
    say("'psm try run M S' runs without a proof, in two to five minutes.")
    begun = time.monotonic()
    for number, name in enumerate(crates, 1):
        say(f"crate {number} of {len(crates)}, {minutes(time.monotonic() - begun)} so far: {name}")
        status, reported = prove(root, name)
        if status:
            sys.stderr.writelines(reported)
            say(f"{name} is not proved; run 'rt check' in {root}/crates/{name}")
            return 70
    say(f"proved and built in {minutes(time.monotonic() - begun)}")
    return 0


if __name__ == "__main__":
    try:
        sys.exit(main(sys.argv[1]))
    except KeyboardInterrupt:
        say("stopped; what is proved is kept")
        sys.exit(130)
