#!/usr/bin/env python3
"""Runs the program over files that cannot stand among the rows: bytes that are no text, files of 16 MB and more, mutated listings.

Each object is refused by its line, or an empty script over it writes nothing. Of each file the size, the time and the most memory are
reported. PSM_PROGRAM names the program, or it is the proved and built one; without one nothing is run.
"""
import os
import re
import subprocess
import sys
import tempfile
import time

from cases import rows
from pages import ROOT

MOST = 16_777_216
SECONDS = 300
UNFIT = "object %d not an object text\n"
LONG = f"O is longer than {MOST} bytes\n"
EMPTY = b"PSM 3 0 0\n"
STATUSES = {"object": 8, "module": 4, "O": 9, "M": 9, "S": 9, "cannot": 2}


def named(name):
    """An object with a routine of that name."""
    return b"PSM 3 0 1\nROUTINE P '" + name + b"' 0 0 0 0 0 0 0 0 1 -\n0 - - END\n"


def routine(lines, more=b""):
    return b"PSM 3 0 1\nROUTINE P 'P' 0 0 0 0 0 0 0 0 %d -\n" % lines + more


def of_length(size):
    """An object of `size` bytes: lines of 12 bytes, and a text that takes what is left."""
    last = b"0 - - CONST T '%s'\n0 - T DROP\n0 - - END\n"
    lines = (size - 2000) // 12
    head = routine(lines + 3) + b"0 - - CLEAR\n" * lines
    return head + last % (b"x" * (size - len(head) - len(last % b"")))


def stack(size):
    """A routine whose second line states `size` operands."""
    return routine(3) + b"0 - - CONST N 1\n0 - " + b"N" * size + b" DROP\n0 - - END\n"


def expression(lines):
    """A CHECK of `lines` lines and two."""
    head = b"PSM 3 1 0\nTABLE 'T' 1 0 1 0\nCOL 'K' INTEGER 1 NULL\nKEY 0\nEXPR %d\n- COL 0\n" % (lines + 2)
    return head + b"N NEG\n" * lines + b"N ISNULL\n"


def contexts(count):
    """A routine with `count` blocks, each in the one before, and an END after them."""
    head = b"PSM 3 0 1\nROUTINE P 'P' 0 0 0 0 0 0 %d 0 %d -\n" % (count, 2 * count + 1)
    blocks = b"".join(b"CTX %d BLOCK 0 %d\n" % (it, 2 * count - 1 - it) for it in range(count))
    ways = b"".join(b"%d - - ENTER %d\n" % (it, it + 1) for it in range(count))
    back = b"".join(b"%d - - EXIT %d\n" % (it, it) for it in range(count, 0, -1))
    return head + blocks + ways + back + b"0 - - END\n"


# What the object is, what makes it, and what is printed. The answers were worked out from docs/formats.md.
CASES = [
    ("bytes that are no UTF-8 in a name", lambda: named(b"\xff"), UNFIT % 2),
    ("a surrogate in UTF-8 in a name", lambda: named(b"\xed\xa0\x80"), UNFIT % 2),
    ("a letter in UTF-8 in a name", lambda: named("é".encode()), UNFIT % 2),
    ("bytes that are no UTF-8 after the last line", lambda: EMPTY + b"\xfe\n", UNFIT % 2),
    ("a byte order mark", lambda: b"\xef\xbb\xbf" + EMPTY, UNFIT % 1),
    ("UTF-16", lambda: EMPTY.decode().encode("utf-16-le"), UNFIT % 1),
    ("a NUL in a name", lambda: named(b"P\0Q"), UNFIT % 2),
    ("a NUL between two words", lambda: b"PSM 3\0 0 0\n", UNFIT % 1),
    ("a NUL after the last line", lambda: EMPTY + b"\0", UNFIT % 2),
    ("NULs", lambda: bytes(1000), UNFIT % 1),
    ("as many blanks as a file may have", lambda: b" " * MOST, UNFIT % 1),
    ("one blank more", lambda: b" " * (MOST + 1), LONG),
    ("as many line feeds", lambda: b"\n" * MOST, UNFIT % 1),
    ("one number", lambda: b"PSM 3 0 " + b"9" * (MOST - 9) + b"\n", UNFIT % 1),
    ("one name", lambda: named(b"P" * (MOST - len(named(b"")))), UNFIT % 2),
    ("one text that is not closed", lambda: b"PSM 3 0 1\nROUTINE P '" + b"P" * (MOST - 21), UNFIT % 2),
    ("the longest object", lambda: of_length(MOST), ""),
    ("the same and one byte more", lambda: of_length(MOST + 1), LONG),
    ("an object of 20 MB", lambda: of_length(20_000_000), LONG),
    ("the longest object without its last line feed", lambda: of_length(MOST)[:-1], None),
    ("a stack of 16,000,000 letters", lambda: stack(16_000_000), "object 3 F3 stack does not follow\n"),
    ("a CHECK of 2,000,000 lines", lambda: expression(2_000_000), ""),
    ("200,000 blocks in one another", lambda: contexts(200_000), ""),
    ("more tables than lines", lambda: b"PSM 3 4294967295 0\n" + b"TABLE 'T' 1 0 0 0\nCOL 'K' INTEGER 1 NULL\nKEY 0\n" * 300_000, UNFIT % 900_002),
]


TABLE = b"CREATE TABLE u (k INTEGER PRIMARY KEY, w INTEGER UNIQUE); CREATE MODULE m END MODULE"
FULL = """1 INSERT U
OK
2 INSERT U
SQLSTATE X0002 table full
3 SELECT
ROW 200000, 20000100000
OK
"""


def falling():
    """A script that fills a table from its last key to its first, puts in one row more, and counts them."""
    listed = ", ".join(f"({200_001 - it}, {it})" for it in range(1, 200_001))
    return f"INSERT INTO u VALUES {listed};\nINSERT INTO u VALUES (0, 0);\nSELECT COUNT(*), SUM(w) FROM u;\n".encode()


# The same of module files with scripts; None is a file that is not there.
RUNS = [
    ("a module file that is not there", lambda: (None, b""), "cannot read M\n"),
    ("a script that is not there", lambda: (TABLE, None), "cannot read S\n"),
    ("a module file of as many blanks as it may have", lambda: (b" " * MOST, b""), f"module 1:{MOST + 1} syntax fault\n"),
    ("a module file of one blank more", lambda: (b" " * (MOST + 1), b""), f"M is longer than {MOST} bytes\n"),
    ("a script of as many blanks as it may have", lambda: (TABLE, b" " * MOST), ""),
    ("a script of one blank more", lambda: (TABLE, b" " * (MOST + 1)), f"S is longer than {MOST} bytes\n"),
    ("200,000 rows in falling order of their keys, and one more", lambda: (TABLE, falling()), FULL),
]


def mutated(listing):
    """Yields listings that are none: each beginning of one, and it with the resume of a line at the line itself; and what is reported."""
    lines = listing.splitlines(keepends=True)
    for left in range(len(lines)):
        yield "".join(lines[:left]), UNFIT % (left + 1)
    number = 0
    for at, line in enumerate(lines):
        found = re.match(r"(\d+ )(\d+)( .*)", line, re.S)
        if found:
            yield "".join([*lines[:at], f"{found[1]}{number}{found[3]}", *lines[at + 1 :]]), f"object {at + 1} F5 resume does not follow\n"
        number = 0 if line.startswith("ROUTINE") else number + 1 if line[0].isdigit() else number


def program():
    built = f"{ROOT}/crates/psm/out/psm"
    return os.environ.get("PSM_PROGRAM") or (built if os.access(built, os.X_OK) else None)


def call(path, folder, *arguments):
    """Returns the status and the output of the program, and the most memory that it had, in MB (bench/once.py)."""
    output = f"{folder}/output"
    words = [sys.executable, "-I", "-S", f"{ROOT}/bench/once.py", output, str(SECONDS), "0", path, *arguments]
    reported = subprocess.run(words, cwd=folder, stdin=subprocess.DEVNULL, stdout=subprocess.PIPE, check=True).stdout.split()
    with open(output, "rb") as it:
        printed = it.read().decode(errors="replace")
    return int(reported[0]), printed, int(reported[3]) // 1024


def put(folder, **files):
    """Puts files into the folder; those of None are not there."""
    for name, data in files.items():
        if os.path.isfile(f"{folder}/{name}"):
            os.remove(f"{folder}/{name}")
        if data is not None:
            with open(f"{folder}/{name}", "wb") as it:
                it.write(data)


def status_due(printed):
    return STATUSES.get(printed.split(" ")[0], 0)


def judge(name, due, status, printed):
    if (status, printed) == (status_due(due), due):
        return 0
    print(f"repository: {name}: status {status}, {printed[:200]!r}, where {due!r} is due", file=sys.stderr)
    return 1


def reported(path, folder, name, due, size, *arguments):
    """Runs a case, prints its size, time and memory, and returns whether it is wrong."""
    start = time.monotonic()
    status, printed, memory = call(path, folder, *arguments)
    print(f"{name}: {size} bytes, {time.monotonic() - start:.2f} s, {memory} MB", flush=True)
    return judge(name, due, status, printed)


def objects(path, folder):
    """Yields of each object whether it is wrong."""
    put(folder, S=b"")
    os.mkdir(f"{folder}/O")
    yield judge("a folder as an object", "cannot read O\n", *call(path, folder, "exec", "O", "S")[:2])
    os.rmdir(f"{folder}/O")
    yield judge("an object that is not there", "cannot read O\n", *call(path, folder, "exec", "O", "S")[:2])
    for name, make, due in CASES:
        data = make()
        put(folder, O=data)
        yield reported(path, folder, name, UNFIT % (data.count(b"\n") + 1) if due is None else due, len(data), "exec", "O", "S")


def runs(path, folder):
    """Yields of each module file with a script whether it is wrong."""
    for name, make, due in RUNS:
        module, script = make()
        put(folder, M=module, S=script)
        yield reported(path, folder, name, due, len(module or b"") + len(script or b""), "run", "M", "S")


def listings(path, folder):
    """Yields of each mutated listing of the order desk whether it is wrong."""
    desk = next(it for it in rows() if it.name.endswith(": an order desk"))
    put(folder, M=desk.code.encode(), S=desk.script.encode())
    _, listing, _ = call(path, folder, "compile", "M")
    for number, (mutant, due) in enumerate(mutated(listing)):
        put(folder, O=mutant.encode())
        yield judge(f"mutant {number} of the order desk's listing", due, *call(path, folder, "exec", "O", "S")[:2])


def main():
    path = program()
    if not path:
        print("repository: no program is built, so files of 16 MB are not run")
        return 0
    path, ends = os.path.abspath(path), []
    with tempfile.TemporaryDirectory(prefix="psm-files-") as folder:
        for part in (objects, runs, listings):
            found = list(part(path, folder))
            print(f"{part.__name__}: {len(found)} are run, and {sum(found)} are wrong", flush=True)
            ends += found
    return 1 if any(ends) else 0


if __name__ == "__main__":
    sys.exit(main())
