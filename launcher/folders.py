"""Runs folders with a module, a script and what is expected of them: python3 folders.py [--update] FOLDER..

A folder holds module.sql, script.sql, expected.txt and maybe expected.status (0 where there is none) and turns. Where it holds
listing.txt, module.sql is compiled too, and the script is run over what was compiled. Of another folder all such folders below it
are run. PSM_PROGRAM names the program; without it `rt try` builds one without a proof.
"""
import concurrent.futures
import difflib
import os
import signal
import subprocess
import sys
import tempfile

import unproved

PARTS = ("module.sql", "script.sql")
LISTING = "listing.txt"
# The status of a module file that is refused, which `compile` has where `run` has it.
REFUSED = 4


def read(path, default=""):
    """Returns the text of a file, byte for byte, or the default where there is none."""
    if not os.path.isfile(path):
        return default
    with open(path, encoding="utf-8", errors="surrogateescape", newline="") as it:
        return it.read()


def is_case(folder):
    return os.path.isfile(f"{folder}/{PARTS[0]}")


def cases_below(folder):
    """Returns the folder, if it is a case, or else those below it, in order."""
    if is_case(folder):
        return [folder]
    found = []
    for at, below, _ in os.walk(folder):
        below[:] = sorted(it for it in below if not it.startswith("."))
        found += [at] if is_case(at) else []
    return found


def turns_of(folder):
    return read(f"{folder}/turns").strip()


def is_listed(folder):
    return os.path.isfile(f"{folder}/{LISTING}")


def bound(turns):
    return ["--turns", turns] if turns else []


def to_run(module_file, script, turns):
    """Returns the arguments that run a script over a module file."""
    return ["run", module_file, script, *bound(turns)]


def to_compile(module_file):
    """Returns the arguments that write the listing of a module file."""
    return ["compile", module_file]


def to_exec(object_file, script, turns):
    """Returns the arguments that run a script over an object."""
    return ["exec", object_file, script, *bound(turns)]


def run_one(path, words):
    ran = subprocess.run([path, *words], stdin=subprocess.DEVNULL, stdout=subprocess.PIPE)
    return ran.returncode, ran.stdout.decode("utf-8", errors="surrogateescape")


def program():
    """Returns the path of the named program, or of one that is built without a proof, or None where rt try shows none."""
    return os.environ.get("PSM_PROGRAM") or unproved.program()


def run_all(calls):
    """Returns the status and the output of each list of arguments."""
    path = program()
    if not path:
        unproved.say_how_long("running all")
        return unproved.run_many(calls)
    with concurrent.futures.ThreadPoolExecutor(os.cpu_count()) as pool:
        return list(pool.map(lambda it: run_one(path, it), calls))


def run_over(objects):
    """Returns the status and the output of each (listing, script, turns), where the script is run over the listing."""
    if not objects:
        return []
    with tempfile.TemporaryDirectory(prefix="psm-objects-") as folder:
        calls = []
        for number, (listing, script, turns) in enumerate(objects):
            path = f"{folder}/{number}.object"
            write_text(path, listing)
            calls.append(to_exec(path, script, turns))
        return run_all(calls)


def results_of(folders):
    """Returns what is printed, by the folder: by each script; where there is a listing, by the module; and by the script over that."""
    listed = [it for it in folders if is_listed(it)]
    runs = [to_run(f"{it}/module.sql", f"{it}/script.sql", turns_of(it)) for it in folders]
    results = run_all([*runs, *(to_compile(f"{it}/module.sql") for it in listed)])
    listings = dict(zip(listed, results[len(folders) :]))
    written = [it for it in listed if listings[it][0] == 0]
    over = run_over([(listings[it][1], f"{it}/script.sql", turns_of(it)) for it in written])
    return dict(zip(folders, results)), listings, dict(zip(written, over))


def diff(wanted, printed, *names):
    """Returns the lines of a diff of two texts."""
    lines = (it.splitlines(keepends=True) for it in (wanted, printed))
    return [it.rstrip("\n") for it in difflib.unified_diff(*lines, *names)]


def differences_in(path, output):
    """Returns the lines of a diff of the file and the output."""
    return diff(read(path), output, path, "printed")


def status_due(folder):
    return int(read(f"{folder}/expected.status", "0").strip() or 0)


def wrong_status(folder, command, status, due):
    return [] if status == due else [f"{folder}: {command}exit status {status}, and {due} is expected"]


def differences(folder, status, output):
    """Returns the lines that tell what differs from the folder's files, none where nothing does."""
    return differences_in(f"{folder}/expected.txt", output) + wrong_status(folder, "", status, status_due(folder))


def listing_differences(folder, status, output):
    """Returns the same of its listing. A module file that is refused has the line that says so in place of one."""
    due = REFUSED if status_due(folder) == REFUSED else 0
    return differences_in(f"{folder}/{LISTING}", output) + wrong_status(folder, "compile: ", status, due)


def exec_differences(name, of_run, of_exec):
    """Returns the lines that tell where `exec` of what was compiled differs from `run`: both are a status and an output."""
    reported = diff(of_run[1], of_exec[1], f"{name}: run", f"{name}: exec")
    if of_exec[0] != of_run[0]:
        reported.append(f"{name}: exec: exit status {of_exec[0]}, where run has {of_run[0]}")
    return reported


def write_text(path, text):
    with open(path, "w", encoding="utf-8", errors="surrogateescape", newline="") as it:
        it.write(text)


def write(folder, status, output):
    """Writes the folder's expected files, and returns whether one changed."""
    is_new = bool(differences(folder, status, output)) or not os.path.isfile(f"{folder}/expected.txt")
    write_text(f"{folder}/expected.txt", output)
    path = f"{folder}/expected.status"
    if status:
        write_text(path, f"{status}\n")
    elif os.path.isfile(path):
        os.remove(path)
    return is_new


def write_listing(folder, status, output):
    """Writes the folder's listing, and returns whether it changed."""
    is_new = bool(listing_differences(folder, status, output))
    write_text(f"{folder}/{LISTING}", output)
    return is_new


def show(lines):
    for line in lines:
        print(line.encode("utf-8", errors="replace").decode())


def compare(results, listings, over):
    """Prints what differs, and a count, and returns the status."""
    failed = 0
    for folder, result in results.items():
        reported = differences(folder, *result)
        if folder in listings:
            reported += listing_differences(folder, *listings[folder])
        if folder in over:
            reported += exec_differences(folder, result, over[folder])
        failed += bool(reported)
        show(reported)
    print(f"{len(results) - failed} passed, {failed} differ")
    return 1 if failed else 0


def update(results, listings, over):
    """Writes what is expected, and returns 1 where a script gives something else over a listing, which no file can expect."""
    changed = {folder for folder, result in results.items() if write(folder, *result)}
    changed |= {folder for folder, result in listings.items() if write_listing(folder, *result)}
    for folder in results:
        if folder in changed:
            print(f"{folder}: written")
    print(f"{len(changed)} written, {len(results) - len(changed)} as before")
    reported = [it for folder, result in over.items() for it in exec_differences(folder, results[folder], result)]
    show(reported)
    return 1 if reported else 0


def main(words):
    given = [it for it in words if it != "--update"]
    if not given or any(it.startswith("--") for it in given):
        print("psm: usage: psm test [--update] FOLDER..", file=sys.stderr)
        return 2
    folders = [case for it in given for case in cases_below(it.rstrip("/") or "/")]
    lacking = [f"{it}/{part}" for it in folders for part in PARTS if not os.path.isfile(f"{it}/{part}")]
    if lacking or not folders:
        reported = f"{lacking[0]} is not there" if lacking else f"no module.sql in {' '.join(given)}"
        print(f"psm: {reported}", file=sys.stderr)
        return 2
    return (update if "--update" in words else compare)(*results_of(folders))


if __name__ == "__main__":
    # (as other commands, it ends quietly where its output is read no further)
    signal.signal(signal.SIGPIPE, signal.SIG_DFL)
    sys.exit(main(sys.argv[1:]))
