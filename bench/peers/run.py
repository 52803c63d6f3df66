#!/usr/bin/env python3
"""Measures psm beside database systems that have procedures too, and beside SQLite from C.

    bench/peers/run.py [PSM] [--only NAME,..] [--peers NAME,..] [--repeat N] [--tenth] [--quick]
    bench/peers/run.py --write FOLDER | --list

PSM is the program, or `-` to run the peers alone; without it, it is the one that `./psm which` prints. README.md says what is
measured, and what the table says.
"""

import argparse
import dataclasses
import os
import re
import shutil
import subprocess
import sys
import tempfile
from pathlib import Path

HERE = Path(__file__).resolve().parent
sys.path.insert(0, str(HERE.parent))
sys.path.insert(1, str(HERE))
import dialects  # noqa: E402
from dialects import LIMIT, rows_of, sums  # noqa: E402
from measure import TURNS, measured, program_of  # noqa: E402
from workloads import AS_WORK, FIREBIRD, HSQLDB, MARIADB, MEMORY, POSTGRESQL, PSM, SQLITE, WORKLOADS  # noqa: E402

DATA = Path(os.environ.get("PSM_PEERS") or os.environ.get("TMPDIR", "/tmp") + "/psm-peers")
HSQLDB_JAR = "/usr/share/java/hsqldb.jar"
# What takes longer is not repeated.
LONG = 10
# The status of a run that is ended since it took too long.
STOPPED = -24
# So often the work is done in one process of HSQLDB: the first time, and then warm.
WARM_RUNS = 4
WARM = "hsqldb_warm"
NUMBER = re.compile(r"-?\d+")
TITLES = {
    POSTGRESQL: "PostgreSQL", MARIADB: "MariaDB", MEMORY: "MariaDB MEMORY", FIREBIRD: "Firebird",
    HSQLDB: "HSQLDB", WARM: "HSQLDB warm", SQLITE: "SQLite",
}
# The systems among which the best one is looked for.
RIVALS = (POSTGRESQL, MARIADB, MEMORY, FIREBIRD, HSQLDB)


class Failure(Exception):
    """A run that did not end as expected."""


def options(words):
    parser = argparse.ArgumentParser(prog="bench/peers/run.py", description="Measures psm beside other database systems.")
    parser.add_argument("program", metavar="PSM", nargs="?", help="the program, or - to run the peers alone")
    parser.add_argument("--only", metavar="NAME,..", help="only these workloads")
    parser.add_argument("--peers", metavar="NAME,..", help=f"only these peers, of {', '.join(PEERS)}")
    parser.add_argument("--repeat", metavar="N", type=int, default=3, help="the quickest of N runs (3)")
    parser.add_argument("--tenth", action="store_true", help="psm with a tenth of the work too, and how the time grows")
    parser.add_argument("--quick", action="store_true", help="a hundredth of the work, to see whether all answer the same")
    parser.add_argument("--write", metavar="FOLDER", help="only write the files of the workloads, to FOLDER/WORKLOAD")
    parser.add_argument("--list", action="store_true", help="only print the workloads")
    chosen = parser.parse_args(words)
    if chosen.repeat < 1:
        parser.error("N is at least 1")
    chosen.workloads = picked(parser, chosen.only, WORKLOADS, "workload")
    chosen.peers = picked(parser, chosen.peers, PEERS, "peer")
    if chosen.quick:
        chosen.workloads = [hundredth(it) for it in chosen.workloads]
    return chosen


def hundredth(it):
    return dataclasses.replace(it, work=it.work // 100, calls=1, rows=it.rows if it.rows == AS_WORK else it.rows // 100)


def picked(parser, names, known, kind):
    """The values of these names, all if none are said, in the order in which they are known."""
    chosen = names.split(",") if names else known
    for name in chosen:
        if name not in known:
            parser.error(f"there is no {kind} {name}: there are {', '.join(known)}")
    return [value for name, value in known.items() if name in chosen]


def output_of(words, text=None, **variables):
    """What a command prints. It gets the text, if there is one, and these variables of the environment."""
    how = {"stdout": subprocess.PIPE, "stderr": subprocess.PIPE, "text": True, "env": {**os.environ, **variables}}
    try:
        done = subprocess.run(words, input=text, timeout=4 * LIMIT, **how)
    except subprocess.TimeoutExpired:
        raise Failure(f"took over {4 * LIMIT} seconds") from None
    if done.returncode:
        said = " ".join((done.stderr or done.stdout).split())
        raise Failure(f"status {done.returncode}: {said[:200]}")
    return done.stdout


def runs_in(printed):
    """The seconds and the answer of each measured run, by the lines that a peer prints."""
    seconds, answers = [], []
    for line in printed.splitlines():
        word, _, rest = line.strip().partition(" ")
        if word == "START":
            start = float(rest)
            answers.append([])
        elif word == "END":
            seconds.append(max(float(rest) - start, 1e-6))
        elif answers:
            answers[-1] += NUMBER.findall(line)
    if not seconds or len(seconds) != len(answers):
        raise Failure(f"ended with {printed[-80:]!r}")
    return list(zip(seconds, answers))


class Peer:
    """A system that psm is measured beside: whether it can be, and the runs of a workload whose file is in the folder."""

    def __init__(self, system, is_there, run):
        self.system, self.is_there, self.run = system, is_there, run


def run_postgresql(folder, it):
    words = ["psql", "-X", "-q", "-v", "ON_ERROR_STOP=1", "-h", str(DATA / "postgresql/socket"), "-p", "5432", "-U", "postgres"]
    return output_of([*words, "-d", "postgres", "-f", str(folder / f"{POSTGRESQL}.sql")])


def has_mariadb():
    return shutil.which("mariadb") and (DATA / "mariadb/socket").exists()


def run_mariadb(folder, it, system=MARIADB):
    words = ["mariadb", "--no-defaults", "-N", "-B", "-S", str(DATA / "mariadb/socket"), "-u", "root"]
    return output_of(words, (folder / f"{system}.sql").read_text())


def run_firebird(folder, it):
    """Firebird runs in the process of isql-fb, on a new database that is not forced to disk."""
    database = str(folder / "bench.fdb")

    def call(program, *words, text=None):
        return output_of([program, "-user", "SYSDBA", *words], text, FIREBIRD_LOCK=str(folder))

    call("isql-fb", "-q", text=f"CREATE DATABASE '{database}' PAGE_SIZE 8192 DEFAULT CHARACTER SET UTF8;\n")
    call("gfix", "-write", "async", database)
    call("gfix", "-buffers", "20000", database)
    try:
        return call("isql-fb", "-q", "-bail", database, "-i", str(folder / f"{FIREBIRD}.sql"))
    finally:
        os.remove(database)


def run_hsqldb(folder, it):
    return output_of(["java", "-cp", f"{HSQLDB_JAR}:{DATA}/hsqldb", "Bench", str(folder / f"{HSQLDB}.sql"), str(WARM_RUNS)])


def run_sqlite(folder, it):
    how, *statements = it.sqlite
    if how == "sent":
        statements = [str(folder / f"{SQLITE}.sql")]
    words = [how, str(it.work), str(rows_of(it, it.work)), it.columns, it.row.replace(":i", "?1"), sums(it), *statements]
    return output_of([str(DATA / "sqlite"), *words])


PEERS = {
    it.system: it
    for it in (
        Peer(POSTGRESQL, lambda: shutil.which("psql") and (DATA / "postgresql/socket/.s.PGSQL.5432").exists(), run_postgresql),
        Peer(MARIADB, has_mariadb, run_mariadb),
        Peer(MEMORY, has_mariadb, lambda folder, it: run_mariadb(folder, it, MEMORY)),
        Peer(FIREBIRD, lambda: shutil.which("isql-fb") and shutil.which("gfix"), run_firebird),
        Peer(HSQLDB, lambda: shutil.which("java") and (DATA / "hsqldb/Bench.class").exists(), run_hsqldb),
        Peer(SQLITE, lambda: os.access(DATA / "sqlite", os.X_OK), run_sqlite),
    )
}


class Psm:
    """The runs of psm: those of a workload less those without the work, each the quickest so far."""

    def __init__(self, program, folder, it, work, calls):
        self.program, self.folder, self.calls = program, folder, calls
        write_psm(folder, it, work, calls)
        self.base, self.whole, self.answer = [], [], None

    def once(self, script):
        folder = str(self.folder)
        words = [self.program, "run", f"{folder}/module.sql", f"{folder}/{script}", "--turns", str(TURNS)]
        ran = measured(folder, words, LIMIT)
        if ran.status == STOPPED:
            raise Failure(f"took over {LIMIT} seconds")
        if ran.status:
            raise Failure(f"status {ran.status}: {' '.join(ran.written.split())[-100:]}")
        return ran

    def run(self):
        """Runs both once more. At first another run, with the work once and what the table holds then, gives the answer."""
        if self.answer is None:
            self.answer = answer_of(self.once("checked.sql").written)
        self.base.append(self.once("base.sql").elapsed)
        self.whole.append(self.once("script.sql").elapsed)

    def seconds(self):
        return max(min(self.whole) - min(self.base), 1e-6) / self.calls


def answer_of(written):
    """The numbers of the parameter and of the row that psm printed."""
    return [number for line in written.splitlines() if line.startswith(("S = ", "ROW ")) for number in NUMBER.findall(line)]


def write_psm(folder, it, work, calls):
    module, base, run, shown = dialects.psm(it, work)
    for name, text in (("module", module), ("base", base), ("script", base + run * calls), ("checked", base + run + shown)):
        (folder / f"{name}.sql").write_text(text, encoding="utf-8")


def write_peers(folder, it, systems):
    for system in systems:
        if system in dialects.FILES:
            (folder / f"{system}.sql").write_text(dialects.FILES[system](it, it.work), encoding="utf-8")
    if it.sent and SQLITE in systems:
        (folder / f"{SQLITE}.sql").write_text(dialects.calls_sent(it, it.work, SQLITE), encoding="utf-8")


class Result:
    """What is measured of a workload: the seconds of each system, the answers, and what went wrong."""

    def __init__(self, it):
        self.it, self.seconds, self.answers, self.failures = it, {}, {}, {}
        self.tenth = None

    def take(self, system, seconds, answer):
        self.seconds[system] = min(seconds, self.seconds.get(system, seconds))
        if self.answers.setdefault(system, answer) != answer:
            self.failures[system] = f"answers {' '.join(answer)} after {' '.join(self.answers[system])}"

    def compare(self):
        """Says whose answer is not that of the first system, and forgets its seconds."""
        (first, right), *others = self.answers.items()
        for system, answer in others:
            if answer != right:
                self.failures[system] = f"answers {' '.join(answer)}, and {TITLES.get(first, first)} {' '.join(right)}"
                self.seconds.pop(system, None)

    def best(self):
        return min((it for it in RIVALS if it in self.seconds), key=self.seconds.get, default=None)


def measure_peer(result, peer, folder):
    """Runs a peer once more, unless it failed or took long."""
    system, it = peer.system, result.it
    if system in it.lacks or system in result.failures or result.seconds.get(system, 0) > LONG:
        return
    try:
        (seconds, answer), *warm = runs_in(peer.run(folder, it))
    except Failure as failure:
        result.failures[system] = str(failure)
        return
    result.take(system, seconds, answer)
    for seconds, answer in warm:
        result.take(WARM, seconds, answer)


def measure_psm(result, psm):
    if PSM in result.failures or psm.whole and min(psm.whole) > LONG:
        return
    try:
        psm.run()
    except Failure as failure:
        result.failures[PSM] = str(failure)


def measure(it, chosen, program):
    """Measures a workload: all systems in turn, as often as chosen."""
    result = Result(it)
    with tempfile.TemporaryDirectory(prefix="psm-peers-") as name:
        folder, tenth = Path(name), Path(name) / "tenth"
        tenth.mkdir()
        write_peers(folder, it, [peer.system for peer in chosen.peers if peer.system not in it.lacks])
        psms = [Psm(program, folder, it, it.work, it.calls)] if program else []
        if program and chosen.tenth:
            psms.append(Psm(program, tenth, it, it.work // 10, it.calls * 10 if it.calls > 1 else 1))
        for _ in range(chosen.repeat):
            for psm in psms:
                measure_psm(result, psm)
            for peer in chosen.peers:
                measure_peer(result, peer, folder)
        if psms and PSM not in result.failures:
            result.answers = {PSM: psms[0].answer, **result.answers}
            result.seconds[PSM] = psms[0].seconds()
            result.tenth = psms[1].seconds() if psms[1:] else None
    if result.answers:
        result.compare()
    return result


def shown(seconds):
    return "-" if seconds is None else f"{seconds:.2f}" if seconds >= 10 else f"{seconds:.3f}" if seconds >= 0.01 else f"{seconds:.5f}"


def columns_of(chosen):
    """The systems of the table's columns."""
    systems = [peer.system for peer in chosen.peers]
    return [it for system in systems for it in ((system, WARM) if system == HSQLDB else (system,))]


def head(chosen):
    names = ["workload", "psm", *(TITLES[it] for it in columns_of(chosen)), "best peer", "psm to best"]
    names += ["psm, a tenth", "growth", "goal"] if chosen.tenth else []
    return f"| {' | '.join(names)} |\n|{'---|' * len(names)}"


def row(result, chosen):
    """A workload's line of the table."""
    it, seconds, best = result.it, result.seconds, result.best()
    cells = [f"{it.name}: {it.title}", shown(seconds.get(PSM))]
    cells += [shown(seconds.get(system)) for system in columns_of(chosen)]
    cells.append(f"{TITLES[best]} {shown(seconds[best])}" if best else "-")
    cells.append(f"{seconds[PSM] / seconds[best]:.2f}" if best and PSM in seconds else "-")
    if chosen.tenth:
        cells += [shown(result.tenth), f"{seconds[PSM] / result.tenth:.1f}" if result.tenth else "-", f"at most {it.growth}"]
    return f"| {' | '.join(cells)} |"


def print_lacks(results, chosen):
    """Says why a peer has no time where it lacks what a workload needs."""
    lacking = {}
    for result in results:
        for peer in chosen.peers:
            if peer.system in result.it.lacks:
                lacking.setdefault(f"{TITLES[peer.system]} {result.it.lacks[peer.system]}", []).append(result.it.name)
    for reason, names in lacking.items():
        print(f"- {reason}: {', '.join(names)}")


def print_ends(results, chosen):
    """Says where psm is not the quickest, where it grows by more than the goal, and what failed. Returns the status."""
    for system in columns_of(chosen):
        both = [it for it in results if PSM in it.seconds and system in it.seconds]
        quicker = [it.it.name for it in both if it.seconds[system] < it.seconds[PSM]]
        if both:
            names = ", ".join(quicker) or "none"
            print(f"- {TITLES[system]} is quicker than psm in {len(quicker)} of {len(both)}: {names}")
    for it in results:
        if it.tenth and it.seconds[PSM] > it.tenth * it.it.growth:
            times = it.seconds[PSM] / it.tenth
            print(f"- {it.it.name} takes {times:.1f} times as long for ten times the work, and the goal is {it.it.growth}")
    failures = [(it, system, what) for it in results for system, what in it.failures.items()]
    for it, system, what in failures:
        print(f"- error: {it.it.name}: {TITLES.get(system, system)} {what}")
    return 1 if failures else 0


def load():
    return f"Load averages: {', '.join(f'{it:.2f}' for it in os.getloadavg())}."


def write_files(chosen):
    for it in chosen.workloads:
        folder = Path(chosen.write) / it.name
        folder.mkdir(parents=True, exist_ok=True)
        write_psm(folder, it, it.work, it.calls)
        write_peers(folder, it, [system for system in PEERS if system not in it.lacks])
    return 0


def main(words):
    chosen = options(words)
    if chosen.list:
        for it in chosen.workloads:
            print(f"{it.name:10} {it.title}")
        return 0
    if chosen.write:
        return write_files(chosen)
    program = None if chosen.program == "-" else program_of([chosen.program] if chosen.program else [])
    for peer in [peer for peer in chosen.peers if not peer.is_there()]:
        print(f"Left out: {TITLES[peer.system]}, which is not installed or not started (bench/peers/setup.sh).\n")
        chosen.peers.remove(peer)
    print(f"Seconds, the quickest of {chosen.repeat}{', with a hundredth of the work' * chosen.quick}. {load()}\n\n{head(chosen)}", flush=True)
    results = []
    for it in chosen.workloads:
        results.append(measure(it, chosen, program))
        print(row(results[-1], chosen), flush=True)
    print(f"\n{load()}\n")
    print_lacks(results, chosen)
    return print_ends(results, chosen)


if __name__ == "__main__":
    sys.exit(main(sys.argv[1:]))
