#!/usr/bin/env bash
# Measures a store that keeps a journal: the seconds of processor time to put rows in in each order of their keys,
# to look each key up, to walk the rows, to undo 200 changes under each of some marks, and to change one row under
# each of some marks; then those of statements: single-row INSERTs with a CHECK, one UPDATE of all rows, a COUNT with a
# test, and 100000 UPDATEs by key of 20000 rows, each with the numbers beside the keys as they are and UNIQUE.
#
#     bench/store.sh [ROWS] [MARKS] [SHORT]
#
# ROWS, 200000 where it isn't said, are put in, looked up and walked; of 20000 rows 200 are changed and put back under
# each of MARKS marks, 1000 where it isn't said, and one is changed under each of SHORT marks, 20000 where it isn't said.
# Each is done with a tenth of the work, and then with all of it.
#
# The program stands in bench/store/crate, each of its files with .txt after its name, since the gate takes no Rattle file outside
# crates/. It is proved and built in a copy of the repository, over what earlier checks on this machine kept.
set -u
cd "$(dirname "$0")/.." || exit 1

copy=$(mktemp -d) || exit 1
trap 'rm -rf "$copy"' EXIT
git ls-files -z crates crates.txt HANDLES | tar -c --null -T - | tar -x -C "$copy"
cp -r bench/store/crate "$copy/crates/bench_store"
find "$copy/crates/bench_store" -name '*.txt' -exec sh -c 'mv "$1" "${1%.txt}"' _ {} \;
cat bench/store/dependencies >>"$copy/crates.txt"
cd "$copy/crates/bench_store" || exit 1
mkdir -p out
rows=${1:-200000}
marks=${2:-1000}
short=${3:-20000}
program=out/bench_store
if ! rt run >out/bench.log 2>&1 || [ ! -x "$program" ]; then
    echo "bench: the program could not be built; run 'rt check' in $PWD" >&2
    exit 70
fi
for measure in rising falling scattered look_up walk; do
    "$program" "$measure" $((rows / 10)) && "$program" "$measure" "$rows" || exit 1
done
"$program" undo $((marks / 10)) 200 20000 && "$program" undo "$marks" 200 20000 || exit 1
"$program" marks $((short / 10)) 20000 && "$program" marks "$short" 20000 || exit 1
for unique in "" _unique; do
    for statement in insert update_all count; do
        "$program" $statement$unique $((rows / 10)) && "$program" $statement$unique "$rows" || exit 1
    done
    "$program" update_by_key$unique 10000 20000 && "$program" update_by_key$unique 100000 20000 || exit 1
done
