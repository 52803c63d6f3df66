#!/usr/bin/env bash
# Files that have to be there, and none that is machine-made.
set -u
cd "$(dirname "$0")/.." || exit 1

status=0
fault() { echo "repository: $*" >&2; status=1; }

[ "$(cat HANDLES)" = 'Handles allowed: none.' ] || fault "HANDLES is not the line 'Handles allowed: none.'"
[ -x psm ] || fault 'the launcher psm is not executable'

# Files that the README's commands name.
while IFS= read -r path; do
    [ -e "$path" ] || fault "README.md names $path, which is not there"
done < <(grep -oE '(examples|docs|editors)/[A-Za-z0-9_./-]+' README.md | sed 's/[.]$//' | sort -u)

# Each example has its files and says in its first line what it shows.
for example in examples/*/; do
    for file in module.sql script.sql expected.txt; do
        [ -f "$example$file" ] || fault "$example lacks $file"
    done
    head -n 1 "${example}module.sql" | grep -q '^-- ' || fault "${example}module.sql does not say in its first line what it shows"
done

# Each command of the launcher has its page.
for command in run compile exec gen try test explain prove which install; do
    [ -f "launcher/help/$command.txt" ] || fault "launcher/help/$command.txt is missing"
    grep -q "psm $command" launcher/help/psm.txt || fault "launcher/help/psm.txt does not name psm $command"
done

git ls-files | grep -qE '(^|/)(out|__pycache__)/' && fault "a crate's out/ or Python's work is committed"

exit "$status"
