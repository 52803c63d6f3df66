#!/usr/bin/env bash
# Bash and Python can read their files, and shellcheck finds nothing, where it is there.
set -u
cd "$(dirname "$0")/.." || exit 1

status=0
mapfile -t bash_files < <(git ls-files | xargs grep -lE '^#!/usr/bin/env bash|^# shellcheck shell=bash')
mapfile -t python_files < <(git ls-files | grep -E '\.py$')
for file in "${bash_files[@]}"; do bash -n "$file" || status=1; done
for file in "${python_files[@]}"; do
    python3 -c 'import ast, sys; ast.parse(open(sys.argv[1], encoding="utf-8").read(), sys.argv[1], feature_version=(3, 8))' "$file" || status=1
done
if command -v shellcheck >/dev/null; then
    shellcheck -x "${bash_files[@]}" || status=1
else
    echo 'repository: shellcheck is not there, so bash is only parsed'
fi
exit "$status"
