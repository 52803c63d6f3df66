#!/usr/bin/env bash
# Runs the deepest accepted module, script and action in a stack of 1 MiB, by the program as it was proved and built: a build
# with checks needs more. A level is opened by each pair of parentheses of an expression, each statement that has statements,
# and each handler; the 100th is the last.
set -u
program=${PSM_PROGRAM:-$(dirname "$0")/../crates/psm/out/psm}
if [ ! -x "$program" ]; then
    echo 'repository: no program is built, so the deepest files are not run'
    exit 0
fi

folder=$(mktemp -d) || exit 1
trap 'rm -rf "$folder"' EXIT
status=0

# Prints the first argument as often as the second says.
times() {
    local i
    for ((i = 0; i < $2; i++)); do printf '%s' "$1"; done
}

# Runs the module over the script in the folder: what is printed is $2, and the status $3.
row() {
    local printed ended
    printed=$(ulimit -s 1024 && "$program" run "$folder/module.sql" "$folder/script.sql")
    ended=$?
    if [ "$printed" != "$2" ] || [ "$ended" -ne "$3" ]; then
        printf 'repository: %s: status %s, and this is printed:\n%s\n' "$1" "$ended" "$printed" >&2
        status=1
    fi
}

of_value() { printf 'CREATE MODULE m PROCEDURE p (OUT n INTEGER) SET n = %s; END MODULE\n' "$1" >"$folder/module.sql"; }
of_statement() { printf 'CREATE MODULE m PROCEDURE p (OUT n INTEGER) %s; END MODULE\n' "$1" >"$folder/module.sql"; }
called=$'1 CALL P\nN = 1\nOK'

echo 'CALL p(?);' >"$folder/script.sql"
of_value "$(times '(' 100)1$(times ')' 100)"
row 'the deepest expression' "$called" 0
of_value "$(times '(' 101)1$(times ')' 101)"
row 'an expression too deep' 'module 1:153 nested too deep' 4
of_statement "$(times 'BEGIN ' 100)SET n = 1;$(times ' END;' 99) END"
row 'the deepest block' "$called" 0
of_statement "$(times "IF 1 = 1 THEN " 100)SET n = 1;$(times ' END IF;' 99) END IF"
row 'the deepest IF' "$called" 0
of_statement "$(times "BEGIN DECLARE EXIT HANDLER FOR SQLSTATE '45000' " 49)BEGIN IF 1 = 1 THEN SET n = 1; END IF; END;$(times " SIGNAL SQLSTATE '45000'; END;" 48) SIGNAL SQLSTATE '45000'; END"
row 'the deepest action' "$called" 0

printf 'CREATE TABLE t (k INTEGER PRIMARY KEY); CREATE MODULE m END MODULE\n' >"$folder/module.sql"
printf 'INSERT INTO t VALUES (1);\nSELECT %sk%s FROM t;\n' "$(times '(' 100)" "$(times ')' 100)" >"$folder/script.sql"
row 'the deepest script' $'1 INSERT T\nOK\n2 SELECT\nROW 1\nOK' 0

exit "$status"
