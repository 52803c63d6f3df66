"""The files that each system reads for a workload.

A file makes the table and the procedures, fills the table, and runs the measured part between two lines that begin with START and END
and give seconds. Other lines have the answer: s, and what the table holds afterwards, if it changes.
"""

import re

from workloads import AS_WORK, FIREBIRD, HSQLDB, MARIADB, MEMORY, POSTGRESQL, PSM

# A run that takes longer is ended, by the system itself where it is a server.
LIMIT = 60
MARKED = re.compile(r"(?<![:\w]):(?=\w)")


def lines(*parts):
    """The parts that there are, a line each."""
    return "".join(f"{part}\n" for part in parts if part)


def of(text, system):
    """The text of a dictionary for this system, if there is one."""
    return next((it for systems, it in text.items() if system in systems.split()), None)


def with_set(text):
    """Assignments with SET, and variables without a mark: psm, MariaDB and HSQLDB."""
    return MARKED.sub("", re.sub(r"(\w+) := ", r"SET \1 = ", text))


def as_psm(text):
    return with_set(text).replace("BIGINT", "NUMERIC(18,0)")


def as_postgresql(text):
    return MARKED.sub("", text)


def as_mariadb(text):
    return with_set(text).replace(" / ", " DIV ")


def as_firebird(text):
    """INTO after FROM, and assignments with `=`."""
    return re.sub(r" INTO (:\w+) (FROM [^;]*);", r" \2 INTO \1;", text).replace(" := ", " = ")


WORDS = {PSM: as_psm, POSTGRESQL: as_postgresql, MARIADB: as_mariadb, MEMORY: as_mariadb, FIREBIRD: as_firebird, HSQLDB: with_set}


def written(text, system):
    """The text in the words of this system."""
    return of(text, system) if isinstance(text, dict) else WORDS[system](text)


def declared(it, system):
    """The declarations, each with DECLARE; PostgreSQL has one DECLARE for all."""
    text = written(it.declarations, system)
    return text if system == POSTGRESQL else " ".join(f"DECLARE {each.strip()};" for each in text.split(";") if each.strip())


def rows_of(it, work):
    return work if it.rows == AS_WORK else it.rows


def looped(it, head, tail, system):
    """What run does: the body, in a loop if it is one."""
    body = written(it.body, system)
    return f"{head} {body} {tail}" if it.is_loop else body


def calls_sent(it, work, system):
    """The statements that the client sends, where a workload has some."""
    form = of(it.sent, system)
    return "".join(form.format(key=i % 97, i=i) for i in range(1, work + 1))


def sums(it):
    return f"SELECT COUNT(*), SUM({it.summed}) FROM t" if it.summed else ""


def psm(it, work):
    """The module, and the commands that fill the table, that do the work, and that show what the table holds then."""
    each = "WHILE i < n DO SET i = i + 1;", "END WHILE;"
    fill = ["PROCEDURE fill (IN n INTEGER) BEGIN", "  DECLARE i INTEGER DEFAULT 0;",
            f"  {each[0]} INSERT INTO t VALUES ({as_psm(it.row)}); {each[1]}", "END;"]
    run = ["PROCEDURE run (IN n INTEGER, OUT s NUMERIC(18,0)) BEGIN", "  DECLARE i INTEGER DEFAULT 0;",
           f"  {declared(it, PSM)}" if declared(it, PSM) else "", "  SET s = 0;", f"  {looped(it, *each, PSM)}", "END;"]
    module = lines(
        it.columns and f"CREATE TABLE t ({as_psm(it.columns)});", "CREATE MODULE bench", written(it.routines, PSM),
        *(fill if it.rows else ()), *(() if it.sent else run), "END MODULE",
    )
    rows = rows_of(it, work)
    base = f"CALL fill({rows});\n" if rows else ""
    run = calls_sent(it, work, PSM) if it.sent else f"CALL run({work}, ?);\n"
    return module, base, run, f"{sums(it)};\n" if it.summed else ""


def postgresql(it, work):
    """For psql. The table is temporary, so that no log of it is written."""
    each = "WHILE i < n LOOP i := i + 1;", "END LOOP;"
    rows, row = rows_of(it, work), as_postgresql(it.row)
    seconds = "SELECT '{} ' || extract(epoch FROM clock_timestamp());"
    return lines(
        "\\pset tuples_only on", "\\pset format unaligned", "SET client_min_messages = error;", f"SET statement_timeout = '{LIMIT}s';",
        "DROP SCHEMA IF EXISTS bench CASCADE;", "CREATE SCHEMA bench;", "SET search_path = bench;",
        it.columns and f"CREATE TEMPORARY TABLE t ({it.columns});", written(it.routines, POSTGRESQL),
        rows and f"INSERT INTO t SELECT {row} FROM generate_series(1, {rows}) i;",
        rows and "ANALYZE t;",
        None if it.sent else "CREATE PROCEDURE run (IN n INTEGER, INOUT s BIGINT) LANGUAGE plpgsql AS $$"
        f" DECLARE i INTEGER := 0; {declared(it, POSTGRESQL)} BEGIN s := 0; {looped(it, *each, POSTGRESQL)} END $$;",
        seconds.format("START"),
        calls_sent(it, work, POSTGRESQL).rstrip() if it.sent else f"CALL run({work}, NULL);",
        seconds.format("END"),
        it.summed and f"{sums(it)};",
    )


def mariadb_columns(it, engine):
    """The columns; an index of a MEMORY table is a hash table if nothing else is said."""
    if engine != "MEMORY" or not it.is_ordered:
        return it.columns
    trees = it.columns.replace("PRIMARY KEY (", "PRIMARY KEY USING BTREE (")
    return trees.replace("k INTEGER PRIMARY KEY", "k INTEGER, PRIMARY KEY USING BTREE (k)")


def mariadb(it, work, system=MARIADB):
    """For the client mariadb. All is one transaction, which MEMORY tables don't know."""
    engine = "MEMORY" if system == MEMORY else "InnoDB"
    each = "WHILE i < n DO SET i = i + 1;", "END WHILE;"
    rows = rows_of(it, work)
    fill = (
        "CREATE PROCEDURE fill (IN n INTEGER) BEGIN DECLARE i INTEGER DEFAULT 0;"
        f" {each[0]} INSERT INTO t VALUES ({as_mariadb(it.row)}); {each[1]} END//"
    )
    seconds = "SELECT CONCAT('{} ', UNIX_TIMESTAMP(SYSDATE(6)));"
    routines = written(it.routines, system)
    return lines(
        "SET SESSION sql_mode = 'STRICT_ALL_TABLES,ERROR_FOR_DIVISION_BY_ZERO,NO_ENGINE_SUBSTITUTION,PIPES_AS_CONCAT';",
        f"SET SESSION max_statement_time = {LIMIT};",
        "DROP DATABASE IF EXISTS bench;", "CREATE DATABASE bench CHARACTER SET utf8mb4;", "USE bench;",
        it.columns and f"CREATE TABLE t ({mariadb_columns(it, engine)}) ENGINE = {engine};",
        "DELIMITER //", routines and f"{routines}//", rows and fill,
        None if it.sent else "CREATE PROCEDURE run (IN n INTEGER, OUT s BIGINT) BEGIN"
        f" DECLARE i INTEGER DEFAULT 0; {declared(it, system)} SET s = 0; {looped(it, *each, system)} END//",
        "DELIMITER ;", "START TRANSACTION;", rows and f"CALL fill({rows});", rows and "COMMIT;", rows and "START TRANSACTION;",
        seconds.format("START"),
        calls_sent(it, work, system).rstrip() if it.sent else f"CALL run({work}, @s);",
        seconds.format("END"),
        None if it.sent else "SELECT @s;", it.summed and f"{sums(it)};", "COMMIT;",
    )


def firebird(it, work):
    """For isql-fb, on a new database."""
    each = "WHILE (i < n) DO BEGIN i = i + 1;", "END"
    rows = rows_of(it, work)
    now = "(datediff(millisecond FROM timestamp '2020-01-01 00:00:00' TO cast('now' AS timestamp)) / 1000.000)"
    seconds = "SELECT '{} ' || " + now + " FROM rdb$database;"
    routines = written(it.routines, FIREBIRD)
    return lines(
        "SET HEADING OFF;", it.columns and f"CREATE TABLE t ({it.columns});", "COMMIT;", "SET TERM ^ ;", routines and f"{routines}^",
        rows and "CREATE PROCEDURE fill (n INTEGER) AS DECLARE i INTEGER = 0; BEGIN"
        f" {each[0]} INSERT INTO t VALUES ({it.row}); {each[1]} END^",
        None if it.sent else "CREATE PROCEDURE run (n INTEGER) RETURNS (s BIGINT) AS DECLARE i INTEGER = 0;"
        f" {declared(it, FIREBIRD)} BEGIN s = 0; {looped(it, *each, FIREBIRD)} END^",
        "SET TERM ; ^", "COMMIT;", rows and f"EXECUTE PROCEDURE fill ({rows});", rows and "COMMIT;",
        seconds.format("START"),
        calls_sent(it, work, FIREBIRD).rstrip() if it.sent else f"EXECUTE PROCEDURE run ({work});",
        seconds.format("END"),
        it.summed and f"{sums(it)};",
    )


def hsqldb(it, work):
    """For Bench.java: what is done once, and before, as and after each measured run. A line / ends a statement."""
    each = "WHILE i < n DO SET i = i + 1;", "END WHILE;"
    rows = rows_of(it, work)
    stored = "MODIFIES SQL DATA BEGIN ATOMIC DECLARE i INTEGER DEFAULT 0;"
    routines = written(it.routines, HSQLDB)
    once = [
        it.columns and f"CREATE TABLE t ({it.columns})", routines,
        rows and f"CREATE PROCEDURE fill (IN n INTEGER) {stored} {each[0]} INSERT INTO t VALUES ({with_set(it.row)}); {each[1]} END",
        # A handler does not see the variables of its own block, so there are two.
        None if it.sent else f"CREATE PROCEDURE run (IN n INTEGER, OUT o BIGINT) {stored} DECLARE s BIGINT DEFAULT 0;"
        f" BEGIN ATOMIC {declared(it, HSQLDB)} {looped(it, *each, HSQLDB)} END; SET o = s; END",
    ]
    filled = [it.columns and "TRUNCATE TABLE t", rows and f"CALL fill({rows})"]
    run = calls_sent(it, work, HSQLDB).rstrip("/\n") if it.sent else f"CALL run({work}, ?)"
    parts = (once, filled, [run], [sums(it)]) if it.summed else (once + filled, [], [run], [])
    return "----\n".join("".join(f"{each}\n/\n" for each in part if each) for part in parts)


FILES = {POSTGRESQL: postgresql, MARIADB: mariadb, MEMORY: lambda it, work: mariadb(it, work, MEMORY), FIREBIRD: firebird, HSQLDB: hsqldb}
