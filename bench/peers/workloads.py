"""What bench/peers measures: 24 workloads, each written for psm and for the systems beside it.

A workload has a table t, a procedure fill(n) that puts n rows into it, which is not measured, and a procedure run(n, s), which is: it
counts i from 1 to n, does what the workload says for each, and gives s.

A text that stands by itself is for all systems. It has `x := e` for an assignment, `:x` for a variable in an SQL statement,
`SELECT .. INTO :x FROM`, and BIGINT; dialects.py writes it as each system wants it. Where a dictionary stands in place of a text, its
keys are the names of systems, with blanks between them, and the texts are as these systems read them. A system that is no
key lacks what the workload needs, and `lacks` says what that is.
"""

import dataclasses
from typing import Dict, Optional, Tuple, Union

Text = Union[str, Dict[str, str]]
Statement = Tuple[str, ...]

PSM, POSTGRESQL, MARIADB, MEMORY, FIREBIRD, HSQLDB, SQLITE = "psm", "postgresql", "mariadb", "mariadb_memory", "firebird", "hsqldb", "sqlite"

# The rows are as many as the work.
AS_WORK = -1


@dataclasses.dataclass(frozen=True)
class Workload:
    name: str
    title: str
    # The argument of run, and how often psm's script calls it, so that the time can be measured: it is divided by that.
    work: int
    calls: int = 1
    # The table, the rows that fill puts into it, and their values for i.
    columns: str = ""
    rows: int = 0
    row: str = ":i, :i"
    # Routines that run calls, its declarations after i and s, each with `;`, and what it does for each i, or once.
    routines: Text = ""
    declarations: Text = ""
    body: Text = ""
    is_loop: bool = True
    # The column whose sum is compared, if run changes rows or puts some in.
    summed: Optional[str] = None
    # Statements that the client sends one by one in place of a call of run, with {key} and {i}.
    sent: Text = ""
    # Whether the order of the keys matters, so that a hash table is no index.
    is_ordered: bool = False
    # The statements of SQLite, which its C program runs for each i as ?1: what it does with them, and their texts.
    sqlite: Statement = ()
    lacks: Dict[str, str] = dataclasses.field(default_factory=dict)
    # Ten times the work may take this many times as long.
    growth: int = 12


PAIRS = "k INTEGER PRIMARY KEY, v INTEGER"
UNIQUE = "k INTEGER PRIMARY KEY, u INTEGER UNIQUE"
CELLS = "a INTEGER, b INTEGER, v INTEGER, PRIMARY KEY (a, b)"
TOTALS = "k INTEGER PRIMARY KEY, v BIGINT, n INTEGER"

NO_PROCEDURES = {SQLITE: "has no procedures"}
NO_CONTINUE = "has no CONTINUE handler"
NO_UNDO = "undoes no changes"
NO_TABLE = {MEMORY: "is the same as MariaDB where there is no table"}


def handled(body, state, blank=""):
    """A block that raises a condition of this SQLSTATE, and a handler that counts it; HSQLDB's blocks are ATOMIC."""
    return f"BEGIN{blank} DECLARE EXIT HANDLER FOR SQLSTATE '{state}' SET s = s + 1; {body} END;"


DIVISION = "z INTEGER DEFAULT 0; x INTEGER;"
COUNTING = "CONTINUE HANDLER FOR SQLSTATE '22012' SET s = s + 1;"

ROUTINES = (
    Workload(
        "loop", "1,000,000 turns of a WHILE that adds", 1_000_000, calls=3,
        body="s := s + i;",
        sqlite=("once", "WITH RECURSIVE r(i) AS (SELECT 1 UNION ALL SELECT i + 1 FROM r WHERE i < ?1) SELECT SUM(i) FROM r"),
        lacks=NO_TABLE,
    ),
    Workload(
        "calls", "100,000 calls of a procedure", 100_000, calls=3,
        routines={
            "psm": "PROCEDURE inc (INOUT x NUMERIC(18,0)) SET x = x + 1;",
            "postgresql": "CREATE PROCEDURE inc (INOUT x BIGINT) LANGUAGE plpgsql AS $$ BEGIN x := x + 1; END $$;",
            "mariadb hsqldb": "CREATE PROCEDURE inc (INOUT x BIGINT) SET x = x + 1",
            "firebird": "CREATE PROCEDURE inc (x BIGINT) RETURNS (y BIGINT) AS BEGIN y = x + 1; END",
        },
        body={
            "psm postgresql mariadb hsqldb": "CALL inc(s);",
            "firebird": "EXECUTE PROCEDURE inc (:s) RETURNING_VALUES :s;",
        },
        lacks={**NO_PROCEDURES, **NO_TABLE},
    ),
    Workload(
        "functions", "100,000 calls of a function", 100_000, calls=3,
        routines={
            "psm": "FUNCTION f (x NUMERIC(18,0)) RETURNS NUMERIC(18,0) RETURN x + 1;",
            "postgresql": "CREATE FUNCTION f (x BIGINT) RETURNS BIGINT LANGUAGE plpgsql AS $$ BEGIN RETURN x + 1; END $$;",
            "mariadb": "CREATE FUNCTION f (x BIGINT) RETURNS BIGINT DETERMINISTIC NO SQL RETURN x + 1",
            "hsqldb": "CREATE FUNCTION f (x BIGINT) RETURNS BIGINT RETURN x + 1",
            "firebird": "CREATE FUNCTION f (x BIGINT) RETURNS BIGINT AS BEGIN RETURN x + 1; END",
        },
        body="s := f(s);",
        lacks={**NO_PROCEDURES, **NO_TABLE},
    ),
    Workload(
        "continue", "100,000 divisions by zero, a CONTINUE handler", 100_000, calls=3,
        declarations={"psm mariadb hsqldb": DIVISION + COUNTING},
        body={"psm mariadb hsqldb": "SET x = i / z;"},
        lacks={POSTGRESQL: NO_CONTINUE, FIREBIRD: NO_CONTINUE, **NO_PROCEDURES, **NO_TABLE},
    ),
    Workload(
        "exit", "100,000 divisions by zero, an EXIT handler", 100_000, calls=3,
        declarations=DIVISION,
        body={
            "psm mariadb": handled("SET x = i / z;", "22012"),
            "hsqldb": handled("SET x = i / z;", "22012", " ATOMIC"),
            "postgresql": "BEGIN x := i / z; EXCEPTION WHEN SQLSTATE '22012' THEN s := s + 1; END;",
            "firebird": "BEGIN x = i / z; WHEN SQLSTATE '22012' DO s = s + 1; END",
        },
        lacks={**NO_PROCEDURES, **NO_TABLE},
    ),
    Workload(
        "raises", "100,000 SIGNALs in a procedure, a handler of the caller", 100_000, calls=3,
        routines={
            "psm": "PROCEDURE fail () SIGNAL SQLSTATE '45000';",
            "mariadb hsqldb": "CREATE PROCEDURE fail () SIGNAL SQLSTATE '45000'",
            # A function, since a CALL that raises takes longer each time, which is not what is measured.
            "postgresql": "CREATE FUNCTION fail () RETURNS void LANGUAGE plpgsql AS $$ BEGIN RAISE SQLSTATE '45000'; END $$;",
            "firebird": "CREATE EXCEPTION failed 'failed'^\nCREATE PROCEDURE fail AS BEGIN EXCEPTION failed; END",
        },
        body={
            "psm mariadb": handled("CALL fail();", "45000"),
            "hsqldb": handled("CALL fail();", "45000", " ATOMIC"),
            "postgresql": "BEGIN PERFORM fail(); EXCEPTION WHEN SQLSTATE '45000' THEN s := s + 1; END;",
            "firebird": "BEGIN EXECUTE PROCEDURE fail; WHEN EXCEPTION failed DO s = s + 1; END",
        },
        lacks={**NO_PROCEDURES, **NO_TABLE},
    ),
    Workload(
        "concat", r"20,000 `\|\|` to texts of up to 2,000 characters", 20_000, calls=3,
        declarations="w VARCHAR(4000) DEFAULT ''; j INTEGER DEFAULT 0;",
        body={
            "psm mariadb hsqldb": "SET w = w || 'ab'; SET j = j + 1;"
            " IF j = 1000 THEN SET s = s + CHAR_LENGTH(w); SET w = ''; SET j = 0; END IF;",
            "postgresql": "w := w || 'ab'; j := j + 1; IF j = 1000 THEN s := s + CHAR_LENGTH(w); w := ''; j := 0; END IF;",
            "firebird": "w = w || 'ab'; j = j + 1; IF (j = 1000) THEN BEGIN s = s + CHAR_LENGTH(w); w = ''; j = 0; END",
        },
        lacks={**NO_PROCEDURES, **NO_TABLE},
    ),
)

PUT = {
    "psm": """PROCEDURE put (IN pk INTEGER, IN pv INTEGER) BEGIN
  DECLARE EXIT HANDLER FOR SQLSTATE '23000' UPDATE t SET v = v + pv, n = n + 1 WHERE k = pk;
  INSERT INTO t VALUES (pk, pv, 1);
END;""",
    "postgresql": """CREATE PROCEDURE put (IN pk INTEGER, IN pv INTEGER) LANGUAGE plpgsql AS $$ BEGIN
  INSERT INTO t VALUES (pk, pv, 1);
EXCEPTION WHEN unique_violation THEN UPDATE t SET v = v + pv, n = n + 1 WHERE k = pk; END $$;""",
    "mariadb mariadb_memory": """CREATE PROCEDURE put (IN pk INTEGER, IN pv INTEGER) BEGIN
  DECLARE EXIT HANDLER FOR SQLSTATE '23000' UPDATE t SET v = v + pv, n = n + 1 WHERE k = pk;
  INSERT INTO t VALUES (pk, pv, 1);
END""",
    "hsqldb": """CREATE PROCEDURE put (IN pk INTEGER, IN pv INTEGER) MODIFIES SQL DATA BEGIN ATOMIC
  DECLARE EXIT HANDLER FOR SQLSTATE '23505' UPDATE t SET v = v + pv, n = n + 1 WHERE k = pk;
  INSERT INTO t VALUES (pk, pv, 1);
END""",
    "firebird": """CREATE PROCEDURE put (pk INTEGER, pv INTEGER) AS BEGIN
  INSERT INTO t VALUES (:pk, :pv, 1);
  WHEN GDSCODE unique_key_violation DO UPDATE t SET v = v + :pv, n = n + 1 WHERE k = :pk;
END""",
}
# 7919 and 200003 are prime, so each number comes once.
SCATTERED = "INSERT INTO t VALUES (MOD(:i * 7919, 200003), :n - :i);"


def undone(psm, others):
    """A change that is undone for each i, and counted: in psm's words, and as the other systems want it."""
    return {
        "psm": f"BEGIN ATOMIC DECLARE UNDO HANDLER FOR SQLSTATE '45000' SET s = s + 1; {psm} SIGNAL SQLSTATE '45000'; END;",
        "hsqldb": f"BEGIN ATOMIC DECLARE UNDO HANDLER FOR SQLSTATE '45000' SET s = s + 1; {psm} SIGNAL SQLSTATE '45000'; END;",
        "postgresql": f"BEGIN {psm} RAISE SQLSTATE '45000'; EXCEPTION WHEN SQLSTATE '45000' THEN s := s + 1; END;",
        "mariadb": "BEGIN DECLARE EXIT HANDLER FOR SQLSTATE '45000' BEGIN ROLLBACK TO SAVEPOINT u; SET s = s + 1; END;"
        f" SAVEPOINT u; {psm} SIGNAL SQLSTATE '45000'; END;",
        "firebird": f"BEGIN BEGIN {others} EXCEPTION failed; END WHEN EXCEPTION failed DO s = s + 1; END",
    }


FAILED = {"firebird": "CREATE EXCEPTION failed 'failed'", "psm postgresql mariadb hsqldb": ""}

CHANGES = (
    Workload(
        "gen", "200,000 calls of an INSERT, with an UPDATE where the key is there", 200_000,
        columns=TOTALS, routines=PUT, summed="v",
        body={
            "psm": "CALL put(i - i / 97 * 97, i);",
            "postgresql": "CALL put(MOD(i, 97), i); IF MOD(i, 100) = 0 THEN COMMIT; END IF;",
            "mariadb mariadb_memory hsqldb": "CALL put(MOD(i, 97), i);",
            "firebird": "EXECUTE PROCEDURE put (MOD(:i, 97), :i);",
        },
        sqlite=("or", "INSERT INTO t VALUES (?1 % 97, ?1, 1)", "UPDATE t SET v = v + ?1, n = n + 1 WHERE k = ?1 % 97"),
    ),
    Workload(
        "gencalls", "the same, each sent by the client", 200_000,
        columns=TOTALS, routines=PUT, summed="v",
        sent={
            "psm postgresql mariadb mariadb_memory": "CALL put({key}, {i});\n",
            "hsqldb": "CALL put({key}, {i})\n/\n",
            "firebird": "EXECUTE PROCEDURE put ({key}, {i});\n",
            "sqlite": "INSERT INTO t VALUES ({key}, {i}, 1) ON CONFLICT (k) DO UPDATE SET v = v + excluded.v, n = n + 1;\n",
        },
        sqlite=("sent",),
    ),
    Workload(
        "insert", "200,000 INSERTs with a UNIQUE column, keys rising", 200_000,
        columns=UNIQUE, summed="u",
        body="INSERT INTO t VALUES (:i, :n - :i);",
        sqlite=("each", "INSERT INTO t VALUES (?1, ?2 - ?1)"),
    ),
    Workload(
        "scattered", "200,000 INSERTs with a UNIQUE column, keys scattered", 200_000,
        columns=UNIQUE, summed="u", growth=16,
        declarations={"psm": "k INTEGER;", "postgresql mariadb mariadb_memory firebird hsqldb": ""},
        body={
            "psm": "SET k = i * 7919 - i * 7919 / 200003 * 200003; INSERT INTO t VALUES (k, n - i);",
            "firebird": SCATTERED,
            "postgresql mariadb mariadb_memory hsqldb": SCATTERED.replace(":", ""),
        },
        sqlite=("each", "INSERT INTO t VALUES (?1 * 7919 % 200003, ?2 - ?1)"),
    ),
    Workload(
        "update", "100,000 UPDATEs by key", 100_000, calls=3,
        columns=PAIRS, rows=100_000, summed="v",
        body="UPDATE t SET v = v + 1 WHERE k = :i;",
        sqlite=("each", "UPDATE t SET v = v + 1 WHERE k = ?1"),
    ),
    Workload(
        "undo", "1,000 UPDATEs of 200 rows, each undone", 1_000, calls=3,
        columns=PAIRS, rows=200, summed="v", routines=FAILED,
        body=undone("UPDATE t SET v = v + 1;", "UPDATE t SET v = v + 1;"),
        sqlite=("undo", "UPDATE t SET v = v + 1"),
        lacks={MEMORY: NO_UNDO},
    ),
    Workload(
        "undo_one", "20,000 INSERTs into 20,000 rows, each undone", 20_000, calls=3,
        columns=PAIRS, rows=20_000, summed="v", routines=FAILED,
        body=undone("INSERT INTO t VALUES (100000 + i, i);", "INSERT INTO t VALUES (100000 + :i, :i);"),
        sqlite=("undo", "INSERT INTO t VALUES (100000 + ?1, ?1)"),
        lacks={MEMORY: NO_UNDO},
    ),
)

FETCHES = "OPEN c; FETCH c INTO x; WHILE done = 0 DO SET s = s + x; FETCH c INTO x; END WHILE; CLOSE c;"

# A look-up or a walk in a table of 100,000 rows, whose value is added to s.
FOUND = {"rows": 100_000, "calls": 3}


def selected(query, before=""):
    return f"{before}{query} s := s + x;"


QUERIES = (
    Workload(
        "cursor", "FETCHes of 200,000 rows", 200_000, calls=3, is_loop=False,
        columns=PAIRS, rows=AS_WORK,
        declarations={
            "psm mariadb mariadb_memory": "x INTEGER; done INTEGER DEFAULT 0; c CURSOR FOR SELECT v FROM t;"
            " CONTINUE HANDLER FOR NOT FOUND SET done = 1;",
            "postgresql": "x INTEGER; c CURSOR FOR SELECT v FROM t;",
            "firebird": "x INTEGER; c CURSOR FOR (SELECT v FROM t);",
        },
        body={
            "psm mariadb mariadb_memory": FETCHES,
            "postgresql": "OPEN c; FETCH c INTO x; WHILE FOUND LOOP s := s + x; FETCH c INTO x; END LOOP; CLOSE c;",
            "firebird": "OPEN c; FETCH c INTO x; WHILE (ROW_COUNT = 1) DO BEGIN s = s + x; FETCH c INTO x; END CLOSE c;",
        },
        sqlite=("once", "SELECT v FROM t ORDER BY k"),
        lacks={HSQLDB: "has no FETCH in procedures"},
    ),
    Workload(
        "for", "FOR over 200,000 rows", 200_000, calls=3, is_loop=False,
        columns=PAIRS, rows=AS_WORK,
        declarations={"postgresql": "r RECORD;", "firebird": "x INTEGER;", "psm mariadb mariadb_memory hsqldb": ""},
        body={
            "psm": "FOR r AS SELECT v FROM t DO SET s = s + r.v; END FOR;",
            "postgresql": "FOR r IN SELECT v FROM t LOOP s := s + r.v; END LOOP;",
            "mariadb mariadb_memory": "FOR r IN (SELECT v FROM t) DO SET s = s + r.v; END FOR;",
            "hsqldb": "FOR SELECT v FROM t DO SET s = s + v; END FOR;",
            "firebird": "FOR SELECT v FROM t INTO :x DO s = s + x;",
        },
        sqlite=("once", "SELECT v FROM t ORDER BY k"),
    ),
    Workload(
        "lookup", "100,000 SELECTs by key", 100_000, columns=PAIRS, **FOUND,
        declarations="x INTEGER;",
        body=selected("SELECT v INTO :x FROM t WHERE k = :i;"),
        sqlite=("each", "SELECT v FROM t WHERE k = ?1"),
    ),
    Workload(
        "next", "500 SELECTs with `k = i + 1`", 500, columns=PAIRS, rows=100_000,
        declarations="x INTEGER;",
        body=selected("SELECT v INTO :x FROM t WHERE k = :i + 1;"),
        sqlite=("each", "SELECT v FROM t WHERE k = ?1 + 1"),
    ),
    Workload(
        "or", "100,000 SELECTs with `k = i AND (v > 0 OR v < 0)`", 100_000, columns=PAIRS, **FOUND,
        declarations="x INTEGER;",
        body=selected("SELECT v INTO :x FROM t WHERE k = :i AND (v > 0 OR v < 0);"),
        sqlite=("each", "SELECT v FROM t WHERE k = ?1 AND (v > 0 OR v < 0)"),
    ),
    Workload(
        "unique", "100,000 SELECTs by a UNIQUE column", 100_000, columns=UNIQUE, row=":i, :i + 1000000", **FOUND,
        declarations="x INTEGER; w INTEGER;",
        body=selected("SELECT k INTO :x FROM t WHERE u = :w;", "w := i + 1000000; "),
        sqlite=("each", "SELECT k FROM t WHERE u = ?1 + 1000000"),
    ),
    Workload(
        "first", "10,000 SUMs by the first of two key columns, 100 rows each", 10_000, is_ordered=True, columns=CELLS,
        row=":i / 100, :i - :i / 100 * 100, :i", **FOUND,
        declarations="x BIGINT; w INTEGER;",
        body=selected("SELECT SUM(v) INTO :x FROM t WHERE a = :w;", "w := i / 10; "),
        sqlite=("each", "SELECT SUM(v) FROM t WHERE a = ?1 / 10"),
    ),
    Workload(
        "range", "10,000 SUMs over 100 keys", 10_000, is_ordered=True, columns=PAIRS, **FOUND,
        declarations="x BIGINT; lo INTEGER; hi INTEGER;",
        body=selected("SELECT SUM(v) INTO :x FROM t WHERE k BETWEEN :lo AND :hi;", "lo := i * 9; hi := lo + 99; "),
        sqlite=("each", "SELECT SUM(v) FROM t WHERE k BETWEEN ?1 * 9 AND ?1 * 9 + 99"),
    ),
    Workload(
        "max", "1,000 SELECTs of MAX(k)", 1_000, is_ordered=True, columns=PAIRS, rows=100_000, calls=100,
        declarations="x INTEGER;",
        body=selected("SELECT MAX(k) INTO :x FROM t;"),
        sqlite=("each", "SELECT MAX(k) FROM t"),
    ),
    Workload(
        "count", "200 SELECTs of COUNT(*)", 200, columns=PAIRS, rows=100_000, calls=500,
        declarations="x INTEGER;",
        body=selected("SELECT COUNT(*) INTO :x FROM t;"),
        sqlite=("each", "SELECT COUNT(*) FROM t"),
    ),
)

WORKLOADS = {it.name: it for it in ROUTINES + CHANGES + QUERIES}
