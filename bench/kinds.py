"""The kinds of files whose cost growth.py measures: for each a module or an object and a script of a size, and the end of the output.

A function of this file marked by `kind` makes them. Its sizes are at most `most`: more is above the limits of files or
tables, or has an output or variables of gigabytes (select_items_in_script, long_variables).
"""

import collections
import itertools
import string

from measure import MOST_ROWS, in_module

Kind = collections.namedtuple("Kind", "name make largest most counts_rows runs")
# The first file is a module for the command run, and an object for exec. The end of the output is compared with `ends`.
Files = collections.namedtuple("Files", "first script ends command", defaults=["run"])

KINDS = {}
TABLE = "CREATE TABLE t (k INTEGER PRIMARY KEY, v INTEGER);\n"
REFUSED = "SQLSTATE 23000 integrity constraint violation\n"


def kind(largest, most, counts_rows=False, runs=False):
    """Marks a function as a kind, with the largest size that is measured unless another is asked for.

    Of a kind marked by `runs` the run is measured; of the others reading, checking and code generation take most of the time.
    """

    def mark(make):
        KINDS[make.__name__] = Kind(make.__name__, make, largest, most, counts_rows, runs)
        return make

    return mark


def many(count, one, between="\n"):
    return between.join(one(i) for i in range(count))


def numbers(count):
    return many(count, str, ",")


def names(letter, count):
    return many(count, lambda i: f"{letter}{i}", ",")


def called(value, command=1):
    """What a CALL of p with one OUT parameter r prints."""
    return f"{command} CALL P\nR = {value}\nOK\n"


# Lists of IN.


@kind(40_000, 990_000)
def in_routine(n):
    """an IN list of n members in the condition of an IF"""
    body = f"PROCEDURE p (IN x INTEGER, OUT r INTEGER) IF x IN ({numbers(n)}) THEN SET r = 1; ELSE SET r = 0; END IF;"
    return Files(in_module(body), f"CALL p({n - 1}, ?);\nCALL p({n}, ?);\n", called(1) + called(0, 2))


@kind(40_000, 990_000)
def in_where(n):
    """an IN list of n members in the WHERE of a SELECT INTO over three rows"""
    body = f"PROCEDURE p (OUT r INTEGER) SELECT COUNT(*) INTO r FROM t WHERE v IN ({numbers(n)});"
    return Files(TABLE + in_module(body), f"INSERT INTO t VALUES (1,{n - 1}), (2,{n}), (3,NULL);\nCALL p(?);\n", called(1, 2))


@kind(40_000, 990_000)
def in_check(n):
    """an IN list of n members in a CHECK, and two INSERTs"""
    table = f"CREATE TABLE t (k INTEGER PRIMARY KEY, v INTEGER CHECK (v IN ({numbers(n)})));\n"
    script = f"INSERT INTO t VALUES (1,{n - 1});\nINSERT INTO t VALUES (2,{n});\n"
    return Files(table + in_module(""), script, "1 INSERT T\nOK\n2 INSERT T\n" + REFUSED)


@kind(40_000, 990_000)
def in_script(n):
    """an IN list of n members in the WHERE of a script's SELECT over three rows"""
    script = f"INSERT INTO t VALUES (1,{n - 1}), (2,{n}), (3,NULL);\nSELECT k FROM t WHERE v IN ({numbers(n)});\n"
    return Files(TABLE + in_module(""), script, "2 SELECT\nROW 1\nOK\n")


# Rows of VALUES.


def rows_of(n):
    return many(n, lambda i: f"({i},{i})", ",\n")


@kind(40_000, MOST_ROWS)
def values_in_routine(n):
    """an INSERT of n rows in a routine"""
    module = TABLE + in_module(f"PROCEDURE p () INSERT INTO t VALUES {rows_of(n)};")
    return Files(module, "CALL p();\nSELECT COUNT(*), MAX(v) FROM t;\n", f"2 SELECT\nROW {n}, {n - 1}\nOK\n")


@kind(40_000, MOST_ROWS)
def values_in_script(n):
    """an INSERT of n rows in a script"""
    script = f"INSERT INTO t VALUES {rows_of(n)};\nSELECT COUNT(*), MAX(v) FROM t;\n"
    return Files(TABLE + in_module(""), script, f"2 SELECT\nROW {n}, {n - 1}\nOK\n")


# Arguments.


def parameters(n, mode=""):
    return many(n, lambda i: f"{mode}a{i} INT", ",\n")


@kind(40_000, 390_000)
def arguments(n):
    """a procedure of n parameters, and a CALL of it in a routine"""
    body = f"PROCEDURE q ({parameters(n)}, OUT r INT) SET r = a{n - 1}; PROCEDURE p (OUT r INT) CALL q({numbers(n)},r);"
    return Files(in_module(body), "CALL p(?);\n", called(n - 1))


@kind(40_000, 245_000)
def out_arguments(n):
    """a procedure of n OUT parameters, and a CALL of it in a routine with n variables"""
    taken = f"PROCEDURE q ({parameters(n, 'OUT ')}) SET a{n - 1} = 7;\n"
    declared = f"DECLARE {names('v', n)} INT;"
    body = f"PROCEDURE p (OUT r INT) BEGIN {declared} CALL q({names('v', n)}); SET r = v{n - 1}; END;"
    return Files(in_module(taken + body), "CALL p(?);\n", called(7))


@kind(40_000, 660_000)
def arguments_in_script(n):
    """a procedure of n parameters, and a CALL of it in a script"""
    module = in_module(f"PROCEDURE p ({parameters(n)}, OUT r INT) SET r = a{n - 1};")
    return Files(module, f"CALL p({numbers(n)},?);\n", called(n - 1))


@kind(40_000, 490_000)
def out_arguments_in_script(n):
    """a procedure of n OUT parameters, and a CALL of it in a script"""
    module = in_module(f"PROCEDURE p ({parameters(n, 'OUT ')}) SET a{n - 1} = 7;")
    return Files(module, f"CALL p({many(n, lambda i: '?', ',')});\n", f"\nA{n - 1} = 7\nOK\n")


# Items of queries.

ONE_ROW = "INSERT INTO t VALUES (1,1);\nCALL p(?);\n"


def items(n):
    return many(n, lambda i: f"k+{i}", ",")


def targets(n):
    return many(n, lambda i: "r", ",")


@kind(20_000, 330_000)
def select_into_items(n):
    """a SELECT INTO of n items and n targets"""
    body = f"PROCEDURE p (OUT r INTEGER) SELECT {items(n)} INTO {targets(n)} FROM t;"
    return Files(TABLE + in_module(body), ONE_ROW, called(n, 2))


@kind(20_000, 330_000)
def fetch_items(n):
    """a cursor of n items, and a FETCH into n targets"""
    body = f"""PROCEDURE p (OUT r INTEGER) BEGIN
  DECLARE c CURSOR FOR SELECT {items(n)} FROM t;
  OPEN c; FETCH c INTO {targets(n)};
END;"""
    return Files(TABLE + in_module(body), ONE_ROW, called(n, 2))


@kind(20_000, 330_000)
def for_items(n):
    """a FOR of n items over one row"""
    named = many(n, lambda i: f"k+{i} AS v{i}", ",")
    body = f"PROCEDURE p (OUT r INTEGER) FOR f AS SELECT {named} FROM t DO SET r = v{n - 1}; END FOR;"
    return Files(TABLE + in_module(body), ONE_ROW, called(n, 2))


@kind(4_000, 450_000, runs=True)
def select_items_in_script(n):
    """a script's SELECT of n items over 300 rows"""
    rows = many(300, lambda i: f"({i},{i % 10})", ",")
    items_of = many(n - 1, lambda i: "v,", "") + "k"
    return Files(TABLE + in_module(""), f"INSERT INTO t VALUES {rows};\nSELECT {items_of} FROM t;\n", "9, 299\nOK\n")


# Chains of operators.


@kind(40_000, 990_000)
def sum_chain(n):
    """a chain of n additions"""
    body = f"PROCEDURE p (IN x INTEGER, OUT r INTEGER) SET r = x{'+1' * n};"
    return Files(in_module(body), "CALL p(5, ?);\n", called(n + 5))


@kind(40_000, 490_000)
def and_chain(n):
    """a chain of n conditions with AND between them"""
    chain = many(n, lambda i: f"x <> {i}", " AND ")
    body = f"PROCEDURE p (IN x INTEGER, OUT r INTEGER) IF {chain} THEN SET r = 1; ELSE SET r = 0; END IF;"
    return Files(in_module(body), f"CALL p({n - 1}, ?);\nCALL p({n}, ?);\n", called(0) + called(1, 2))


# Tables.


def tables(n):
    return many(n, lambda i: f"CREATE TABLE t{i} (k INT PRIMARY KEY);\n", "")


@kind(8_000, 195_000, runs=True)
def commits(n):
    """n tables, and n COMMITs of nothing in a script"""
    script = many(n, lambda i: "COMMIT;\n", "") + f"INSERT INTO t{n - 1} VALUES (7);\nSELECT k FROM t{n - 1};\n"
    return Files(tables(n) + in_module(""), script, f"{n + 2} SELECT\nROW 7\nOK\n")


@kind(8_000, 195_000, runs=True)
def commits_of_changes(n):
    """n tables, and an INSERT into each in a script, with a COMMIT after each"""
    script = many(n, lambda i: f"INSERT INTO t{i} VALUES ({i});\nCOMMIT;\n", "") + f"SELECT k FROM t{n - 1};\n"
    return Files(tables(n) + in_module(""), script, f"{2 * n + 1} SELECT\nROW {n - 1}\nOK\n")


@kind(8_000, 195_000, runs=True)
def rollbacks_of_changes(n):
    """n tables, and an INSERT into each in a script, with a ROLLBACK after each"""
    script = many(n, lambda i: f"INSERT INTO t{i} VALUES ({i});\nROLLBACK;\n", "") + f"SELECT COUNT(*) FROM t{n - 1};\n"
    return Files(tables(n) + in_module(""), script, f"{2 * n + 1} SELECT\nROW 0\nOK\n")


@kind(8_000, 110_000, runs=True)
def tables_in_routine(n):
    """a routine that inserts a row into each of n tables"""
    inserts = many(n, lambda i: f"INSERT INTO t{i} VALUES ({i});")
    body = f"PROCEDURE p () BEGIN {inserts} END;"
    return Files(tables(n) + in_module(body), f"CALL p();\nSELECT k FROM t{n - 1};\n", f"2 SELECT\nROW {n - 1}\nOK\n")


@kind(20_000, 390_000)
def unique_lists(n):
    """a table with n UNIQUE lists, and an INSERT that only the last of them refuses"""
    lists = "UNIQUE (v),\n" * (n - 1)
    table = f"CREATE TABLE t (k INTEGER PRIMARY KEY, v INTEGER, w INTEGER,\n{lists}UNIQUE (w));\n"
    script = "INSERT INTO t VALUES (1,1,1);\nINSERT INTO t VALUES (2,2,1);\n"
    return Files(table + in_module(""), script, "1 INSERT T\nOK\n2 INSERT T\n" + REFUSED)


# Handlers and conditions.

SIGNS = string.digits + string.ascii_uppercase


def state(i):
    """An SQLSTATE of its own for each i, of the classes from 30."""
    text = ""
    for _ in range(4):
        i, rest = divmod(i, len(SIGNS))
        text = SIGNS[rest] + text
    return SIGNS[3 + i] + text


def raised(n, handlers):
    """A procedure with these handlers that raises the condition of the last one n times."""
    body = f"""PROCEDURE p (IN n INTEGER, OUT r INTEGER) BEGIN
  DECLARE i INTEGER DEFAULT 0;
{handlers}
  SET r = 0;
  WHILE i < n DO SIGNAL SQLSTATE '{state(n - 1)}'; SET i = i + 1; END WHILE;
END;"""
    return Files(in_module(body), f"CALL p({n}, ?);\n", called(n))


@kind(8_000, 180_000, runs=True)
def handlers(n):
    """a block with n handlers, and n conditions that are raised for the last one"""
    head = "DECLARE CONTINUE HANDLER FOR SQLSTATE"
    others = many(n - 1, lambda i: f"{head} '{state(i)}' SET r = 0;\n", "")
    return raised(n, f"{others}{head} '{state(n - 1)}' SET r = r + 1;")


@kind(20_000, 660_000, runs=True)
def handler_values(n):
    """a handler of n SQLSTATEs, and n conditions that are raised for the last one"""
    values = many(n, lambda i: f"SQLSTATE '{state(i)}'", ",")
    return raised(n, f"DECLARE CONTINUE HANDLER FOR {values} SET r = r + 1;")


@kind(8_000, 280_000)
def conditions(n):
    """n declared conditions, and a SIGNAL of each"""
    declared = many(n, lambda i: f"DECLARE c{i} CONDITION;")
    body = f"""PROCEDURE p (OUT r INTEGER) BEGIN
{declared}
DECLARE CONTINUE HANDLER FOR SQLEXCEPTION SET r = r + 1;
SET r = 0;
{many(n, lambda i: f"SIGNAL c{i};")}
END;"""
    return Files(in_module(body), "CALL p(?);\n", called(n))


# Routines and what they declare.


@kind(20_000, 165_000)
def routines(n):
    """n procedures, and a CALL of each in a script"""
    module = in_module(many(n, lambda i: f"PROCEDURE p{i} (OUT r INT) SET r = {i};"))
    script = many(n, lambda i: f"CALL p{i}(?);\n", "")
    return Files(module, script, f"{n} CALL P{n - 1}\nR = {n - 1}\nOK\n")


@kind(20_000, 110_000)
def calls_of_routines(n):
    """n procedures, and a CALL of each in a routine"""
    made = many(n, lambda i: f"PROCEDURE p{i} (OUT r INT) SET r = {i};")
    calls = many(n, lambda i: f"CALL p{i}(r);")
    return Files(in_module(f"{made}\nPROCEDURE p (OUT r INT) BEGIN {calls} END;"), "CALL p(?);\n", called(n - 1))


# The kinds of parameters, each with a variable of the kind. Of the kinds of a first parameter, the argument has a lower kind, which
# no function has as its first, or is NULL.
PARAMETERS = [("SMALLINT", "s"), ("INT", "i"), ("NUMERIC", "d"), ("CHAR", "c"), ("VARCHAR(9)", "v")]
NUMBERS = PARAMETERS[:3]
FIRSTS = [("NUMERIC", "i"), ("VARCHAR(9)", "c")]
NULL_FIRST = [("NUMERIC", "NULL")]


def one_name(lists):
    """A function f for each list of parameters, and a call of it with the arguments of the list."""

    def function(i):
        listed = ",".join(f"a{at} {type_of}" for at, (type_of, _) in enumerate(lists[i]))
        return f"FUNCTION f ({listed}) RETURNS INT RETURN {i};"

    n = len(lists)
    made = many(n, function)
    calls = many(n, lambda i: f"SET r = r + f({','.join(argument for _, argument in lists[i])});")
    body = f"""PROCEDURE p (OUT r INT) BEGIN
  DECLARE s SMALLINT DEFAULT 1; DECLARE i INT DEFAULT 1; DECLARE d NUMERIC DEFAULT 1;
  DECLARE c CHAR DEFAULT 'a'; DECLARE v VARCHAR(9) DEFAULT 'a';
  SET r = 0;
{calls}
END;"""
    return Files(in_module(made + "\n" + body), "CALL p(?);\n", called(n * (n - 1) // 2))


def first_lists(n, firsts, kinds, lengths):
    """The first n lists of one of `firsts` and then of that many of `kinds`, for each of the lengths."""
    lists = itertools.chain(*(itertools.product(firsts, *[kinds] * rest) for rest in lengths))
    return list(itertools.islice(lists, n))


@kind(8_000, 36_000)
def calls_that_no_function_fits(n):
    """n functions of one name and of 6 or 7 parameters, and n calls that none of them fits exactly"""
    return one_name(first_lists(n, FIRSTS, PARAMETERS, (5, 6)))


@kind(4_000, 16_000)
def calls_with_ten_numbers(n):
    """n functions of one name and of ten numbers, and n calls that none of them fits exactly"""
    return one_name(first_lists(n, FIRSTS[:1], NUMBERS, (9,)))


@kind(8_000, 15_000)
def calls_with_null(n):
    """n functions of one name and of 7 parameters, each with another list from the second on, and n calls with NULL before it"""
    return one_name(first_lists(n, NULL_FIRST, PARAMETERS, (6,)))


@kind(8_000, 300_000, runs=True)
def long_variables(n):
    """n variables of CHAR(4000) with a DEFAULT"""
    body = f"PROCEDURE p (OUT r INTEGER) BEGIN DECLARE {names('v', n)} CHAR(4000) DEFAULT 'x'; SET r = CHAR_LENGTH(v{n - 1}); END;"
    return Files(in_module(body), "CALL p(?);\n", called(4000))


@kind(20_000, 115_000, runs=True)
def cursors(n):
    """n cursors that are open at once, and a FETCH of each"""
    declared = many(n, lambda i: f"DECLARE c{i} CURSOR FOR SELECT k FROM t;")
    opened = many(n, lambda i: f"OPEN c{i}; FETCH c{i} INTO r;")
    body = f"PROCEDURE p (OUT r INTEGER) BEGIN\n{declared}\n{opened}\nEND;"
    return Files(TABLE + in_module(body), ONE_ROW, called(1, 2))


@kind(20_000, 90_000)
def labels(n):
    """n blocks with a label, each with a LEAVE of it"""
    blocks = many(n, lambda i: f"l{i}: BEGIN SET r = r + 1; LEAVE l{i}; SET r = 0; END l{i};")
    return Files(in_module(f"PROCEDURE p (OUT r INTEGER) BEGIN SET r = 0;\n{blocks}\nEND;"), "CALL p(?);\n", called(n))


@kind(20_000, 180_000)
def leaves(n):
    """a block with n LEAVEs of its label"""
    leaves_of = many(n, lambda i: f"IF x = {i} THEN LEAVE l; END IF;")
    body = f"PROCEDURE p (IN x INTEGER, OUT r INTEGER) l: BEGIN SET r = 1;\n{leaves_of}\nSET r = 2; END;"
    return Files(in_module(body), f"CALL p({n - 1}, ?);\nCALL p({n}, ?);\n", called(1) + called(2, 2))


# Objects, whose tables and lists of columns have no bound but that of the file.


def columns_of(n):
    return many(n, lambda i: f"COL 'C{i}' INTEGER 1 NULL")


def all_of(n):
    return many(n, str, " ")


def object_of(table, plan, lines):
    """A table, and a procedure with a plan and these lines."""
    routine = f"ROUTINE P 'P' 0 0 0 0 1 0 0 0 {lines.count(chr(10)) + 1} -"
    return Files(f"PSM 3 1 1\n{table}\n{routine}\n{plan}\n{lines}\n", "SELECT COUNT(*) FROM t;\n", "1 SELECT\nROW 0\nOK\n", "exec")


@kind(40_000, 330_000)
def object_columns(n):
    """an object with a table of n columns, all of which its KEY, its UNIQUE list and an INSERT name"""
    table = f"TABLE 'T' {n} 1 0 0\n{columns_of(n)}\nKEY {all_of(n)}\nUNI {all_of(n)}"
    return object_of(table, f"PLAN INSERT 0 1 {all_of(n)}", "0 - - END")


@kind(40_000, 270_000)
def object_sets(n):
    """an object with an UPDATE that sets each of n columns of a table"""
    sets = many(n, lambda i: f"SET {i}\nEXPR 1\n- CONST N 1")
    return object_of(f"TABLE 'T' {n} 0 0 0\n{columns_of(n)}\nKEY 0", f"PLAN UPDATE 0 {n} 0\n{sets}", "0 - - END")


@kind(40_000, 300_000)
def object_inserts(n):
    """an object with n INSERTs of no row for each of n columns of a table"""
    lines = many(n, lambda i: f"0 {i + 1} - DATA 0")
    return object_of(f"TABLE 'T' {n} 0 0 0\n{columns_of(n)}\nKEY 0", f"PLAN INSERT 0 0 {all_of(n)}", lines + "\n0 - - END")


# Rows.

# A procedure that inserts the rows from the first to before the last.
INSERTS = """  PROCEDURE p (IN first INTEGER, IN last INTEGER) BEGIN
    DECLARE i INTEGER DEFAULT first;
    WHILE i < last DO INSERT INTO t VALUES (i,i); SET i = i + 1; END WHILE;
  END;
"""
EACH = 1_000


def committed(n, unique="", more="", at_end=""):
    """n rows that are inserted with a COMMIT after each thousand, and what is done then."""
    table = f"CREATE TABLE t (k INTEGER PRIMARY KEY, v INTEGER{unique});\n"
    script = "".join(f"CALL p({at},{min(at + EACH, n)});\nCOMMIT;\n" for at in range(0, n, EACH))
    counted = "SELECT COUNT(*) FROM t;\n"
    return Files(table + in_module(INSERTS + more), script + at_end + counted, f" SELECT\nROW {n}\nOK\n")


@kind(100_000, MOST_ROWS, counts_rows=True, runs=True)
def rows(n):
    """n rows of two INTEGERs, with a COMMIT after each thousand"""
    return committed(n)


@kind(100_000, MOST_ROWS, counts_rows=True, runs=True)
def unique_rows(n):
    """the same with the second column UNIQUE"""
    return committed(n, " UNIQUE")


@kind(100_000, MOST_ROWS, counts_rows=True, runs=True)
def uncommitted_rows(n):
    """n rows of two INTEGERs that one CALL inserts, without a COMMIT"""
    script = f"CALL p(0,{n});\nSELECT COUNT(*) FROM t;\n"
    return Files(TABLE + in_module(INSERTS), script, f"2 SELECT\nROW {n}\nOK\n")


@kind(100_000, MOST_ROWS, counts_rows=True, runs=True)
def updated_rows(n):
    """the rows of `rows`, and an UPDATE of them all"""
    return committed(n, more="  PROCEDURE u () UPDATE t SET v = v + 1;\n", at_end="CALL u();\n")


@kind(100_000, MOST_ROWS, counts_rows=True, runs=True)
def undone_rows(n):
    """n rows with a UNIQUE column that an ATOMIC block inserts and undoes"""
    body = INSERTS + f"  PROCEDURE u () BEGIN ATOMIC CALL p(0,{n}); SIGNAL SQLSTATE '45000'; END;\n"
    module = "CREATE TABLE t (k INTEGER PRIMARY KEY, v INTEGER UNIQUE);\n" + in_module(body)
    return Files(module, "CALL u();\nSELECT COUNT(*) FROM t;\n", "\n2 SELECT\nROW 0\nOK\n")
