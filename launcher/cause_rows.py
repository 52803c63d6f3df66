"""The common causes of a syntax fault, as rows that launcher/causes.py looks through from the top.

A row has the innermost open statement, what stands before, what was found, and the help. The first three are patterns over
tokens, an empty one fits anything. Words and signs stand for themselves, N for a name, 0 for a number, 'x' for a text and
$end for the end of the file. NONE is open where no statement is, and START where no module has begun. In the help {open},
{found} and {last} are the open statement, the token that was found and the one before it.
"""

TYPES = ("SMALLINT", "INTEGER", "INT", "NUMERIC", "DECIMAL", "DEC", "CHAR", "CHARACTER", "VARCHAR")
# Words of other dialects that are names here, and that rows speak of.
ENDS = ("ENDIF", "ENDLOOP", "ENDWHILE", "ENDCASE")
TAILS = ("LIMIT", "UNION", "OFFSET", "EXCEPT", "INTERSECT", "MINUS", "RETURNING")
FOREIGN = ("ELSIF", "ELIF", *ENDS, *TAILS)
# After these a name stands, so that a reserved word there is most likely meant as one.
NAME_PLACES = (
    "( , . AS CALL CLOSE CONSTRAINT CURSOR DECLARE FETCH FROM FUNCTION IN INOUT INTO ITERATE LEAVE MODULE OPEN OUT "
    "PROCEDURE SET SIGNAL TABLE UPDATE"
).split()
RESERVED = '{found} is a reserved word: as a name write "{found}", or take another name'

NAME = "(?:N|[A-Z_]+)"
VALUE = "(?:N|0|'x'|NULL|\\))"
BLOCKS = "IF|CASE|LOOP|WHILE|REPEAT|FOR"
SIMPLE = "SET|IF|CASE|CALL|RETURN|LEAVE|ITERATE|SIGNAL|RESIGNAL|GET|SELECT|INSERT|UPDATE|DELETE|OPEN|FETCH|CLOSE"
BEGINNINGS = f"{SIMPLE}|BEGIN|LOOP|WHILE|REPEAT|FOR|COMMIT|ROLLBACK"
# Where a statement begins.
START = "(?:;|BEGIN|THEN|ELSE|DO|LOOP|REPEAT)"
COMPARE = "<|>|<=|>=|=|<>"
SETS = "COUNT|SUM|AVG|MIN|MAX"
FIRST = "declarations stand first in a block: variables and conditions, then cursors, then handlers, then statements"
ONE_ITEM = "a set function is an item of a SELECT by itself, and no part of an expression"
IN_FILES = "a module file has CREATE TABLE and one CREATE MODULE; a script has CALL, INSERT, SELECT, COMMIT and ROLLBACK"

ROWS = [
    # comments and signs of other languages
    ("", "", "/", "comments begin with -- and end with the line; there is no /* */"),
    ("", "/", r"\*", "comments begin with -- and end with the line; there is no /* */"),
    ("", r"\*", r"\*", "there is no power: write a * a"),
    ("", r"DECLARE( (?!DEFAULT|HANDLER|CURSOR)[^;\s]+)*", "=|:", "write DEFAULT: DECLARE n INTEGER DEFAULT 0"),
    ("", "N :", "=", "write SET name = value; there is no :="),
    ("", f"(SET|,) {NAME}( \\. {NAME})?", ":", "write SET name = value; there is no :="),
    ("", f"SET {NAME} = [^;]*", ":", "write CAST(value AS type)"),
    ("", f"SET {NAME}", r"\+|-|\*|\|\|", "write the name twice: SET n = n + 1"),
    ("", "=", "=", "one = compares"),
    ("", "<|>|=", "[<>=]", "the comparisons are = <> < <= > >="),
    ("", f"({COMPARE}) (N|0|'x')", COMPARE, "join two comparisons by AND: 1 < a AND a < 3"),
    # the file
    ("", "CREATE", "OR", "there is no OR REPLACE: each run begins without tables and routines"),
    ("", "CREATE", "PROCEDURE|FUNCTION", "routines stand inside CREATE MODULE name .. END MODULE, without CREATE"),
    ("", "CREATE", "N|UNIQUE", "only CREATE TABLE and CREATE MODULE are there; keys and UNIQUE are part of the table"),
    ("", "MODULE N", ";", "no semicolon follows the module's name"),
    ("", "END MODULE ;?", "CREATE", "all tables stand before the one module"),
    ("", "END MODULE", NAME, "no name follows END MODULE"),
    ("START", r".*[^;]", r"\$end", "a semicolon follows each command of a script, and a module file ends with END MODULE"),
    ("", "", r"\$end", "the file ends too early: every block ends with END, and the module with END MODULE"),
    ("START", r"\)", "CREATE", "a semicolon follows each table"),
    ("START", "(.* ;)?", "UPDATE|DELETE|SET|BEGIN|DECLARE|OPEN|FETCH|CLOSE", "a script has CALL, INSERT, SELECT, COMMIT and ROLLBACK alone: call a procedure that does it"),
    ("START", "(.* ;)?", "N|INSERT|SELECT|CALL|COMMIT|ROLLBACK", IN_FILES),
    # tables
    ("", "NULL|KEY|UNIQUE", "DEFAULT", "DEFAULT stands directly after the type, before NOT NULL and PRIMARY KEY"),
    ("", "UNIQUE|KEY", "INDEX|N", "a list of columns in parentheses follows: UNIQUE (a, b)"),
    ("START", "ON (DELETE|UPDATE)", ".*", "only NO ACTION stands here: change the rows that refer to it before, in a BEGIN ATOMIC"),
    ("START", "REFERENCES .*", "MATCH|DEFERRABLE|INITIALLY", "there is no {found}: a foreign key is tested at the end of each statement, and a null refers to no row"),
    ("", "", "FOREIGN|REFERENCES", "REFERENCES t (k) stands after the type of a column, FOREIGN KEY (a, b) REFERENCES t (c, d) among the elements of a table"),
    ("", "VARCHAR|VARYING", "[^(]+", "a length follows: VARCHAR(20)"),
    ("START", f"({'|'.join(TYPES)}|\\)|NULL|KEY)", "N", "after the type of a column only DEFAULT, NOT NULL, PRIMARY KEY, UNIQUE, CHECK (condition) and REFERENCES are allowed"),
    # routines and declarations
    ("", r"[(,] N", "IN|OUT|INOUT", "the mode stands before the name: IN name type"),
    ("", r"(PROCEDURE|FUNCTION) N \( [^;]* (?:%s)( \( [^()]* \))?" % "|".join(TYPES), "DEFAULT", "a parameter has no DEFAULT: write a second procedure with fewer parameters"),
    ("", r"\)", "IS|AS", "the statement of a routine follows directly: PROCEDURE p () BEGIN .. END"),
    ("NONE", r"\)", "RETURN", "write RETURNS type after the parameters of a function"),
    ("", "(FUNCTION|PROCEDURE) N", "[^(]+", "parentheses follow, also where there are no parameters: PROCEDURE p ()"),
    ("NONE", f"[^;]* ;", BEGINNINGS, "a routine has one statement: write BEGIN .. END around several"),
    ("", f"DECLARE {NAME}", "DATE|TIME|N", "the types are SMALLINT, INTEGER, NUMERIC(p,s), CHAR(n) and VARCHAR(n)"),
    ("", f"DECLARE {NAME}", f"{'|'.join(TYPES)}|CURSOR|CONDITION|INSENSITIVE", FIRST),
    ("", "", "DECLARE", FIRST),
    ("", "DECLARE", "N", FIRST),
    ("", "DECLARE (EXIT|CONTINUE|UNDO)?", "HANDLER", "write DECLARE CONTINUE, EXIT or UNDO HANDLER FOR condition statement"),
    ("", "HANDLER FOR", "0|'x'", "a handler is for SQLSTATE 'xxxxx', a condition's name, SQLEXCEPTION, SQLWARNING or NOT FOUND"),
    ("", "HANDLER FOR [^;]*", ";", "a statement follows, which handles the condition; BEGIN END does nothing"),
    ("", "CURSOR", "IS", "write CURSOR FOR SELECT"),
    ("", "SQLSTATE( VALUE)?", "0|N", "an SQLSTATE stands between apostrophes: SQLSTATE '45000'"),
    ("", "", "EXCEPTION", "handlers stand first in the block: DECLARE EXIT HANDLER FOR SQLEXCEPTION statement"),
    # the ends of blocks
    ("", f"(THEN|ELSE) {VALUE} END", "CASE", "a CASE that is a value ends with END alone"),
    ("", "(BEGIN|;|THEN|ELSE|DO|LOOP) END", "N", "a name stands after END only where the same label stands before the block: name: BEGIN .. END name"),
    ("", "END (LOOP|WHILE|REPEAT|FOR|IF|CASE)", "N", "a name stands after END {last} only where the same label stands before the loop"),
    ("", "|".join(ENDS), ".*", "write {last} as two words, as END IF"),
    (BLOCKS, "END", ";", "this END closes {open}: write END {open}"),
    (BLOCKS, "END", ".*", "this END closes {open}: write END {open} before it"),
    ("BEGIN", "END", BLOCKS, "this END closes BEGIN: write END alone, or open {found} before"),
    (BLOCKS, "", "MODULE|PROCEDURE|FUNCTION", "{open} is still open here: END {open} is missing"),
    ("", "END( N)?", "PROCEDURE|FUNCTION|END", "a semicolon follows each routine and each block inside another: END;"),
    ("BEGIN", "", "MODULE|PROCEDURE|FUNCTION", "BEGIN is still open here: an END is missing"),
    ("", "END", "[A-Z]+", "a semicolon follows each routine and each statement inside a block"),
    # statements
    ("", START, ";", "there is no empty statement: write one semicolon"),
    ("", f"{START} N", "=", "an assignment begins with SET: SET name = value"),
    ("", f"{START} N", r"\(", "a call begins with CALL: CALL name(..)"),
    ("", f"{START} N :", f"{SIMPLE}|N", "a label stands before BEGIN, LOOP, WHILE, REPEAT and FOR alone"),
    ("", "ELSE", "IF", "write ELSEIF"),
    ("", "ELSIF|ELIF", ".*", "write ELSEIF"),
    ("", f"{START} N", "N|0|'x'|;|[A-Z]+", "no statement begins with {last}"),
    ("", "THEN|ELSE|DO|LOOP|REPEAT", "END|ELSE|ELSEIF|UNTIL", "at least one statement stands here; BEGIN END does nothing"),
    ("", START, "NULL", "there is no statement NULL; BEGIN END does nothing"),
    ("", START, "COMMIT|ROLLBACK", "COMMIT and ROLLBACK are commands of a script; BEGIN ATOMIC undoes what fails"),
    ("", r"IN \(", "SELECT", "IN takes a list of values: write EXISTS (SELECT .. WHERE ..)"),
    ("IF", r"IF( (?!THEN)\S+)+", f";|DO|{BEGINNINGS}", "IF condition THEN statements END IF: THEN is missing"),
    ("WHILE", r"WHILE( (?!DO)\S+)+", f";|THEN|{BEGINNINGS}", "WHILE condition DO statements END WHILE: DO is missing"),
    ("REPEAT", "UNTIL [^;]*", ";", "END REPEAT follows the condition: UNTIL condition END REPEAT"),
    ("", "FOR N", "IN|=", "FOR goes over the rows of a query: FOR name AS SELECT .. DO .. END FOR; WHILE counts"),
    ("", "CALL N", ";", "parentheses follow, also without arguments: CALL p()"),
    ("", "LEAVE|ITERATE", ";", "a label follows: LEAVE name, where name: stands before the block or loop"),
    ("", START, "EXIT|BREAK|CONTINUE|GOTO", "LEAVE label ends a loop or block, and ITERATE label begins the next round"),
    ("", "RETURN", ";", "a value follows RETURN; a procedure is ended by LEAVE with the label of its block"),
    ("", "RETURN|=", "IF|BEGIN", "a value stands here: CASE WHEN condition THEN value ELSE value END"),
    ("", r"SUBSTRING \( [^()]*", ",", "write SUBSTRING(text FROM place FOR length)"),
    ("", "SET [^;]*", ",", "SET assigns one variable: write a SET for each"),
    ("", "FETCH N", ";", "INTO follows: FETCH name INTO variables"),
    # queries and data change
    ("", "SELECT", "INTO", "INTO follows the items: SELECT items INTO variables FROM table"),
    ("", r"SELECT( (?!FROM)\S+)+", r";|\)", "a query is over a table: SELECT items FROM table; a value alone is SET name = value"),
    ("", r"SELECT( (?!INTO)\S+)+", "FROM", "a SELECT of a routine stores its row: SELECT items INTO variables FROM table"),
    ("", "|".join(TAILS), ".*", "there is no {last}: a cursor or FOR takes the rows one by one"),
    ("", "FROM N( (AS )?N)?", r",|JOIN|INNER|NATURAL|CROSS|LEFT|\(", "a query is over one table: use a FOR loop with a SELECT inside"),
    ("", "", "GROUP|HAVING", "there is no GROUP BY: use a FOR loop over the groups with a SELECT .. INTO inside"),
    ("", "FROM .*", "ORDER", "ORDER BY stands in cursors, in FOR and in the SELECT of a script alone"),
    ("", "DELETE", NAME, "write DELETE FROM table WHERE condition"),
    ("", "INSERT", NAME, "write INSERT INTO table (columns) VALUES (values)"),
    ("", "VALUES", "0|'x'|N|NULL", "parentheses stand around the values of each row: VALUES (1), (2)"),
    ("", "[(,]", "DEFAULT", "leave the column out: INSERT INTO table (the other columns) VALUES (their values)"),
    # values
    ("", SETS, r"\(", ONE_ITEM),
    ("", rf"({SETS}) \( [^()]* \)", rf"\+|-|\*|/|\|\||{COMPARE}", ONE_ITEM),
    ("", "", SETS, ONE_ITEM),
    ("", rf"IS|{COMPARE}|\+|-|\*|/|\|\||\(|,|IN|LIKE", "NULL", "NULL is no operand: write IS NULL, or COALESCE"),
    ("", "POSITION|UPPER|LOWER|TRIM|CAST|COALESCE", r"[^(]+", '{last} is a reserved word: as a name write "{last}", or take another name'),
    ("", "=|SET", r"\?", "? stands for an OUT parameter in a script's CALL alone"),
    ("START", r"\(|,", r"N|-|\+|\(", "the values of a script are constants: numbers, texts and NULL"),
    ("", rf"\+|-|\*|/|\|\||{COMPARE}|AND|OR|NOT|IF|WHILE|UNTIL|WHEN|WHERE", ".*", "a value is missing here"),
    ("", f".* ({VALUE}|END|ROW_COUNT|[A-Z_]+_TEXT)", BEGINNINGS, "a semicolon is missing before {found}"),
    ("", f".* {VALUE}", "END|ELSE|ELSEIF|UNTIL|WHEN", "a semicolon is missing before {found}"),
]
