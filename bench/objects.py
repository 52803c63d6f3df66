"""Whether a text is an object, counted anew from docs/formats.md and docs/machine.md, with nothing of the program in it.

    python3 bench/objects.py FILE..

prints for each file `OK`, or the line that `psm exec` prints of it: the first line that does not fit, is missing or is one too
many; else the first line that breaks a rule, with the lowest rule that it breaks.
"""

import collections
import re
import sys

UNFIT = "not an object text"
RULES = (
    "",
    "F1 number out of range",
    "F2 target outside the routine",
    "F3 stack does not follow",
    "F4 context does not follow",
    "F5 resume does not follow",
    "F6 backward jump without turn",
    "F7 instruction not allowed here",
    "F8 schema or plan not valid",
)


class Refused(Exception):
    """The text is no object, by this line."""

    def __init__(self, line, text):
        super().__init__(f"object {line} {text}")


def answer(text):
    """Returns `OK`, or the line that refuses these bytes."""
    try:
        check_code(read_code(text))
    except Refused as refused:
        return str(refused)
    return "OK"


# ---- Words.

MOST = 4_294_967_295
NUMBER = r"(0|[1-9][0-9]*)"
QUOTED = r"'(?:[ -&(-\[\]-~]|\\\{[0-9A-F]+\})*'"
NAME = f"({QUOTED})"
DATUM = rf"(NULL|-?(?:0|[1-9][0-9]*)(?:\.[0-9]+)?|{QUOTED})"
PLAIN = NUMBER.replace("(", "(?:")
TYPE = rf"(SMALLINT|INTEGER|NUMERIC\({PLAIN},{PLAIN}\)|(?:VAR)?CHAR\({PLAIN}\))"
STATE = "[!-~]{5}"
STACK = "(-|[NTB]+)"
NUMBERS = f"({PLAIN}(?: {PLAIN})*)"

# A type: its kind, and the numbers that stand in parentheses.
Type = collections.namedtuple("Type", "kind numbers")
# A number as a datum: all its digits as a number, and how many of them stand after the point.
Decimal = collections.namedtuple("Decimal", "digits scale")


def number_of(word, most=MOST):
    if len(word) > 10 or int(word) > most:
        raise ValueError
    return int(word)


def numbers_of(words):
    return [number_of(word) for word in words.split(" ")]


def characters_of(word):
    """Returns the code points between the apostrophes."""
    found = []
    for part in re.findall(r"\\\{[0-9A-F]+\}|.", word[1:-1]):
        if part[0] != "\\":
            found.append(ord(part))
            continue
        digits = part[2:-1]
        point = int(digits, 16) if len(digits) <= 6 else MOST
        stands_for_itself = 0x20 <= point <= 0x7E and point not in (0x27, 0x5C)
        if (digits[0] == "0" and digits != "0") or point > 0x10FFFF or 0xD800 <= point <= 0xDFFF or stands_for_itself:
            raise ValueError
        found.append(point)
    return found


def name_of(word):
    found = characters_of(word)
    if not 1 <= len(found) <= 128:
        raise ValueError
    return tuple(found)


def datum_of(word):
    """Returns None for NULL, a Decimal, or a list of code points."""
    if word == "NULL":
        return None
    if word[0] == "'":
        found = characters_of(word)
        if len(found) > 4000:
            raise ValueError
        return found
    whole, _, after = word.partition(".")
    digits = (whole + after).lstrip("-0")
    if len(digits) > 18 or len(after) > 18 or (not digits and word[0] == "-"):
        raise ValueError
    return Decimal(int(whole + after), len(after))


def type_of(word):
    kind, _, rest = word.partition("(")
    most = 255 if kind == "NUMERIC" else 65535
    return Type(kind, [number_of(it, most) for it in rest[:-1].split(",")] if rest else [])


def stack_of(word):
    return "" if word == "-" else word


def value_of(word):
    """Returns a value of a HANDLER: its letter, and the number or the state."""
    return (word[0], number_of(word[2:])) if word[0] == "N" else (word[0], word[2:])


# ---- Instructions, by docs/machine.md. The letters of a shape say which operands follow the mnemonic.

PATTERNS = {
    "n": NUMBER,
    "s": NUMBER,
    "k": "([NT])",
    "d": DATUM,
    "t": TYPE,
    "side": "([LTB])",
    "item": "(NUMBER|MORE|ROW_COUNT)",
    "entry": "(CONDITION_NUMBER|RETURNED_SQLSTATE|CONDITION_IDENTIFIER|MESSAGE_TEXT|MESSAGE_LENGTH|TABLE_NAME|CURSOR_NAME)",
}
# What takes fixed operands: these letters, to these.
OPERATIONS = {
    "NEG": ("N", "N"),
    **{it: ("NN", "N") for it in ("ADD", "SUB", "MUL", "DIV")},
    "SCALE": ("N", "N"),
    "CAT": ("TT", "T"),
    "LEN": ("T", "N"),
    "POS": ("TT", "N"),
    "SUB2": ("TN", "T"),
    "SUB3": ("TNN", "T"),
    **{it: ("T", "T") for it in ("TRIM", "UP", "LOW")},
    **{it: ("BB", "B") for it in ("AND", "OR")},
    "NOT": ("B", "B"),
    "LIKE": ("TT", "B"),
    "LIKEE": ("TTT", "B"),
    "JNOT": ("B", ""),
}
COMPARISONS = ("EQ", "NE", "LT", "LE", "GT", "GE")
OTHER_OPERATIONS = ("CONST", "VAR", "COL", "DUP", "DROP", "NIP", "ISNULL", "BETW", "IN", "NULLIF", "CAST", "JMP", "JSET")
NO_OPERANDS = (
    *("CLEAR", "WARN", "TURN", "ENTER", "EXIT", "ENDACT", "END", "NORET"),
    *("OPEN", "CLOSE", "SIG", "RESIG", "RESIGC", "NOCASE"),
)
OTHERS = (
    *("STORE", "FSTORE", "CALL", "FCALL", "RETV", "EXISTS", "SCALAR", "ROW", "DATA", "FETCH", "NEXT"),
    *("SIGM", "RESIGM", "GETS", "GETC", "SGETS", "SGETC"),
)
IS_OPERATION = {*OPERATIONS, *COMPARISONS, *OTHER_OPERATIONS}
SHAPES = {
    **{it: [] for it in (*IS_OPERATION, *NO_OPERANDS, *OTHERS)},
    "CONST": ["k", "d"],
    "SCALE": ["s"],
    "TRIM": ["side"],
    "CAST": ["t"],
    "NEXT": ["n", "n"],
    **{it: ["item"] for it in ("GETS", "SGETS")},
    **{it: ["entry"] for it in ("GETC", "SGETC")},
    **{it: ["n"] for it in ("VAR", "COL", "STORE", "FSTORE", "IN", "JMP", "JNOT", "JSET", "ENTER", "EXIT", "ENDACT")},
    **{it: ["n"] for it in ("CALL", "FCALL", "EXISTS", "SCALAR", "ROW", "DATA", "OPEN", "CLOSE", "FETCH")},
    **{it: ["n"] for it in ("SIG", "SIGM", "RESIGC", "RESIGM")},
}
MAY_RAISE = {
    *("ADD", "SUB", "MUL", "DIV", "SCALE", "CAT", "SUB2", "SUB3", "LIKE", "LIKEE", "CAST"),
    *("STORE", "FSTORE", "WARN", "CALL", "FCALL", "RETV", "NORET", "EXISTS", "SCALAR", "ROW", "DATA"),
    *("OPEN", "CLOSE", "FETCH", "NEXT", "SIG", "SIGM", "RESIG", "RESIGC", "RESIGM", "NOCASE"),
    *("GETS", "GETC", "SGETS", "SGETC"),
}
STOPS = ("RETV", "END", "NORET", "ENDACT", "NOCASE", "JMP")
JUMPS = ("JMP", "JNOT", "JSET", "NEXT")
ITEMS = {"NUMBER": "N", "MORE": "T", "ROW_COUNT": "N", "CONDITION_NUMBER": "N", "MESSAGE_LENGTH": "N"}

READERS = {"n": number_of, "s": lambda word: number_of(word, 255), "d": datum_of, "t": type_of}
FORMS = {it: re.compile(" ".join([it, *(PATTERNS[part] for part in SHAPES[it])])) for it in SHAPES}
Instruction = collections.namedtuple("Instruction", "mnemonic operands")


def instruction_of(text):
    mnemonic = text.partition(" ")[0]
    if mnemonic not in FORMS:
        raise ValueError
    found = FORMS[mnemonic].fullmatch(text)
    if not found:
        raise ValueError
    operands = [READERS.get(part, str)(word) for part, word in zip(SHAPES[mnemonic], found.groups())]
    return Instruction(mnemonic, operands)


# How many operands of one family an operation takes, where it is not two.
TAKEN = {"DUP": 1, "DROP": 1, "ISNULL": 1, "CAST": 1, "JSET": 1, "BETW": 3}

# ---- The parts of code. Each has the number of the line that states it.

Code = collections.namedtuple("Code", "tables routines")
Table = collections.namedtuple("Table", "at name columns key uniques references checks")
Column = collections.namedtuple("Column", "at name type is_not_null default")
Columns = collections.namedtuple("Columns", "at numbers")
# A foreign key: the columns of its table, and the table and the columns to which they refer.
Reference = collections.namedtuple("Reference", "at columns table target")
Expression = collections.namedtuple("Expression", "at lines")
ExpressionLine = collections.namedtuple("ExpressionLine", "at stack instruction")
Routine = collections.namedtuple(
    "Routine", "at is_function name type parameters slots queries cursors plans conditions contexts handlers lines"
)
Parameter = collections.namedtuple("Parameter", "at mode name type")
Slot = collections.namedtuple("Slot", "at type")
Query = collections.namedtuple("Query", "at table items test")
# The function is None for an ITEM, and the expression None for COUNT*.
Item = collections.namedtuple("Item", "at function expression")
Cursor = collections.namedtuple("Cursor", "at query is_plain is_updatable")
# The numbers are the operands of the plan's line after its word; the columns those of INSERT.
Plan = collections.namedtuple("Plan", "at kind numbers columns sets test")
Set = collections.namedtuple("Set", "at column expression")
Condition = collections.namedtuple("Condition", "at state name")
Context = collections.namedtuple("Context", "at parent is_block is_atomic exit cursors handler")
Handler = collections.namedtuple("Handler", "at context kind line values")
Line = collections.namedtuple("Line", "at context resume stack instruction")


# ---- Reading: each line says by its numbers which lines follow.

HEAD = re.compile(f"PSM 3 {NUMBER} {NUMBER}")
TABLE = re.compile(f"TABLE {NAME} {NUMBER} {NUMBER} {NUMBER} {NUMBER}")
COLUMN = re.compile(f"COL {NAME} {TYPE} ([01]) {DATUM}")
KEY = re.compile(f"KEY {NUMBERS}")
UNIQUE = re.compile(f"UNI {NUMBERS}")
REFERENCE = re.compile(f"REF {NUMBERS} TO {NUMBER} {NUMBERS}")
EXPRESSION = re.compile(f"EXPR {NUMBER}")
UNDER_EXPRESSION = re.compile(f"{STACK} (.*)")
ROUTINE = re.compile(f"ROUTINE ([PF]) {NAME} {' '.join([NUMBER] * 9)} (?:-|{TYPE})")
PARAMETER = re.compile(f"PAR (IN|OUT|INOUT) {NAME} {TYPE}")
SLOT = re.compile(f"SLOT {TYPE}")
QUERY = re.compile(f"QUERY {NUMBER} (?:UP|DOWN) {NUMBER} ([01])")
ITEM = re.compile(r"ITEM|AGG (COUNT\*|COUNT|SUM|MIN|MAX|AVG)")
CURSOR = re.compile(f"CURSOR {NAME} {NUMBER} ([SI]) ([RU])")
PLANS = {
    "INSERT": re.compile(f"PLAN INSERT {NUMBER} {NUMBER} {NUMBERS}"),
    "INSERTQ": re.compile(f"PLAN INSERTQ {NUMBER} {NUMBER} {NUMBERS}"),
    "UPDATE": re.compile(f"PLAN UPDATE {NUMBER} {NUMBER} ([01])"),
    "DELETE": re.compile(f"PLAN DELETE {NUMBER} ([01])"),
    "UPDATEAT": re.compile(f"PLAN UPDATEAT {NUMBER} {NUMBER}"),
    "DELETEAT": re.compile(f"PLAN DELETEAT {NUMBER}"),
}
SET = re.compile(f"SET {NUMBER}")
CONDITION = re.compile(f"COND ({STATE}) (?:-|{NAME})")
BLOCK = re.compile(f"CTX {NUMBER} BLOCK ([01]) {NUMBER}((?: {PLAIN})*)")
ACTION = re.compile(f"CTX {NUMBER} ACTION {NUMBER}")
VALUE = f"N={PLAIN}|S={STATE}|[XWF]"
HANDLER = re.compile(f"HANDLER {NUMBER} (CONTINUE|EXIT|UNDO) {NUMBER} ((?:{VALUE})(?: (?:{VALUE}))*)")
LINE = re.compile(f"{NUMBER} (?:-|{NUMBER}) {STACK} (.*)")


class Reader:
    """The lines of a text from one on."""

    def __init__(self, text):
        self.lines = text.decode("latin-1").split("\n")
        # What stands after the last line feed is no line, or a line without one.
        self.last = self.lines.pop()
        self.number = 0

    def due(self, *forms):
        """Returns the number of the next line and the match of one of the forms that it is to have."""
        self.number += 1
        if self.number > len(self.lines):
            raise Refused(self.number, UNFIT)
        for form in forms:
            found = form.fullmatch(self.lines[self.number - 1])
            if found:
                return self.number, found
        raise Refused(self.number, UNFIT)

    def end(self):
        if self.number < len(self.lines) or self.last:
            raise Refused(self.number + 1, UNFIT)


def fits(reading):
    """Makes a reader of a part refuse its line where a word of it is not read."""

    def read(lines, *more):
        try:
            return reading(lines, *more)
        except ValueError:
            raise Refused(lines.number, UNFIT) from None

    return read


def read_code(text):
    lines = Reader(text)
    tables, routines = read_head(lines)
    code = Code([read_table(lines) for _ in range(tables)], [read_routine(lines) for _ in range(routines)])
    lines.end()
    return code


@fits
def read_head(lines):
    _, found = lines.due(HEAD)
    return number_of(found[1]), number_of(found[2])


@fits
def read_table(lines):
    at, found = lines.due(TABLE)
    name, columns, uniques, checks, keys = name_of(found[1]), *map(number_of, found.groups()[1:])
    listed = [read_column(lines) for _ in range(columns)]
    key = read_columns(lines, KEY)
    lists = [read_columns(lines, UNIQUE) for _ in range(uniques)]
    references = [read_reference(lines) for _ in range(keys)]
    return Table(at, name, listed, key, lists, references, [read_expression(lines) for _ in range(checks)])


@fits
def read_column(lines):
    at, found = lines.due(COLUMN)
    return Column(at, name_of(found[1]), type_of(found[2]), found[3] == "1", datum_of(found[4]))


@fits
def read_columns(lines, form):
    at, found = lines.due(form)
    return Columns(at, numbers_of(found[1]))


@fits
def read_reference(lines):
    at, found = lines.due(REFERENCE)
    return Reference(at, numbers_of(found[1]), number_of(found[2]), numbers_of(found[3]))


@fits
def read_expression(lines):
    at, found = lines.due(EXPRESSION)
    return Expression(at, [read_line_of_expression(lines) for _ in range(number_of(found[1]))])


@fits
def read_line_of_expression(lines):
    at, found = lines.due(UNDER_EXPRESSION)
    return ExpressionLine(at, stack_of(found[1]), instruction_of(found[2]))


@fits
def read_routine(lines):
    at, found = lines.due(ROUTINE)
    name, counts = name_of(found[2]), [number_of(it) for it in found.groups()[2:11]]
    kind = type_of(found[12]) if found[12] else None
    readers = (read_parameter, read_slot, read_query, read_cursor, read_plan, read_condition, read_context, read_handler, read_line)
    parts = [[reader(lines) for _ in range(count)] for reader, count in zip(readers, counts)]
    return Routine(at, found[1] == "F", name, kind, *parts)


@fits
def read_parameter(lines):
    at, found = lines.due(PARAMETER)
    return Parameter(at, found[1], name_of(found[2]), type_of(found[3]))


@fits
def read_slot(lines):
    at, found = lines.due(SLOT)
    return Slot(at, type_of(found[1]))


@fits
def read_query(lines):
    at, found = lines.due(QUERY)
    table, items = number_of(found[1]), number_of(found[2])
    listed = [read_item(lines) for _ in range(items)]
    return Query(at, table, listed, read_expression(lines) if found[3] == "1" else None)


@fits
def read_item(lines):
    at, found = lines.due(ITEM)
    return Item(at, found[1], None if found[1] == "COUNT*" else read_expression(lines))


@fits
def read_cursor(lines):
    at, found = lines.due(CURSOR)
    name_of(found[1])
    return Cursor(at, number_of(found[2]), found[3] == "S", found[4] == "U")


@fits
def read_plan(lines):
    at, found = lines.due(*PLANS.values())
    kind, words = found.string.split(" ")[1], found.groups()
    if kind in ("INSERT", "INSERTQ"):
        return Plan(at, kind, [number_of(it) for it in words[:2]], numbers_of(words[2]), [], None)
    numbers = [number_of(it) for it in words]
    sets = [read_set(lines) for _ in range(numbers[1] if kind in ("UPDATE", "UPDATEAT") else 0)]
    has_test = kind in ("UPDATE", "DELETE") and words[-1] == "1"
    return Plan(at, kind, numbers, [], sets, read_expression(lines) if has_test else None)


@fits
def read_set(lines):
    at, found = lines.due(SET)
    return Set(at, number_of(found[1]), read_expression(lines))


@fits
def read_condition(lines):
    at, found = lines.due(CONDITION)
    return Condition(at, found[1], name_of(found[2]) if found[2] else None)


@fits
def read_context(lines):
    at, found = lines.due(BLOCK, ACTION)
    parent = number_of(found[1])
    if found.re is ACTION:
        return Context(at, parent, False, False, None, [], number_of(found[2]))
    return Context(at, parent, True, found[2] == "1", number_of(found[3]), [number_of(it) for it in found[4].split()], None)


@fits
def read_handler(lines):
    at, found = lines.due(HANDLER)
    return Handler(at, number_of(found[1]), found[2], number_of(found[3]), [value_of(it) for it in found[4].split(" ")])


@fits
def read_line(lines):
    at, found = lines.due(LINE)
    resume = number_of(found[2]) if found[2] else None
    return Line(at, number_of(found[1]), resume, stack_of(found[3]), instruction_of(found[4]))


# ---- Rules. The lines are asked in their order, so of what a line names only what stands after it may be at fault itself.


def refuse(at, *broken):
    """Refuses the line by the lowest rule that it breaks, of pairs of a rule and whether it is broken."""
    for rule, is_broken in sorted(broken):
        if is_broken:
            raise Refused(at, RULES[rule])


def check_code(code):
    for number, table in enumerate(code.tables):
        check_table(table, code.tables[:number])
    for number, routine in enumerate(code.routines):
        check_routine(code, number, routine)


def letter_of(kind):
    return "T" if kind.kind in ("CHAR", "VARCHAR") else "N"


def is_within(kind):
    """Returns whether a type is within its bounds."""
    if kind.kind == "NUMERIC":
        digits, decimals = kind.numbers
        return 1 <= digits <= 18 and decimals <= digits
    return not kind.numbers or 1 <= kind.numbers[0] <= 4000


def is_as_stored(kind, datum):
    """Returns whether a datum is as a type within its bounds stores it."""
    if datum is None:
        return True
    if isinstance(datum, list) != (letter_of(kind) == "T"):
        return False
    if kind.kind == "CHAR":
        return len(datum) == kind.numbers[0]
    if kind.kind == "VARCHAR":
        return len(datum) <= kind.numbers[0]
    if kind.kind == "NUMERIC":
        return datum.scale == kind.numbers[1] and abs(datum.digits) < 10 ** kind.numbers[0]
    half = 2**15 if kind.kind == "SMALLINT" else 2**31
    return datum.scale == 0 and -half <= datum.digits < half


def has_twice(numbers):
    return len(set(numbers)) < len(numbers)


def check_table(table, before):
    refuse(table.at, (8, table.name in {it.name for it in before}))
    names = set()
    for column in table.columns:
        is_good = is_within(column.type)
        refuse(column.at, (1, not is_good), (8, column.name in names), (8, is_good and not is_as_stored(column.type, column.default)))
        names.add(column.name)
    for columns in (table.key, *table.uniques):
        is_there = all(it < len(table.columns) for it in columns.numbers)
        refuse(columns.at, (1, not is_there), (8, has_twice(columns.numbers)))
        if columns is table.key:
            refuse(columns.at, (8, any(not table.columns[it].is_not_null for it in columns.numbers)))
    for reference in table.references:
        check_reference(reference, table, [*before, table])
    for check in table.checks:
        check_expression(check, letters_of_columns(table), "", "B")


def check_reference(reference, table, tables):
    refuse(reference.at, (1, reference.table >= len(tables)))
    other = tables[reference.table]
    sides = (table, reference.columns), (other, reference.target)
    refuse(reference.at, (1, any(it >= len(side.columns) for side, numbers in sides for it in numbers)))
    letters = [[letters_of_columns(side)[it] for it in numbers] for side, numbers in sides]
    refuse(reference.at, (8, any(has_twice(numbers) for _, numbers in sides)), (8, letters[0] != letters[1]))
    refuse(reference.at, (8, all(it.numbers != reference.target for it in (other.key, *other.uniques))))


def letters_of_columns(table):
    return "".join(letter_of(it.type) for it in table.columns)


# Expressions.


def check_expression(expression, columns, variables, due):
    """Refuses a line of an expression over columns and variables of these letters, which is to leave one of the letters that are due."""
    lines = expression.lines
    afters = [after_operation(it, columns, variables) for it in lines]
    faults = [fault_under_expression(lines, number, columns, variables, after) for number, after in enumerate(afters)]
    ends = []
    for number, line in enumerate(lines):
        # What is no operation counts as going on at the next line.
        goes = successors(line, number, afters[number]) if line.instruction.mnemonic in IS_OPERATION else [(number + 1, "")]
        ends += [(number, stack) for to, stack in goes if to == len(lines)]
    if not any(faults[number] for number, _ in ends):
        left = {stack for _, stack in ends}
        refuse(expression.at, (3, not any(left == {letter} for letter in due)))
    for line, rule in zip(lines, faults):
        refuse(line.at, (rule, rule > 0))


def fault_under_expression(lines, number, columns, variables, after):
    """Returns the lowest rule that a line of an expression breaks, or 0. `after` is the stack that it leaves, if it follows."""
    line = lines[number]
    mnemonic, operands = line.instruction
    targets = operands[-1:] if mnemonic in JUMPS else []
    if mnemonic not in IS_OPERATION:
        return 7
    if not names_what_is(line.instruction, len(columns), len(variables)):
        return 1
    if any(it > len(lines) for it in targets):
        return 2
    if after is None or (number == 0 and line.stack) or states_another(lines, successors(line, number, after)):
        return 3
    return 6 if any(it <= number for it in targets) else 0


def states_another(lines, goes):
    """Returns whether one of the lines, of those that are there, states another stack than the one that is left there."""
    return any(to < len(lines) and lines[to].stack != stack for to, stack in goes)


def names_what_is(instruction, columns, variables):
    """Returns whether what an operation names is there: a column, a variable, a number of decimals, a type."""
    mnemonic, operands = instruction
    if mnemonic in ("COL", "VAR"):
        return operands[0] < (columns if mnemonic == "COL" else variables)
    if mnemonic == "SCALE":
        return operands[0] <= 18
    return mnemonic != "CAST" or is_within(operands[0])


def after_operation(line, columns, variables):
    """Returns the stack that an operation leaves at the next line, or None where the stack before it does not follow."""
    mnemonic, operands = line.instruction
    if mnemonic in ("COL", "VAR"):
        letters = columns if mnemonic == "COL" else variables
        return line.stack + letters[operands[0]] if operands[0] < len(letters) else None
    if mnemonic == "CONST":
        letter, datum = operands
        return line.stack + letter if datum is None or isinstance(datum, list) == (letter == "T") else None
    if mnemonic == "JMP":
        return line.stack
    if mnemonic == "NIP":
        return line.stack[:-2] + line.stack[-1] if line.stack[-2:-1] in ("N", "T") else None
    if mnemonic in OPERATIONS:
        return exchanged(line.stack, *OPERATIONS[mnemonic])
    return after_one_family(mnemonic, operands, line.stack)


def exchanged(stack, taken, left):
    """Returns the stack with these letters in place of those that it ends with, or None where it does not end with them."""
    return stack[: len(stack) - len(taken)] + left if stack.endswith(taken) else None


def after_one_family(mnemonic, operands, stack):
    """Returns what an operation leaves whose operands are all numbers or all texts."""
    top = stack[-1:]
    taken = operands[0] + 1 if mnemonic == "IN" else TAKEN.get(mnemonic, 2)
    if top not in ("N", "T") or len(stack) < taken:
        return None
    left = {"DUP": top * 2, "DROP": "", "JSET": "", "NULLIF": top}.get(mnemonic, "B")
    return exchanged(stack, top * taken, letter_of(operands[0]) if mnemonic == "CAST" else left)


def successors(line, number, after):
    """Returns the lines to which an instruction goes on, each with the stack that it leaves there; `after` at the next one."""
    mnemonic, operands = line.instruction
    found = [] if mnemonic in STOPS else [(number + 1, after)]
    if mnemonic in JUMPS:
        # JSET keeps its operand there, and NEXT has no row.
        found.append((operands[-1], after if mnemonic == "JNOT" else line.stack))
    return found


# Routines.


def kinds_of(routine):
    return [it.type.kind for it in routine.parameters]


def is_like(routine, other):
    """Returns whether two routines cannot stand beside each other."""
    if routine.name != other.name or routine.is_function != other.is_function:
        return False
    if routine.is_function:
        return kinds_of(routine) == kinds_of(other)
    return len(routine.parameters) == len(other.parameters)


def check_routine(code, number, routine):
    is_bounded = routine.type is None or is_within(routine.type)
    is_doubled = any(is_like(routine, it) for it in code.routines[:number])
    is_of_its_kind = routine.is_function == (routine.type is not None)
    refuse(routine.at, (1, not is_bounded), (2, not routine.lines), (8, is_doubled or not is_of_its_kind))
    names = set()
    for it in routine.parameters:
        gives_back = routine.is_function and it.mode != "IN"
        refuse(it.at, (1, not is_within(it.type)), (8, it.name in names or gives_back))
        names.add(it.name)
    for it in routine.slots:
        refuse(it.at, (1, not is_within(it.type)))
    for query in routine.queries:
        check_query(code, routine, query)
    for it in routine.cursors:
        has_query = it.query < len(routine.queries)
        refuse(it.at, (1, not has_query), (8, has_query and is_of_set_functions(routine.queries[it.query])))
    for plan in routine.plans:
        check_plan(code, routine, plan)
    for it in routine.conditions:
        refuse(it.at, (8, not is_state(it.state) or (it.name is not None and it.state != "45000")))
    for at, context in enumerate(routine.contexts, 1):
        check_context(routine, at, context)
    for at, handler in enumerate(routine.handlers):
        check_handler(routine, at, handler)
    for at in range(len(routine.lines)):
        check_line(code, routine, at)


def variables_of(routine):
    return "".join(letter_of(it.type) for it in (*routine.parameters, *routine.slots))


def is_state(word):
    """Returns whether a state is an SQLSTATE, and not of class 00."""
    return re.fullmatch("[0-9A-Z]{5}", word) is not None and not word.startswith("00")


def is_of_set_functions(query):
    return any(it.function for it in query.items)


def check_query(code, routine, query):
    has_table = query.table < len(code.tables)
    refuse(query.at, (1, not has_table), (8, not query.items))
    columns, variables = letters_of_columns(code.tables[query.table]), variables_of(routine)
    for item in query.items:
        refuse(item.at, (8, (item.function is None) != (query.items[0].function is None)))
        if item.expression:
            check_expression(item.expression, columns, variables, "N" if item.function in ("SUM", "AVG") else "NT")
    if query.test:
        check_expression(query.test, columns, variables, "B")


def letters_of_items(code, routine, query):
    """Returns the letters of the items of a query that breaks no rule."""
    columns, variables = letters_of_columns(code.tables[query.table]), variables_of(routine)
    return [letter_of_item(it, columns, variables) for it in query.items]


def letter_of_item(item, columns, variables):
    if item.function in ("COUNT*", "COUNT", "SUM", "AVG"):
        return "N"
    lines = item.expression.lines
    goes = [it for at, line in enumerate(lines) for it in successors(line, at, after_operation(line, columns, variables))]
    return next(stack for to, stack in goes if to == len(lines))


def check_plan(code, routine, plan):
    if plan.kind in ("UPDATEAT", "DELETEAT"):
        has_cursor = plan.numbers[0] < len(routine.cursors)
        cursor = routine.cursors[plan.numbers[0]] if has_cursor else None
        is_open = has_cursor and cursor.is_plain and cursor.is_updatable
        refuse(plan.at, (1, not has_cursor), (8, not is_open or (plan.kind == "UPDATEAT" and not plan.sets)))
        table = code.tables[routine.queries[cursor.query].table]
    else:
        refuse(plan.at, (1, plan.numbers[0] >= len(code.tables)), (8, plan.kind == "UPDATE" and not plan.sets))
        table = code.tables[plan.numbers[0]]
    columns, variables, seen = letters_of_columns(table), variables_of(routine), set()
    is_there = all(it < len(columns) for it in plan.columns)
    if plan.kind == "INSERTQ":
        is_there = is_there and plan.numbers[1] < len(routine.queries)
    refuse(plan.at, (1, not is_there), (8, has_twice(plan.columns)))
    if plan.kind == "INSERTQ":
        items = letters_of_items(code, routine, routine.queries[plan.numbers[1]])
        refuse(plan.at, (8, items != [columns[it] for it in plan.columns]))
    for it in plan.sets:
        refuse(it.at, (1, it.column >= len(columns)), (8, it.column in seen))
        seen.add(it.column)
        check_expression(it.expression, columns, variables, columns[it.column])
    if plan.test:
        check_expression(plan.test, columns, variables, "B")


def context_of(routine, number):
    """Returns the context of that number, or None: 0 is the routine."""
    return routine.contexts[number - 1] if 0 < number <= len(routine.contexts) else None


def check_context(routine, number, context):
    lines, parent = routine.lines, context_of(routine, context.parent)
    is_smaller = context.parent < number
    if context.is_block:
        has_all = all(it < len(routine.cursors) for it in context.cursors)
        has_exit = context.exit < len(lines)
        is_left = has_exit and lines[context.exit].instruction == Instruction("EXIT", [number])
        refuse(context.at, (1, not (is_smaller and has_all)), (2, not has_exit), (4, not is_left))
    else:
        has_handler = context.handler < len(routine.handlers)
        is_in_block = parent is not None and parent.is_block
        is_declared = has_handler and routine.handlers[context.handler].context == context.parent
        refuse(context.at, (1, not (is_smaller and has_handler)), (4, not (is_in_block and is_declared)))


def is_action_of(routine, number, handler):
    """Returns whether the context of that number is an action of the handler."""
    context = context_of(routine, number)
    return context is not None and not context.is_block and context.handler == handler


def check_handler(routine, number, handler):
    lines, context = routine.lines, context_of(routine, handler.context)
    conditions = [at for letter, at in handler.values if letter == "N"]
    has_all = handler.context <= len(routine.contexts) and all(it < len(routine.conditions) for it in conditions)
    has_line = handler.line < len(lines)
    begins = has_line and is_action_of(routine, lines[handler.line].context, number) and not lines[handler.line].stack
    refuse(handler.at, (1, not has_all), (2, not has_line), (4, not begins))
    is_undo = handler.kind == "UNDO" and context is not None and context.is_block and not context.is_atomic
    earlier = [it for other in routine.handlers[:number] if other.context == handler.context for it in other.values]
    is_doubled = has_twice(handler.values) or any(it in earlier for it in handler.values)
    has_no_name = any(routine.conditions[it].name is None for it in conditions)
    has_no_state = any(letter == "S" and not is_state(word) for letter, word in handler.values)
    refuse(handler.at, (8, is_undo or is_doubled or has_no_name or has_no_state))


# Lines of code.

# Where the letter of a result is not known, no stack is asked of the next line.
ANY = "any"


def check_line(code, routine, number):
    lines, line = routine.lines, routine.lines[number]
    mnemonic, operands = line.instruction
    is_there = line.context <= len(routine.contexts) and is_known(code, routine, line.instruction)
    refuse(line.at, (1, not is_there))
    targets = operands[-1:] if mnemonic in JUMPS else []
    named = targets if line.resume is None else [*targets, line.resume]
    ends = mnemonic not in STOPS and number + 1 == len(lines)
    refuse(line.at, (2, ends or any(it >= len(lines) for it in named)))
    afters = after_line(code, routine, line)
    goes = [successors(line, number, it) for it in afters]
    refuse(line.at, (3, ANY not in afters and all(states_another(lines, it) for it in goes)))
    goes = [to for to, _ in successors(line, number, "")]
    refuse(line.at, (4, not is_in_context(routine, number, line, goes)), (5, not is_resumed(lines, number, line)))
    is_back = any(it <= number and lines[it].instruction.mnemonic != "TURN" for it in targets)
    refuse(line.at, (6, is_back), (7, not is_allowed(code, routine, line.instruction)))


def is_known(code, routine, instruction):
    """Returns whether what an instruction names is there."""
    mnemonic, operands = instruction
    counts = {
        **{it: len(routine.parameters) + len(routine.slots) for it in ("STORE", "FSTORE")},
        **{it: len(code.routines) for it in ("CALL", "FCALL")},
        **{it: len(routine.queries) for it in ("EXISTS", "SCALAR", "ROW")},
        **{it: len(routine.cursors) for it in ("OPEN", "CLOSE", "FETCH", "NEXT")},
        **{it: len(routine.conditions) for it in ("SIG", "SIGM", "RESIGC", "RESIGM")},
        "ENDACT": len(routine.handlers),
        "DATA": len(routine.plans),
    }
    if mnemonic in ("ENTER", "EXIT"):
        return context_of(routine, operands[0]) is not None
    if mnemonic in counts:
        return operands[0] < counts[mnemonic]
    return mnemonic == "COL" or names_what_is(instruction, 0, len(routine.parameters) + len(routine.slots))


def after_line(code, routine, line):
    """Returns the stacks that an instruction may leave at the next line: mostly one, and none where the stack before it does not follow."""
    mnemonic, _ = line.instruction
    if mnemonic == "COL":
        # There is no column, so its letter is not known.
        return [line.stack + "N", line.stack + "T"]
    if mnemonic == "RETV" and not routine.type:
        return [ANY]
    after = known_after(code, routine, line)
    return [] if after is None else [after]


def known_after(code, routine, line):
    """Returns the stack that an instruction leaves at the next line, None where the stack before it does not follow, or ANY."""
    mnemonic, operands = line.instruction
    variables = variables_of(routine)
    if mnemonic in IS_OPERATION:
        return after_operation(line, "", variables)
    if mnemonic in NO_OPERANDS:
        return None if line.stack else ""
    if mnemonic in ("STORE", "FSTORE"):
        return exchanged(line.stack, variables[operands[0]], "")
    if mnemonic == "RETV":
        return exchanged(line.stack, letter_of(routine.type), "")
    if mnemonic in ("SIGM", "RESIGM"):
        return exchanged(line.stack, "T", "")
    if mnemonic in ("GETS", "GETC", "SGETS", "SGETC"):
        return exchanged(line.stack, "N" if mnemonic.endswith("C") else "", ITEMS.get(operands[0], "T"))
    if mnemonic in ("CALL", "FCALL"):
        return after_call(code.routines[operands[0]], mnemonic, line.stack)
    if mnemonic == "DATA":
        return after_data(code, routine.plans[operands[0]], line.stack)
    return after_query(code, routine, mnemonic, operands[0], line.stack)


def after_call(called, mnemonic, stack):
    if mnemonic == "FCALL":
        taken = "".join(letter_of(it.type) for it in called.parameters)
        left = letter_of(called.type) if called.type else ""
        return ANY if not called.type and stack.endswith(taken) else exchanged(stack, taken, left)
    taken = "".join(letter_of(it.type) for it in called.parameters if it.mode != "OUT")
    left = "".join(letter_of(it.type) for it in called.parameters if it.mode != "IN")
    return exchanged(stack, taken, left[::-1])


def after_data(code, plan, stack):
    if plan.kind != "INSERT":
        return stack
    table, rows = plan.numbers
    letters = letters_of_columns(code.tables[table])
    if rows * len(plan.columns) > len(stack):
        return None
    return exchanged(stack, "".join(letters[it] for it in plan.columns) * rows, "")


def after_query(code, routine, mnemonic, number, stack):
    if mnemonic == "EXISTS":
        return stack + "B"
    query = routine.cursors[number].query if mnemonic in ("FETCH", "NEXT") else number
    items = letters_of_items(code, routine, routine.queries[query])
    if mnemonic == "SCALAR" and len(items) != 1:
        return None
    return stack + "".join(items)[::-1]


def is_in_context(routine, number, line, goes):
    """Returns whether the context of a line is one from which the run goes to these lines."""
    mnemonic, operands = line.instruction
    contexts = [routine.lines[it].context for it in goes]
    if number == 0 and (line.context or line.stack):
        return False
    if mnemonic in ("ENTER", "EXIT"):
        block = context_of(routine, operands[0])
        outside, inside = (line.context, contexts[0]) if mnemonic == "ENTER" else (contexts[0], line.context)
        return block.is_block and block.parent == outside and inside == operands[0]
    if mnemonic == "ENDACT" and not is_action_of(routine, line.context, operands[0]):
        return False
    if mnemonic in ("END", "NORET") and line.context:
        return False
    return all(it == line.context for it in contexts)


def is_resumed(lines, number, line):
    mnemonic = line.instruction.mnemonic
    if line.resume is None:
        return mnemonic not in MAY_RAISE or mnemonic == "NORET"
    to = lines[line.resume]
    return line.resume > number and to.context == line.context and not to.stack


def is_allowed(code, routine, instruction):
    mnemonic, operands = instruction
    if mnemonic in ("CALL", "FCALL") and code.routines[operands[0]].is_function != (mnemonic == "FCALL"):
        return False
    return mnemonic not in ("COL", *(("END", "DATA", "CALL") if routine.is_function else ("RETV", "NORET")))


def main(files):
    for file in files:
        with open(file, "rb") as it:
            print(answer(it.read()))


if __name__ == "__main__":
    main(sys.argv[1:])
