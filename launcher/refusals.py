"""Explains a refusal: reads what the program printed, and prints the line with the place and how to mend it.

python3 refusals.py MODULE_FILE_OR_OBJECT [SCRIPT] <OUTPUT; all that is reported goes to standard error.
"""
import re
import sys

import causes
import mends

REFUSED = re.compile(r"^(module|script) ([0-9]+):([0-9]+) (.+)$", re.M)
NO_OBJECT = re.compile(r"^object ([0-9]+) (.+)$", re.M)
# So many characters of a long line are shown around the place.
WIDTH = 100


def marked(line, column):
    """Returns the line and below it a caret under the column; of a long line what stands around that."""
    start = max(0, column - 1 - WIDTH // 2) if len(line) > WIDTH else 0
    shown = line[start : start + WIDTH]
    under = re.sub(r"[^\t]", " ", line[start : column - 1])
    return shown.rstrip(), under + "^"


def help_for(fault, text, line, column):
    """Returns the word that `psm explain` takes, and one line of help."""
    code = fault.split()[0]
    written = text.split("\n")[line - 1][column - 1 :] if line <= text.count("\n") + 1 else ""
    if code == "K21" and written.startswith('"'):
        return code, "texts stand between apostrophes, and only names between quotation marks"
    if code in mends.RULES:
        return code, mends.RULES[code]
    if fault == "syntax fault":
        return "syntax", causes.reported(text, line, column)
    if fault == "bad character":
        return fault, mends.CHARACTERS.get(written[:1], mends.TOKENS[fault])
    return fault, mends.TOKENS.get(fault, "")


def read(file):
    with open(file, "rb") as it:
        return it.read().decode("utf-8", errors="replace")


def rows_of_refused(refused, module_file, script):
    """Returns what is reported of a module file or a script."""
    which, line, column, fault = refused[1], int(refused[2]), int(refused[3]), refused[4]
    file = module_file if which == "module" else script
    text = read(file)
    lines = text.split("\n")
    shown, under = marked(lines[line - 1].rstrip("\r") if line <= len(lines) else "", column)
    code, mend = help_for(fault, text, line, column)
    number = str(line)
    return [f"{file}:{line}:{column}", f"{number} | {shown}", f"{' ' * len(number)} | {under}", f"{mend} (psm explain {code})"]


def rows_of_object(refused, file):
    """Returns what is reported of an object. A line that is missing has the number after the last one."""
    line, fault = int(refused[1]), refused[2]
    lines = read(file).split("\n")
    is_end = lines[line - 1 :] in ([], [""])
    shown = "(the end of the file)" if is_end else lines[line - 1][:WIDTH]
    code = fault.split()[0] if fault.split()[0] in mends.OBJECTS else fault
    return [f"{file}:{line}", f"{line} | {shown}", f"{mends.OBJECTS[code]} (psm explain {code})"]


def explain(output, first_file, script=None):
    refused, no_object = REFUSED.search(output), NO_OBJECT.search(output)
    if refused:
        print("\n".join(rows_of_refused(refused, first_file, script)), file=sys.stderr)
    elif no_object:
        print("\n".join(rows_of_object(no_object, first_file)), file=sys.stderr)


if __name__ == "__main__":
    explain(sys.stdin.read(), *sys.argv[1:3])
