"""What a syntax fault most likely comes from, by the tokens before the one that was found."""
import re

from cause_rows import FOREIGN, NAME_PLACES, RESERVED, ROWS, TYPES
from tokens import tokens, word_lists


def written(token):
    """Returns a token as the patterns have it."""
    shown = {"name": "N", "number": "0", "text": "'x'", "end": "$end"}
    return shown.get(token.kind, token.text)


def as_pattern(token, reserved):
    is_name = token.kind == "word" and token.text not in reserved and token.text not in FOREIGN
    return "N" if is_name else written(token)


def open_statement(before):
    """Returns the word of the innermost statement that these words have opened and not closed; NONE in a module, START outside."""
    opened = []
    for at, word in enumerate(before):
        last = before[at - 1] if at else ""
        is_for = word == "FOR" and before[at + 2 : at + 3] == ["AS"]
        if word == "END" and opened:
            opened.pop()
        elif last != "END" and (is_for or word in ("BEGIN", "IF", "CASE", "LOOP", "WHILE", "REPEAT")):
            opened.append(word)
    if opened:
        return opened[-1]
    return "NONE" if "MODULE" in before else "START"


def hint(found_tokens, at):
    """Returns the help of the first row that fits the token at this index, or an empty text."""
    reserved = set(word_lists()[0])
    before = [as_pattern(it, reserved) for it in found_tokens[:at]]
    found = as_pattern(found_tokens[at], reserved)
    word = found_tokens[at].text
    # An END that was read already has closed the statement that is asked for.
    opened = open_statement(before[:-1] if before and before[-1] == "END" else before)
    text = " ".join(before[-40:])
    last = found_tokens[at - 1].text if at else ""
    is_named_here = found in reserved and last in NAME_PLACES
    if is_named_here and found_tokens[at + 1].text in TYPES:
        return RESERVED.format(found=word)
    for wanted, pattern, token, reported in ROWS:
        is_open = not wanted or re.fullmatch(wanted, opened)
        is_token = re.fullmatch(token, found) or re.fullmatch(token, word)
        if is_open and is_token and re.search(rf"(?:^| )(?:{pattern})$" if pattern else "", text):
            return reported.format(open=opened, found=word, last=last)
    if found_tokens[at].kind == "name":
        return "texts stand between apostrophes, names between quotation marks"
    if is_named_here:
        return RESERVED.format(found=word)
    return ""


def reported(text, line, column):
    """Returns one line about the syntax fault at this place: the token that was found, and the help for it."""
    found_tokens = tokens(text)
    for at, token in enumerate(found_tokens):
        if (token.line, token.column) == (line, column):
            found = "the end of the file" if token.kind == "end" else f"`{token.text}`"
            last = f" after `{found_tokens[at - 1].text}`" if at else ""
            help_of_it = hint(found_tokens, at)
            return f"found {found}{last}" + (f": {help_of_it}" if help_of_it else ", where no file goes on so")
    return "no file goes on so here"
