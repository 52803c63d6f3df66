"""The tokens of module files and scripts, as docs/formats.md has them, and its lists of words."""
import collections
import os
import re

FORMATS = os.path.join(os.path.dirname(os.path.dirname(os.path.abspath(__file__))), "docs", "formats.md")

# kind is word, name (between quotation marks), number, text, sign, bad or end; text is as written, words in capitals.
Token = collections.namedtuple("Token", "kind text line column")

FORMS = re.compile(
    r"""(?P<space>[ \t\n\r]+|--[^\n]*)
    |(?P<word>[A-Za-z][A-Za-z0-9_]*)
    |(?P<name>"(?:[^"]|"")*")
    |(?P<text>'(?:[^']|'')*')
    |(?P<number>[0-9]+(?:\.[0-9]*)?|\.[0-9]+)
    |(?P<sign><>|<=|>=|\|\||[(),;:.=<>+*/?-])
    |(?P<bad>.)""",
    re.VERBOSE | re.DOTALL,
)


def tokens(text):
    """Returns the tokens of a text, the last of which is its end."""
    found, line, start, at = [], 1, 0, 0
    for match in FORMS.finditer(text):
        kind, written = match.lastgroup, match[0]
        if kind != "space":
            shown = written.upper() if kind == "word" else written
            found.append(Token(kind, shown, line, match.start() - start + 1))
        breaks = written.count("\n")
        if breaks:
            line += breaks
            start = match.start() + written.rindex("\n") + 1
        at = match.end()
    return [*found, Token("end", "", line, at - start + 1)]


def word_lists():
    """Returns the reserved words and the other words of the grammar, from the page of formats."""
    with open(FORMATS, encoding="utf-8") as page:
        text = page.read()
    reserved = re.search(r"^\*\*Reserved words\*\*[^:]*:([^.]*)\.", text, re.M)[1].split()
    other = re.search(r"^\*\*Other words\*\*[^:]*:([^,.]*)", text, re.M)[1].split()
    items = re.findall(r"\b[A-Z_]{4,}\b", re.search(r"^Items without EXCEPTION.*$", text, re.M)[0])
    return reserved, sorted({*other, *items} - {"EXCEPTION", "GET"})
