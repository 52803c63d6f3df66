"""What the checks of the documents share: the pages, their headings and their blocks of code."""
import collections
import os
import re
import subprocess

ROOT = os.path.dirname(os.path.dirname(os.path.abspath(__file__)))
# The words after the opening fence, the line of that, and the text.
Block = collections.namedtuple("Block", "info line text")


def read(page):
    with open(f"{ROOT}/{page}", encoding="utf-8") as it:
        return it.read()


def exists(page):
    return os.path.isfile(f"{ROOT}/{page}")


def is_due(page):
    """Returns whether the page is there or has to be: one that README.md names has to be."""
    return exists(page) or page in read("README.md")


def pages():
    """Returns the documents of the repository."""
    listed = subprocess.run(["git", "ls-files", "*.md"], cwd=ROOT, stdout=subprocess.PIPE, text=True, check=True)
    return listed.stdout.split()


def lines_outside(text):
    """Yields the number and the text of each line that stands in no block of code."""
    is_fenced = False
    for number, line in enumerate(text.split("\n"), 1):
        if re.match(r" {0,3}(```|~~~)", line):
            is_fenced = not is_fenced
        elif not is_fenced:
            yield number, line


def headings(text):
    """Returns the headings of a page in order, as they are written."""
    return [line.lstrip("#").strip() for _, line in lines_outside(text) if re.match(r"#{1,6} ", line)]


def blocks(text):
    """Returns the fenced blocks of a page."""
    found, info, start, lines = [], None, 0, []
    for number, line in enumerate(text.split("\n"), 1):
        fence = re.match(r"```(.*)$", line)
        if fence and info is None:
            info, start, lines = fence[1].strip(), number, []
        elif fence:
            found.append(Block(info, start, "".join(f"{it}\n" for it in lines)))
            info = None
        elif info is not None:
            lines.append(line)
    return found
