#!/usr/bin/env python3
"""Tells each link of the documents whose file or anchor is not there."""
import os
import re
import sys

from pages import ROOT, headings, lines_outside, pages, read

LINK = re.compile(r"\[[^\]\[]*(?:\[[^\]]*\][^\]\[]*)*\]\(([^()\s]+)\)")
ANCHOR = re.compile(r"<a (?:name|id)=\"([^\"]+)\"")


def slug(heading):
    """Returns the anchor that a heading gets, as GitHub makes it."""
    text = re.sub(r"\[([^\]]*)\]\([^)]*\)", r"\1", heading)
    text = re.sub(r"[^\w\- ]", "", text.strip().lower())
    return text.replace(" ", "-")


def anchors(page):
    text, found, counts = read(page), set(), {}
    for heading in headings(text):
        name = slug(heading)
        number = counts.get(name, 0)
        counts[name] = number + 1
        found.add(f"{name}-{number}" if number else name)
    return found | set(ANCHOR.findall(text))


def links(page):
    """Yields the line and the target of each link in a page's prose."""
    for number, line in lines_outside(read(page)):
        if not line.startswith("    "):
            for target in LINK.findall(re.sub(r"`[^`]*`", "``", line)):
                yield number, target


def broken(page, number, target):
    """Returns what is wrong with a link, if anything is."""
    if re.match(r"[a-z]+:", target):
        return None
    path, _, anchor = target.partition("#")
    to = os.path.normpath(os.path.join(os.path.dirname(page), path)) if path else page
    if not os.path.exists(f"{ROOT}/{to}"):
        return f"{page}:{number}: {target}: {to} is not there"
    if anchor and to.endswith(".md") and anchor not in anchors(to):
        return f"{page}:{number}: {target}: {to} has no such heading"
    return None


def main():
    reported = [broken(page, *link) for page in pages() for link in links(page)]
    reported = [it for it in reported if it]
    for it in reported:
        print(f"repository: {it}", file=sys.stderr)
    return 1 if reported else 0


if __name__ == "__main__":
    sys.exit(main())
