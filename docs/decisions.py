#!/usr/bin/env python3
"""Makes the index of docs/DECISIONS.md out of its headings.

usage: docs/decisions.py write     writes it between its marks
       docs/decisions.py check     exit status 1 where the document has another one
"""
import os
import re
import sys

PATH = os.path.join(os.path.dirname(os.path.abspath(__file__)), "DECISIONS.md")
INDEX = re.compile(r"(<!-- index -->\n).*?(<!-- end -->)", re.S)


def anchor(title):
    return re.sub(r"[^\w\- ]", "", title.lower()).replace(" ", "-")


def index(page):
    """A point for each section, with its entries."""
    points = []
    for part in re.split(r"^## ", page, flags=re.M)[1:]:
        name, *entries = re.split(r"^### ", part, flags=re.M)
        points.append(f"- {name.strip()}")
        points += [f"  - [{title}](#{anchor(title)})" for title in (x.split("\n", 1)[0] for x in entries)]
    return "\n".join(points)


def main():
    with open(PATH, encoding="utf-8") as f:
        page = f.read()
    made, found = INDEX.subn(lambda m: m[1] + index(page) + "\n" + m[2], page)
    if found != 1:
        print("docs/DECISIONS.md: there is no place for the index")
        return 1
    if sys.argv[1:] == ["write"]:
        with open(PATH, "w", encoding="utf-8") as f:
            f.write(made)
        return 0
    if sys.argv[1:] != ["check"]:
        print(__doc__.strip())
        return 2
    if made != page:
        print("docs/DECISIONS.md: the index doesn't list its entries: docs/decisions.py write")
    return 0 if made == page else 1


sys.exit(main())
