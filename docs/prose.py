#!/usr/bin/env python3
"""Checks the prose of the documents.

usage: docs/prose.py check     prints what is wrong, a line each; exit status 1 where something is

- Every link leads to a file of the repository, and to a heading of it where the link names one.
- Every code span that looks like an identifier of the code, or like a path of the repository, exists.
- No line of prose is longer than 100 columns. Tables, headings and code blocks may be.

Links to other hosts aren't followed.
"""
import glob
import os
import re
import sys

TOP = os.path.join(os.path.dirname(os.path.abspath(__file__)), "..")
COLUMNS = 100
FENCE = re.compile(r"^(```|~~~).*?^\1[ \t]*$", re.S | re.M)
SPAN = re.compile(r"`([^`\n]+)`")
LINK = re.compile(r"\[[^\]\[]*\]\(([^()\s]+)\)")
# A word with an underscore inside, or with a capital behind a small letter; or several joined by `::` or a dot.
IDENTIFIER = re.compile(r"^\w+((::|\.)\w+)*(\(\))?$")
PATH = re.compile(r"^[\w.-]+(/[\w.-]+)+/?$")
# Words that look like identifiers and are Kafka's, the kit's or the system's.
FOREIGN = {"rt_seconds"}


def documents():
    names = ["README.md", "CONTRIBUTING.md", "CHANGELOG.md", "examples/README.md", "bench/README.md"]
    names += sorted(os.path.relpath(path, TOP) for path in glob.glob(os.path.join(TOP, "docs", "*.md")))
    return [name for name in names if os.path.isfile(os.path.join(TOP, name))]


def read(name):
    with open(os.path.join(TOP, name), encoding="utf-8", errors="replace") as f:
        return f.read()


def known():
    """The words of the sources, and the names of files and folders."""
    words, paths = set(), set()
    for at, folders, files in os.walk(TOP):
        folders[:] = [x for x in folders if x not in ("out", ".git", "__pycache__")]
        words.update(folders)
        inside = os.path.relpath(at, TOP)
        for file in files:
            words.add(file.split(".", 1)[0])
            paths.add(os.path.normpath(os.path.join(inside, file)))
            if file.endswith((".rt", ".antt", ".edit", ".txt", ".py", ".sh", ".script", ".cc")) or file in ("tiered", "HANDLES"):
                words.update(re.findall(r"\w+", read(os.path.join(inside, file))))
    return words, paths


def blank(match):
    """A block of code as empty lines, so that lines keep their numbers."""
    return "\n" * match[0].count("\n")


def anchors(page):
    """The anchors of a page's headings."""
    found = set()
    for title in re.findall(r"^#+ (.*)$", FENCE.sub(blank, page), re.M):
        text = re.sub(r"\[([^\]]*)\]\([^)]*\)", r"\1", title).strip()
        found.add(re.sub(r"[^\w\- ]", "", text.lower()).replace(" ", "-"))
    return found


def is_identifier(text):
    if not IDENTIFIER.match(text):
        return False
    return any("_" in part.strip("_") or re.search(r"[a-z][A-Z]", part) for part in re.findall(r"\w+", text))


def bad_spans(name, number, line, words, paths):
    for text in SPAN.findall(line):
        if is_identifier(text):
            parts = [part for part in re.findall(r"\w+", text) if not part.isdigit()]
            missing = [part for part in parts if part not in words and part.lower() not in FOREIGN]
            # A file's name, as `fault_tests.rt`, is one of its words.
            if missing and not any(path.endswith("/" + text) for path in paths):
                yield f"{name}:{number}: nothing in the code is called {', '.join(missing)}"
        elif PATH.match(text) and is_ours(text.split("/")[0]) and not exists(text, paths):
            yield f"{name}:{number}: there is no {text}"


def is_ours(first):
    return os.path.isdir(os.path.join(TOP, first)) or os.path.isdir(os.path.join(TOP, "crates", first))


def exists(text, paths):
    """Whether a path is one of the repository's, from its top or from `crates`; `.antt` may be left out, and `out` isn't kept."""
    text = os.path.normpath(text)
    if "out" in text.split("/"):
        return True
    for path in (text, os.path.join("crates", text)):
        if path in paths or path + ".antt" in paths or os.path.isdir(os.path.join(TOP, path)):
            return True
    return False


def bad_links(name, number, line, pages):
    for target in LINK.findall(SPAN.sub("", line)):
        if re.match(r"^[a-z]+:", target):
            continue
        path, _, anchor = target.partition("#")
        full = os.path.normpath(os.path.join(os.path.dirname(name), path)) if path else name
        if not os.path.exists(os.path.join(TOP, full)):
            yield f"{name}:{number}: the link {target} leads nowhere"
        elif anchor and full.endswith(".md"):
            if full not in pages:
                pages[full] = anchors(read(full))
            if anchor not in pages[full]:
                yield f"{name}:{number}: the link {target} names no heading"


def is_wide(line):
    """A line that is too long. A point of a list that is a link alone can't be broken."""
    if len(line) <= COLUMNS or line.lstrip().startswith(("|", "#", "<!--")):
        return False
    return " " in line.strip() and not re.match(r"^ *- \[[^\]]*\]\([^()\s]+\)$", line)


def joined(page):
    """The lines of a page; where a link's text is broken over two lines, both are looked at as one."""
    lines = FENCE.sub(blank, page).split("\n")
    for number, line in enumerate(lines, 1):
        open_link = line.rfind("[") > line.rfind("]") and number < len(lines)
        yield number, line, line[: line.rfind("[")] if open_link else line, line[line.rfind("[") :] + " " + lines[number] if open_link else ""


def wrong():
    words, paths = known()
    pages = {}
    for name in documents():
        for number, line, links, broken in joined(read(name)):
            if is_wide(line):
                yield f"{name}:{number}: {len(line)} columns"
            yield from bad_spans(name, number, line, words, paths)
            yield from bad_links(name, number, links, pages)
            yield from bad_links(name, number, broken, pages)


def main():
    if sys.argv[1:] != ["check"]:
        print(__doc__.strip())
        return 2
    found = list(dict.fromkeys(wrong()))
    for line in found:
        print(line)
    return 1 if found else 0


if __name__ == "__main__":
    sys.exit(main())
