#!/usr/bin/env python3
"""When a command is refused: crates/plain_log/specs/Refusals.antt beside docs/SCRIPT.md.

usage: docs/refusals.py            prints the table
       docs/refusals.py check      says where the document's table is another, or a command's section has its tests in another order
       docs/refusals.py write      puts the table into the document

In the document the table is between `<!-- refusals -->` and `<!-- end -->`.
"""
import os
import re
import sys

TOP = os.path.join(os.path.dirname(os.path.abspath(__file__)), "..")
PAGE = "crates/plain_log/specs/Refusals.antt"
SCRIPT = "docs/SCRIPT.md"
MADE = re.compile(r"(<!-- refusals -->\n)(.*?)(<!-- end -->)", re.S)


def read(path):
    with open(os.path.join(TOP, path), encoding="utf-8") as f:
        return f.read()


def definitions(page):
    """The clauses of each definition of the page, a clause a line."""
    found = {}
    for block in re.split(r"\n\n+", page):
        lines = [line for line in block.split("\n") if not line.startswith("--")]
        head = re.match(r"abbrev pub (\w+) :", lines[0]) if lines else None
        if head is None:
            continue
        clauses = []
        for line in lines[1:]:
            if line.startswith(" ") and clauses:
                clauses[-1] += " " + line.strip()
            elif line.startswith(head.group(1) + " "):
                clauses.append(line)
        found[head.group(1)] = clauses
    return found


def answers(page):
    """All names of answers that the page imports."""
    lines = re.findall(r"Answer\.TheVariants\.\{(.*?)\}", page, re.S)
    return re.findall(r"\w+", " ".join(lines))


def tests(page):
    """The answer of each test."""
    names = answers(page)
    found = {}
    for name, clauses in definitions(page).items():
        said = [word for clause in clauses for word in re.findall(r"\w+", clause.split("=", 1)[1]) if word in names]
        if name not in ("refusal", "same_refusal", "first_of", "unless") and said:
            found[name] = said[-1]
    return found


def commands(page):
    """For each command the answers of its tests, at the first turn and at a later one."""
    answer = tests(page)
    found = {}
    for clause in definitions(page)["refusal"]:
        head, body = clause.split(" = ", 1)
        turn, command = re.match(r"refusal r leader f (since|None|\(Some since\)) \(?(\w+)", head).groups()
        listed = re.findall(r"[a-z_]+", body.replace("first_of", ""))
        said = [answer[word] for word in listed if word in answer]
        first, later = found.get(command.lower(), ([], []))
        if turn == "(Some since)":
            later = said
        else:
            first = said
        found[command.lower()] = (first, later)
    return found


def spelled(said):
    return ", ".join(f"`{name}`" for name in said)


def table(found):
    lines = ["| command | first turn | later turns |", "|---|---|---|"]
    for command in sorted(found):
        first, later = found[command]
        if first:
            lines.append(f"| [{command}](#{command}) | {spelled(first)} | {spelled(later)} |".replace("|  |", "| |"))
    return "\n".join(lines) + "\n"


def section(text, command):
    """The answers in the first column of the tables of a command's section."""
    part = re.search(rf"\n## {command}\n(.*?)\n## ", text, re.S)
    if part is None:
        return []
    rows = re.findall(r"(?m)^\| ([^|]*`[^|]*) \|", part.group(1))
    listed = [name for row in rows for name in re.findall(r"`(\w+)", row)]
    # A section may give the answers of another command but for a few.
    other = re.search(r"answers are those of\s+`(\w+)`, with one more after `(\w+)`", part.group(1))
    if other is not None:
        first = section(text, other.group(1))
        at = first.index(other.group(2)) + 1
        listed = first[:at] + listed + first[at:]
    return listed


def in_order(said, listed):
    """Whether the answers come in this order among the listed ones."""
    rest = iter(listed)
    return all(name in rest for name in said)


def wrong(found, text):
    made = MADE.search(text)
    if made is None or made.group(2) != f"\n{table(found)}\n":
        yield f"{SCRIPT}: the table of refusals isn't that of {PAGE}: docs/refusals.py write"
    for command, turns in found.items():
        listed = section(text, command)
        for said in turns:
            if not in_order(said, listed):
                yield f"{SCRIPT}: {command} lists its tests otherwise than {PAGE}: {', '.join(said)}"


def main():
    found = commands(read(PAGE))
    text = read(SCRIPT)
    if sys.argv[1:] == ["check"]:
        said = list(wrong(found, text))
        print("\n".join(said), end="\n" if said else "")
        sys.exit(1 if said else 0)
    if sys.argv[1:] == ["write"]:
        with open(os.path.join(TOP, SCRIPT), "w", encoding="utf-8") as f:
            f.write(MADE.sub(lambda m: f"{m.group(1)}\n{table(found)}\n{m.group(3)}", text))
        return
    print(table(found), end="")


main()
