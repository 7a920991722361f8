#!/usr/bin/env python3
"""The layers of the repository: crates.txt beside docs/ARCHITECTURE.md.

usage: docs/layers.py            prints the picture, and crates that are listed below a crate that doesn't use them
       docs/layers.py check      says where crates.txt is out of order, or the document has other crates or layers
       docs/layers.py write      puts the picture and the table into the document

In crates.txt each crate comes after those that it uses. In the document a made part is between `<!-- layers: NAME -->` and
`<!-- end -->`. The table keeps what the document says of a crate; a new crate gets the first sentence of its head comment.
"""
import os
import re
import sys

TOP = os.path.join(os.path.dirname(os.path.abspath(__file__)), "..")


def read(path):
    with open(os.path.join(TOP, path), encoding="utf-8") as f:
        return f.read()


def crates():
    """The layers in their order, each a title and its crates; what each crate uses."""
    layers, on = [], {}
    for line in read("crates.txt").splitlines()[1:]:
        if line.startswith("# "):
            layers.append((line[2:], []))
        elif ":" in line:
            head, rest = line.split(":", 1)
            # After a name crates.txt may say how many of its functions may wait.
            name = head.split()[0]
            layers[-1][1].append(name)
            on[name] = rest.split()
    return layers, on


def disorder(on):
    """Crates that come before one that they use."""
    names = list(on)
    return [
        f"crates.txt: {name} uses {other}, which comes after it"
        for at, name in enumerate(names)
        for other in on[name]
        if other in on and names.index(other) >= at
    ]


def words(name):
    """The words of a crate's files."""
    found = set()
    for part in ("src", "specs", "proofs", "must-fail"):
        for at, _, files in os.walk(os.path.join(TOP, "crates", name, part)):
            for file in files:
                with open(os.path.join(at, file), encoding="utf-8") as f:
                    found |= set(re.findall(r"\w+", f.read()))
    return found


def unnamed(on):
    """Crates that are listed below one in which nothing names them."""
    return [
        f"nothing in {name} names {other}, which it lists"
        for name in on
        for other in sorted(set(on[name]) & set(on) - words(name))
    ]


def sentence(name):
    """The first sentence of the crate's head comment."""
    root = next(f for f in ("lib.rt", "main.rt") if os.path.isfile(os.path.join(TOP, "crates", name, "src", f)))
    lines = []
    for line in read(f"crates/{name}/src/{root}").splitlines():
        if line.rstrip() == "//!" or not line.startswith("//!"):
            break
        lines.append(line[4:])
    text = " ".join(lines)
    return re.split(r"(?<=\.)\s", text + " ")[0].rstrip(".")


def folded(words, width):
    rows = [""]
    for word in words:
        if rows[-1] and len(rows[-1]) + 2 + len(word) > width:
            rows.append("")
        rows[-1] += ("  " if rows[-1] else "") + word
    return rows


def picture(layers, old):
    """The layers, the lowest at the foot."""
    left = max(len(title) for title, _ in layers)
    rows = []
    for title, names in reversed(layers):
        for at, row in enumerate(folded(names, 96 - left)):
            rows.append(f"{title if at == 0 else '':<{left}}  {row}")
    return "\n".join(["```text"] + rows + ["```"])


def table(layers, old):
    """A row a crate, in the order of crates.txt, with what the old table says of it."""
    kept = dict(re.findall(r"^\| `(\w+)` \| (.*) \|$", old, re.M))
    rows = ["| crate | what it is |", "|---|---|"]
    for title, names in layers:
        rows.append(f"| **{title}** | |")
        rows += [f"| `{name}` | {kept[name] if name in kept else sentence(name)} |" for name in names]
    return "\n".join(rows)


PARTS = {"picture": picture, "table": table}
PATH = "docs/ARCHITECTURE.md"


def main():
    layers, on = crates()
    word = sys.argv[1] if len(sys.argv) > 1 else "print"
    if word not in ("print", "check", "write"):
        print(__doc__.strip())
        return 2
    wrong = disorder(on)
    if word == "print":
        print("\n".join([picture(layers, "")] + unnamed(on) + wrong))
        return 1 if wrong else 0
    page = text = read(PATH)
    for part, make in PARTS.items():
        marked = re.compile(rf"(<!-- layers: {part} -->\n)(.*?)(\n<!-- end -->)", re.S)
        if not marked.search(text):
            wrong.append(f"{PATH} has no marks for {part}")
            continue
        text = marked.sub(lambda m: m[1] + make(layers, m[2]) + m[3], text)
    if word == "write":
        with open(os.path.join(TOP, PATH), "w", encoding="utf-8") as f:
            f.write(text)
    elif text != page:
        wrong.append(f"{PATH}: the crates and layers aren't those of crates.txt: docs/layers.py write")
    for line in wrong:
        print(line)
    return 1 if wrong else 0


sys.exit(main())
