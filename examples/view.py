#!/usr/bin/env python3
"""Shows examples with the answers beside the commands.

usage: examples/view.py NAME..           prints these examples, as in `examples/view.py failover power-cut`
       examples/view.py write            writes the table of README.md
       examples/view.py check [PROGRAM]  compares the table; with a program, also each example's trace

An answer is shown at the line that stepped its actor. Long lines are cut, with `..` at their end. An
example that is a folder has the scripts of several runs over one directory, and they are shown in turn.
"""
import glob
import os
import re
import subprocess
import sys
import tempfile

HERE = os.path.dirname(os.path.abspath(__file__))
LEFT, RIGHT = 40, 58  # columns of commands and of answers
MARK = "<!-- made by examples/view.py -->\n"


def read(name):
    with open(os.path.join(HERE, name), encoding="utf-8") as f:
        return f.read()


def taken(line, lists, left):
    """Takes the trace lines that a script's line causes off the partition's rest."""
    words = line.split()
    if words[0] == "later":
        actor, partition = words[1:3]
        lists.setdefault((actor, partition), 0)
        lists[actor, partition] += 1
        return []
    found = []
    if words[0] == "turn":
        partition = next((p for a, p in lists if int(a) == int(words[1])), "0")
        rest = left.get(int(partition), [])
        while rest and len(found) < int(words[2]) and rest[0].split()[1] == words[1]:
            found.append(rest.pop(0))
    elif words[0].isdigit():
        actor, partition = words[:2]
        number = lists.get((actor, partition), 0)
        lists[actor, partition] = number + 1
        rest = left.get(int(partition), [])
        last = f"{int(partition)} {int(actor)} {number} ="
        while rest and not (found and found[-1].startswith(last)):
            found.append(rest.pop(0))
    return found


def beside(script, trace):
    """Each line of a script with the lines of the trace that it causes; the last one has the rest."""
    lists, left, rows = {}, {}, []
    for line in trace.splitlines():
        left.setdefault(int(line.split()[0]), []).append(line)
    for line in script.splitlines():
        asks = line.split() and not line.lstrip().startswith("#")
        rows.append((line, taken(line, lists, left) if asks else []))
    rest = [line for part in sorted(left) for line in left[part]]
    if rest:
        rows[-1] = (rows[-1][0], rows[-1][1] + rest)
    return rows


def cut(text, width):
    return text if len(text) <= width else text[: width - 2] + ".."


def view(name):
    """An example's script, with the answers in a second column."""
    if os.path.isdir(os.path.join(HERE, name)):
        return "\n\n".join(view(run) for run in runs(name))
    rows = []
    for line, answers in beside(read(name + ".script"), read(name + ".trace")):
        for at, answer in enumerate(answers or [""]):
            text = line if line.startswith("#") else cut(line, LEFT)
            rows.append(f"{text if at == 0 else '':<{LEFT}}  {cut(answer, RIGHT)}".rstrip())
    return "\n".join(rows)


def names():
    return sorted(os.path.basename(f)[: -len(".script")] for f in glob.glob(HERE + "/*.script"))


def chains():
    """The examples of several runs."""
    return sorted(os.path.basename(os.path.dirname(f)) for f in glob.glob(HERE + "/*/1.script"))


def runs(chain):
    """The runs of such an example, in their order."""
    return [f"{chain}/{n + 1}" for n in range(len(glob.glob(f"{HERE}/{chain}/*.script")))]


def first_sentence(name):
    text = " ".join(re.match(r"(# .*\n)+", read(name + ".script"))[0].replace("# ", "").split("\n"))
    return re.split(r"(?<=\.)\s", text)[0]


def made():
    """The table behind the mark."""
    rows = ["| example | what it shows |", "|---|---|"]
    rows += [f"| [{name}]({name}.script) | {first_sentence(name)} |" for name in names()]
    rows += [f"| [{name}]({name}/1.script) | {first_sentence(name + '/1')} |" for name in chains()]
    return "\n".join(rows) + "\n"


def is_as_told(words, name):
    """Whether the program writes an example's trace."""
    run = subprocess.run(words, input=read(name + ".script").encode(), capture_output=True)
    return run.returncode == 0 and run.stdout.decode() == read(name + ".trace")


def differing(program):
    """The examples of which the program writes another trace."""
    for name in names():
        if not is_as_told([program, "sim"], name):
            yield f"{name}: the program gives another trace"
    for chain in chains():
        with tempfile.TemporaryDirectory() as folder:
            for name in runs(chain):
                if not is_as_told([program, "run", folder], name):
                    yield f"{name}: the program gives another trace"


def main(words):
    page = read("README.md")
    whole = page[: page.index(MARK) + len(MARK)] + made()
    if words[:1] == ["write"]:
        with open(os.path.join(HERE, "README.md"), "w", encoding="utf-8") as f:
            f.write(whole)
    elif words[:1] == ["check"]:
        wrong = [] if page == whole else ["examples/README.md: the table isn't that of the scripts"]
        wrong += differing(words[1]) if words[1:] else []
        print("\n".join(wrong), end="\n" if wrong else "")
        return 1 if wrong else 0
    else:
        print("\n\n".join(view(name) for name in words) if words else __doc__.strip())
    return 0


if __name__ == "__main__":
    sys.exit(main(sys.argv[1:]))
