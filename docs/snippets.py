#!/usr/bin/env python3
"""Runs what the documents show, or compares it with what the gate runs.

usage: docs/snippets.py check            compares the documents with the tables that the gate's tests run
       docs/snippets.py check PROGRAM    runs every snippet too, and compares the answers
       docs/snippets.py write PROGRAM    writes the answers into the documents, and the tables of the gate
       docs/snippets.py write            the same where only comments or the order of scripts have changed

PROGRAM is the path of `tiered`. README.md, CONTRIBUTING.md, docs/ and examples/ may have five kinds of snippets:

- A block ```script is a valid script. Its lines `#> ..` are the trace, each below the line that stepped its actor. They are
  comments to the program. Long runs are cut. A block ```script PATH shows the file PATH without its comments.
- In a table whose last column is headed "refused", the code spans of that column are the lines of a script. The last one is
  refused for the row's first cause. A span `N x LINE` is N lines.
- A block ```console has shell commands after `$ `, and what they print below them.
- A block ```bytes has hexadecimal digits at the start of its lines: a batch that the script block before it fetched.
- A block ```text PATH shows the file PATH as it is. Other ```text blocks aren't looked at.

The gate runs no document. Its tests in the crate `run_tests` run copies instead: the refused lines, the scripts with their
whole traces, those of examples/ too, and those shell commands that need no file. This program makes the copies.
"""
import glob
import os
import re
import subprocess
import sys

sys.dont_write_bytecode = True
TOP = os.path.join(os.path.dirname(os.path.abspath(__file__)), "..")
sys.path.insert(0, os.path.join(TOP, "examples"))
from view import beside  # noqa: E402

TABLE = "crates/run_tests/src/shown.rt"
RUNS = "crates/run_tests/src/shown_runs"
# So many lines have the texts of scripts at most, but for the last script of each.
MOST = 600
BLOCK = re.compile(r"^```(script|console|bytes|text(?= \S))(?: (\S+))?\n(.*?)^```$", re.S | re.M)


def gate_cases():
    """The traces that the gate's tests compare, by their scripts."""
    found = {}
    for path in sorted(glob.glob(f"{TOP}/{RUNS}/part_*.rt")):
        with open(path, encoding="utf-8") as f:
            text = f.read()
        text = text[text.index('= "') + 3 : text.rindex('";')]
        text = text.replace("\\t", "\t").replace("\\n", "\n").replace('\\"', '"').replace("\\\\", "\\")
        parts = text.split("`")
        for script, trace in zip(parts[0::2], parts[1::2]):
            found[bare(script)] = trace
    return found


def bare(script):
    """A script without comments and blank lines, whose answers are those of the whole."""
    return "".join(line + "\n" for line in script.splitlines() if line.split() and not line.lstrip().startswith("#"))


def ran(program, script):
    """The status, the trace and the message of a run; without a program those that the gate's tests expect."""
    if isinstance(program, dict):
        trace = program.get(bare(script))
        return (0, trace, "") if trace is not None else (1, "", "the gate's tests don't have it: docs/snippets.py write")
    run = subprocess.run([program, "sim"], input=script.encode(), capture_output=True)
    return run.returncode, run.stdout.decode(), run.stderr.decode().strip()


def short(line):
    return re.sub(r"( Run \S+ \S+ \S+ \S+ [0-9a-f]{16})[0-9a-f]+$", r"\1..", line)


def literal(text):
    return '"' + text.replace("\\", "\\\\").replace('"', '\\"').replace("\t", "\\t").replace("\n", "\\n") + '"'


def over_lines(text):
    """The literal of a text. Three lines and more are as many lines of source."""
    lines = text.splitlines(True)
    if len(lines) < 3:
        return literal(text)
    return '"' + "".join("\\\n        " + literal(line)[1:-1] for line in lines) + '"'


def static(doc, name, kind, rows):
    return f"\n/// {doc}\npub(crate) static {name}: [{kind}; {len(rows)}] = [\n" + "".join(f"{row}\n" for row in rows) + "];\n"


def as_laid_out(text):
    """A text without what a layout adds: blanks, and a comma behind the last of a list."""
    return re.sub(r",([\])])", r"\1", re.sub(r"\s+", "", text))


def given(command):
    """What a shell's command gives the program: its words, its input as texts that are repeated, and how many of the last
    lines are shown, none for all. None where it asks for more than that."""
    found = re.match(r"\(echo (.*?); yes '(.*)' \| head -(\d+)(?:; echo (.*))?\) \| \./tiered sim \| tail -(\d+)$", command)
    if found:
        first, line, many, last, tail = found.groups()
        return ["sim"], [(1, first + "\n"), (int(many), line + "\n")] + [(1, f"{last}\n")] * (last is not None), int(tail)
    found = re.match(r"printf '(.*)%0(\d+)d\\n' 0 \| \./tiered sim$", command)
    if found:
        return ["sim"], [(1, found[1]), (int(found[2]), "0"), (1, "\n")], None
    found = re.match(r'echo ([\w ]+) \| \./tiered sim; echo "status \$\?"$', command)
    if found:
        return ["sim"], [(1, found[1] + "\n")], None
    found = re.match(r'\./tiered((?: \w+)*)(?: 2>&1 \| head -n 1|; echo "status \$\?")$', command)
    return (found[1].split(), [], None) if found else None


def shell_row(program, command):
    """The row of a shell's command, if the gate can run it."""
    case = given(command)
    if case is None:
        return []
    words, texts, tail = case
    if isinstance(program, dict):
        return [(words, texts, None, None, None)]
    run = subprocess.run([program, *words], input="".join(text * many for many, text in texts).encode(), capture_output=True)
    lines = run.stdout.decode().splitlines(True)
    return [(words, texts, run.returncode, run.stderr.decode(), "".join(lines[-tail:] if tail else lines))]


def shell_text(row):
    """A row as it stands in the table."""
    words, texts, status, told, end = row
    texts = ", ".join(f"({many}, {literal(text)})" for many, text in texts)
    return f"    (\n        &[{', '.join(map(literal, words))}],\n        &[{texts}],\n        {status},\n        {over_lines(told)},\n        {over_lines(end)},\n    ),"


def table(refused, shell):
    """The tables of the gate."""
    text = "//! What the documents show as refused, and of a shell. Made by docs/snippets.py, which also reports a difference.\n"
    text += static("Words, texts of the input, each with how often it comes, the status, what standard error has, and the end of what\n"
                   "/// is written.",
                   "SHELL", "(&[&str], &[(u32, &str)], u8, &str, &str)", [shell_text(row) for row in shell])
    text += static("The lines of a script, each with how often it stands there, and what is told of it.", "REFUSED",
                   "(&[(u32, &str)], &str)",
                   ["    (\n        &[" + ", ".join(f"({n}, {literal(line)})" for n, line in lines) + f"],\n        {literal(told)},\n    ),"
                    for lines, told in refused])
    return text


def parted(cases):
    """The scripts in parts, each of some hundred lines."""
    parts, lines = [[]], 0
    for case in cases:
        if lines > MOST:
            parts, lines = parts + [[]], 0
        parts[-1].append(case)
        lines += case[1].count("\n") + case[2].count("\n") + 1
    return parts


def runs(cases):
    """The scripts of the gate, with their traces: the name of each file, and its text."""
    parts = parted(cases)
    names = [f"part_{number}" for number in range(1, len(parts) + 1)]
    head = "//! What the documents and the examples show as run{}. Made by docs/snippets.py, which also reports a difference.\n"
    top = head.format("") + "\n" + "".join(f"mod {name};\n" for name in names)
    top += f"\n/// How many scripts there are.\npub(crate) static COUNT: u32 = {len(cases)};\n"
    top += f"\n/// How many parts they stand in.\npub(crate) static PARTS: usize = {len(parts)};\n"
    top += "\n/// A part's text: a script, a grave accent, its trace, a grave accent, and so on. A script's first line says where it\n/// is shown.\n"
    top += "pub(crate) fn text(part: usize) -> &'static str {\n    match part {\n"
    top += "".join(f"        {at} => {name}::RUNS,\n" for at, name in enumerate(names)) + "        _ => \"\",\n    }\n}\n"
    made = {RUNS + ".rt": top}
    for number, (name, part) in enumerate(zip(names, parts), 1):
        shown = "".join(f"# {place}\n{script}`{trace}`" for place, script, trace in part)
        text = head.format(f", part {number}") + "\n/// Scripts and their traces.\n"
        made[f"{RUNS}/{name}.rt"] = text + f"pub(crate) static RUNS: &str = {literal(shown)};\n".replace("\\n", "\n")
    return made


def examples(program, wrong):
    """The examples, with their traces."""
    cases = []
    for path in sorted(glob.glob(TOP + "/examples/*.script")):
        with open(path, encoding="utf-8") as f:
            script = f.read()
        status, trace, said = ran(program, script)
        if status != 0:
            wrong.append(f"{path} ends with status {status}: {said}")
        cases.append((os.path.relpath(path, TOP), script, trace))
    return cases


def script_in(text):
    """The script of a block."""
    return "".join(line + "\n" for line in text.splitlines() if not line.startswith("#>"))


def file_block(program, path, text, wrong):
    """The block that shows a file, and the trace."""
    with open(os.path.join(TOP, path), encoding="utf-8") as f:
        script = f.read()
    status, trace, said = ran(program, script)
    if status != 0:
        wrong.append(f"{path} ends with status {status}: {said}")
        return text, ""
    return with_answers(bare(script), trace), trace


def script_block(program, text, wrong):
    """The block with the answers that the program gives, and the trace."""
    script = script_in(text)
    status, trace, said = ran(program, script)
    if status != 0:
        wrong.append(f"a script ends with status {status}: {said}\n{script}")
        return text, ""
    return with_answers(script, trace), trace


def with_answers(script, trace):
    """A script with its answers below the lines that stepped their actors."""
    rows = []
    for line, answers in beside(script, trace):
        rows += [line] + [f"#> {short(answer)}" for answer in answers]
    return "".join(row + "\n" for row in rows)


def console_block(program, text, shell):
    """The block with what its commands print. What the gate can run of them comes to the rows."""
    rows = []
    for command in re.findall(r"^\$ (.*)$", text, re.M):
        shell += shell_row(program, command)
        if isinstance(program, dict):
            continue
        run = subprocess.run(["bash", "-c", command.replace("./tiered", program)], cwd=TOP,
                             stdout=subprocess.PIPE, stderr=subprocess.STDOUT)
        rows += ["$ " + command] + [short(line) for line in run.stdout.decode().splitlines()]
    return text if isinstance(program, dict) else "".join(row + "\n" for row in rows)


def blocks(program, path, page, wrong, cases, shell):
    """The page with each block made anew. What its scripts give comes to the cases, and its commands to the rows of a shell."""
    last, count = [""], [0]

    def made(match):
        kind, name, text = match.groups()
        if kind == "script" and name:
            text, last[0] = file_block(program, name, text, wrong)
        elif kind == "script":
            script = script_in(text)
            text, last[0] = script_block(program, text, wrong)
            count[0] += 1
            cases.append((f"{os.path.relpath(path, TOP)}, script {count[0]}", script, last[0]))
        elif kind == "console":
            text = console_block(program, text, shell)
        elif kind == "text":
            text = read_or_none(os.path.join(TOP, name))
        elif "".join(line.split()[0] for line in text.splitlines()) not in last[0]:
            wrong.append("bytes that the script before them wasn't given:\n" + text)
        return f"```{kind}{' ' + name if name else ''}\n{text}```"

    return BLOCK.sub(made, page)


def lines_of(span):
    """How often a line stands there, and the line."""
    many = re.match(r"([\d,]+) x (.*)$", span)
    return (int(many[1].replace(",", "")), many[2]) if many else (1, span)


def refusals(program, page, wrong, refused):
    """Runs the rows of each table of refusals."""
    inside, count = False, 0
    for row in page.splitlines():
        cells = [cell.strip() for cell in row.strip("|").split("|")]
        if not row.startswith("|"):
            inside = False
        elif cells[-1] == "refused":
            inside = True
        elif inside and "`" in cells[-1]:
            spans = [lines_of(span) for span in re.findall(r"`([^`]+)`", cells[-1])]
            script = [line for many, line in spans for _ in range(many)]
            cause = re.search(r"`(\w+)`", cells[0])[1]
            count += 1
            refused.append((spans, f"tiered: line {len(script)}: {cause}\n"))
            if isinstance(program, dict):
                continue
            status, _, said = ran(program, "".join(line + "\n" for line in script))
            if said != f"tiered: line {len(script)}: {cause}":
                wrong.append(f"{cause}: the program says: {said} ({status})")
    return count


def read_or_none(path):
    if not os.path.exists(path):
        return ""
    with open(path, encoding="utf-8") as f:
        return f.read()


def stale(refused, shell):
    """Where the gate's tables of refused lines and of a shell's commands lack what the documents show."""
    old = as_laid_out(read_or_none(os.path.join(TOP, TABLE)))
    missing = []
    for lines, told in refused:
        row = "(&[" + ", ".join(f"({n}, {literal(line)})" for n, line in lines) + f"], {literal(told)})"
        if as_laid_out(row) not in old:
            missing.append(f"the gate's tests don't have the refused line {lines[-1][1]}: docs/snippets.py write")
    for words, texts, *_ in shell:
        row = f"(&[{', '.join(map(literal, words))}], &[{', '.join(f'({n}, {literal(text)})' for n, text in texts)}],"
        if as_laid_out(row) not in old:
            missing.append(f"the gate's tests don't have the command tiered {' '.join(words)}: docs/snippets.py write")
    return missing


def main():
    if len(sys.argv) not in (2, 3) or sys.argv[1] not in ("check", "write"):
        print(__doc__.strip())
        return 2
    word, program = sys.argv[1], os.path.abspath(sys.argv[2]) if sys.argv[2:] else gate_cases()
    wrong, refused, cases, shell, shown, rows = [], [], [], [], 0, 0
    for path in [TOP + "/README.md", TOP + "/CONTRIBUTING.md"] + sorted(glob.glob(TOP + "/docs/*.md")):
        page = read_or_none(path)
        new = blocks(program, path, page, wrong, cases, shell)
        shown += len(BLOCK.findall(page))
        rows += refusals(program, page, wrong, refused)
        if new != page and word == "check":
            wrong.append(os.path.relpath(path, TOP) + " shows other answers than the program gives")
        if new != page and word == "write":
            with open(path, "w", encoding="utf-8") as f:
                f.write(new)
    cases += examples(program, wrong)
    known = isinstance(program, dict)
    if known:
        wrong += stale(refused, shell)
    if not (known and (word == "check" or wrong)):
        for path, new in {**({} if known else {TABLE: table(refused, shell)}), **runs(cases)}.items():
            old = read_or_none(os.path.join(TOP, path))
            if as_laid_out(new) != as_laid_out(old) and word == "check":
                wrong.append(path + " isn't what the documents show")
            if word == "write":
                with open(os.path.join(TOP, path), "w", encoding="utf-8") as f:
                    f.write(new)
    print("\n".join(wrong + [f"{shown} blocks and {rows} rows, {len(wrong)} of them wrong"]))
    return 1 if wrong else 0


sys.exit(main())
