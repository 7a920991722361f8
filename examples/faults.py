#!/usr/bin/env python3
"""Runs examples with one more failing device call, and on scripts that are cut short.

usage: examples/faults.py PROGRAM CHECKER [NAME..]

PROGRAM is `tiered`, CHECKER is `trace_check`. Without names the examples are those in DEFAULT. Each
example, without its own fault lines:

- is run once as it is, and once for each call of each device, failing before and after it: the disk
  of each broker, the store, the metadata log, each kind of call, numbers from 1 until three in a row
  give the trace of the run without the fault. Each run must end with status 0.
- is cut to its first bytes, the shortest example at every length, the others at a sample. Each cut
  must end with status 0 or 3.

Each trace that is written with status 0 must be a complete run for the checker. A line is printed
for each example, and what failed below it. The exit status is 1 if something did.
"""
import os
import subprocess
import sys
import tempfile

HERE = os.path.dirname(os.path.abspath(__file__))
DEFAULT = ["copy", "packed", "tiered-fetch", "retention", "copying-off", "by-time", "fallen-behind", "replaced-leader"]
DEFAULT += ["failover"]
DISK = ["append", "sync", "read", "cut", "replace", "remove", "list"]
STORE = ["put", "get", "delete"]
META = ["append", "read"]
CUTS = 60  # how many cuts of an example are a sample
SAME = 3  # so many numbers in a row without a trace of their own are past the last call


class Tried:
    """A program and a checker, and what was tried with them."""

    def __init__(self, program, checker, folder):
        self.program, self.checker = program, checker
        self.script = os.path.join(folder, "script")
        self.trace = os.path.join(folder, "trace")
        self.runs, self.failed = 0, []

    def run(self, text):
        """The status and the trace of a script."""
        self.runs += 1
        done = subprocess.run([self.program, "sim"], input=text, capture_output=True, timeout=120)
        return done.returncode, done.stdout

    def flaw(self, text, trace):
        """What the checker tells of a trace that is no whole run of the script."""
        for path, data in ((self.script, text), (self.trace, trace)):
            with open(path, "wb") as f:
                f.write(data)
        words = [self.checker, self.script, self.trace]
        done = subprocess.run(words, capture_output=True, timeout=120)
        told = (done.stdout + done.stderr).decode(errors="replace").strip()
        return None if done.returncode == 0 else told or f"status {done.returncode} of the checker"

    def judge(self, name, text, statuses, known=()):
        """Runs a script, and notes what is wrong. Gives the trace."""
        status, trace = self.run(text)
        if status not in statuses:
            self.failed.append(f"{name}: status {status}")
        elif status == 0 and trace not in known:
            flaw = self.flaw(text, trace)
            if flaw:
                self.failed.append(f"{name}: {flaw}")
        return trace


def option(lines, name):
    """The value of an option that counts something, 1 where it isn't given."""
    values = [words[1] for words in map(str.split, lines) if words[:1] == [name]]
    return int(values[0]) if values else 1


def calls(lines):
    """The calls of a script's devices, each as the front of a fault line."""
    disks = [(f"disk {broker}", DISK) for broker in range(option(lines, "brokers"))]
    for partition in range(option(lines, "partitions")):
        for device, kinds in disks + [("store", STORE), ("meta", META)]:
            for kind in kinds:
                yield f"fault {partition} {device} {kind}"


def with_faults(tried, text, lines):
    """Runs a script with each fault, and gives how many of them changed the trace."""
    plain = tried.judge("no fault", text, [0])
    changed = 0
    for call in calls(lines):
        for side in ("before", "after"):
            number, same = 1, 0
            while same < SAME:
                fault = f"{call} {number} {side}"
                trace = tried.judge(fault, text + fault.encode() + b"\n", [0], [plain])
                same = same + 1 if trace == plain else 0
                changed += trace != plain
                number += 1
    return changed


def cut(tried, text, step):
    """Runs the fronts of a script."""
    for size in range(0, len(text), step):
        tried.judge(f"first {size} bytes", text[:size], [0, 3])


def main():
    if len(sys.argv) < 3:
        print(__doc__.split("\n\n")[1], file=sys.stderr)
        return 2
    scripts = {}
    for name in sys.argv[3:] or DEFAULT:
        with open(os.path.join(HERE, f"{name}.script"), encoding="utf-8") as f:
            lines = [line for line in f.read().splitlines() if line.split()[:1] != ["fault"]]
        scripts[name] = lines, ("\n".join(lines) + "\n").encode()
    shortest = min(scripts, key=lambda name: len(scripts[name][1]))
    bad = 0
    for name, (lines, text) in scripts.items():
        with tempfile.TemporaryDirectory() as folder:
            tried = Tried(sys.argv[1], sys.argv[2], folder)
            changed = with_faults(tried, text, lines)
            faults = tried.runs - 1
            cut(tried, text, 1 if name == shortest else max(1, len(text) // CUTS))
        cuts = tried.runs - 1 - faults
        told = f"{faults} runs with a fault, {changed} of them with a trace of their own"
        print(f"{name}: {told}, {cuts} cuts, {len(tried.failed)} failed", flush=True)
        for line in tried.failed:
            print(f"  {line}", flush=True)
        bad += len(tried.failed)
    return 1 if bad else 0


sys.exit(main())
