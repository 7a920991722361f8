#!/usr/bin/env python3
"""Gives `tier_dump` random and spoilt files of every form, and tells of a run that ends otherwise than by status 0, 1 or 2.

usage: bench/spoilt.py TIER_DUMP COUNT [SEED]

A file is one of crates/dump_tests/data with bytes changed, cut, doubled or moved, or with numbers put to their bounds, or else
random bytes. What breaks a run is kept in the folder that is named.
"""
import os, random, shutil, subprocess, sys, tempfile

program, count = os.path.abspath(sys.argv[1]), int(sys.argv[2])
seed = int(sys.argv[3]) if len(sys.argv) > 3 else 1
top = os.path.dirname(os.path.dirname(os.path.abspath(__file__)))
data = f"{top}/crates/dump_tests/data"
log = "00000000000000001000.log"
styles = ["--json", "--human", "--dates"]
forms = [
    (["log", "--records", log], [log, "00000000000000000000.log"]),
    (["log", "--from", "1002", "--to", "1005", log], [log]),
    (["index", "00000000000000001000.index"], ["00000000000000001000.index", "spoilt.index"]),
    (["index", "00000000000000001000.index", "--log", log], ["00000000000000001000.index"]),
    (["timeindex", "00000000000000001000.timeindex"], ["00000000000000001000.timeindex"]),
    (["timeindex", "00000000000000001000.timeindex", "--log", log], ["00000000000000001000.timeindex"]),
    (["index", "00000000000000001000.index", "--log", log], [log]),
    (["epochs", "leader-epoch-checkpoint"], ["leader-epoch-checkpoint", "bad-checkpoint"]),
    (["manifest", "manifest"], ["manifest"]),
    (["registry", "registry"], ["registry"]),
    (["notes", "."], ["notes", "gate"]),
    (["pack", "pack", "--custom", "0100000045000000000000000c00000008"], ["pack"]),
    (["dir", "run"], ["run/p0/b0/manifest", "run/p0/reg/registry", "run/p0/meta/notes", "run/p0/meta/gate"]),
    (["dir", "packed"], ["packed/p0/meta/notes", "packed/p0/meta/gate"]),
    (["script", log], [log]),
]


def spoil(draws, was):
    """Other bytes, not far from those that were there."""
    it = bytearray(was)
    for _ in range(draws.choice([1, 1, 2, 8])):
        kind = draws.randrange(8)
        at = draws.randrange(len(it) + 1)
        if kind == 0:
            return bytes(draws.randrange(256) for _ in range(draws.choice([0, 1, 7, 60, 61, 62, 300])))
        if kind == 1:
            del it[at:]
        elif kind == 2 and at < len(it):
            it[at] = draws.randrange(256)
        elif kind == 3 and at < len(it):
            it[at] ^= 1 << draws.randrange(8)
        elif kind == 4:
            it[at:at] = it[: draws.randrange(len(it) + 1)]
        elif kind == 5:
            del it[at : at + draws.randrange(1, 9)]
        elif kind == 6:
            width = draws.choice([2, 4, 8])
            it[at : at + width] = draws.choice([b"\0", b"\xff", b"\x7f", b"\x80"]) + draws.choice([b"\0", b"\xff"]) * (width - 1)
        elif kind == 7:
            it += bytes(draws.choice([1, 12, 4096]))
    return bytes(it)


def main():
    draws = random.Random(seed)
    folder = tempfile.mkdtemp(prefix="spoilt-")
    shutil.copytree(data, folder, dirs_exist_ok=True)
    shutil.copy(f"{data}/packed/p0/store/00000000-0000-0001-0000-000000000002.pack", f"{folder}/pack")
    ends = {}
    for number in range(count):
        words, names = draws.choice(forms)
        name = draws.choice(names)
        with open(f"{folder}/{name}", "rb") as file:
            was = file.read()
        with open(f"{folder}/{name}", "wb") as file:
            file.write(spoil(draws, was))
        words = words + [it for it in styles if draws.randrange(3) == 0 and words[0] != "script"]
        with open(f"{folder}/said", "wb") as said:
            status = subprocess.run([program, *words], cwd=folder, stdout=said, stderr=said, timeout=60).returncode
        ends[status] = ends.get(status, 0) + 1
        if status not in (0, 1, 2):
            print(f"run {number} of seed {seed}: {' '.join(words)} with another {name}: status {status}, in {folder}")
            sys.exit(1)
        with open(f"{folder}/{name}", "wb") as file:
            file.write(was)
        if number % 1000 == 999:
            print(f"{number + 1} runs so far", flush=True)
    shutil.rmtree(folder)
    print(f"{count} runs of seed {seed}:", ", ".join(f"status {it} {ends[it]} times" for it in sorted(ends)))


main()
