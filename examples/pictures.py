#!/usr/bin/env python3
"""Draws examples by trace_view.

usage: examples/pictures.py write VIEWER    writes pictures/NAME.svg, by the program trace_view
       examples/pictures.py check [VIEWER]  compares them, where the program is built
"""
import os
import subprocess
import sys

HERE = os.path.dirname(os.path.abspath(__file__))
BUILT = os.path.join(HERE, "..", "crates", "trace_view", "out", "trace_view")
NAMES = ["failover", "tiered-fetch", "retention", "fallen-behind"]


def drawn(viewer, name):
    """An example's picture, or None where the program fails."""
    words = [viewer, "--svg", os.path.join(HERE, name + ".script"), os.path.join(HERE, name + ".trace")]
    run = subprocess.run(words, capture_output=True)
    return run.stdout if run.returncode == 0 else None


def path(name):
    return os.path.join(HERE, "pictures", name + ".svg")


def kept(name):
    try:
        with open(path(name), "rb") as f:
            return f.read()
    except OSError:
        return None


def main(words):
    if words[:1] == ["write"] and len(words) == 2:
        for name in NAMES:
            with open(path(name), "wb") as f:
                f.write(drawn(os.path.abspath(words[1]), name))
    elif words[:1] == ["check"]:
        viewer = os.path.abspath(words[1]) if words[1:] else BUILT
        wrong = [f"examples/pictures/{name}.svg is missing" for name in NAMES if kept(name) is None]
        if os.path.isfile(viewer) and not wrong:
            changed = [name for name in NAMES if kept(name) != drawn(viewer, name)]
            wrong = [f"examples/pictures/{name}.svg: trace_view draws another picture" for name in changed]
        print("\n".join(wrong), end="\n" if wrong else "")
        return 1 if wrong else 0
    else:
        print(__doc__.strip())
    return 0


if __name__ == "__main__":
    sys.exit(main(sys.argv[1:]))
