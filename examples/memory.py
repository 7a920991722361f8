#!/usr/bin/env python3
"""Runs examples with one failing memory allocation, for each allocation that they make.

usage: examples/memory.py PROGRAM [NAME..]

PROGRAM is `tiered`. Without names the examples are those in DEFAULT. Each is run again and again with
a `malloc` that returns null at the call of one number, from 1 until no call has that number. Each run
must end with status 6 and no output, or with status 0 and the example's own trace. Needs Linux and a
C compiler, `cc`.

A line is printed for each example, and what failed below it. The exit status is 1 if something did.
"""
import os
import subprocess
import sys
import tempfile

HERE = os.path.dirname(os.path.abspath(__file__))
DEFAULT = ["copy", "packed", "tiered-fetch", "retention", "copying-off", "by-time", "fallen-behind"]
REFUSING = r"""
#define _GNU_SOURCE
#include <dlfcn.h>
#include <fcntl.h>
#include <stdlib.h>
#include <unistd.h>

static void *(*next)(size_t);
static long refused, calls;

void *malloc(size_t size) {
    if (!next) {
        const char *number = getenv("REFUSED");
        refused = number ? atol(number) : 0;
        next = dlsym(RTLD_NEXT, "malloc");
    }
    if (++calls != refused) return next(size);
    const char *told = getenv("TOLD");
    if (told) close(open(told, O_CREAT | O_WRONLY, 0600));
    return NULL;
}
"""


def shim(folder):
    """The library with that `malloc`."""
    source, library = os.path.join(folder, "refusing.c"), os.path.join(folder, "refusing.so")
    with open(source, "w", encoding="utf-8") as f:
        f.write(REFUSING)
    subprocess.run(["cc", "-shared", "-fPIC", "-O2", "-o", library, source, "-ldl"], check=True)
    return library


def tried(program, library, told, name):
    """How many calls were refused, and what was wrong. The file `told` is there where one was."""
    with open(os.path.join(HERE, f"{name}.script"), "rb") as f:
        text = f.read()
    with open(os.path.join(HERE, f"{name}.trace"), "rb") as f:
        trace = f.read()
    number, failed = 1, []
    while True:
        env = dict(os.environ, LD_PRELOAD=library, REFUSED=str(number), TOLD=told)
        done = subprocess.run([program, "sim"], input=text, capture_output=True, env=env, timeout=120)
        if not os.path.exists(told):
            return number - 1, failed
        os.remove(told)
        if (done.returncode, done.stdout) not in ((6, b""), (0, trace)):
            failed.append(f"call {number}: status {done.returncode}")
        number += 1


def main():
    if len(sys.argv) < 2:
        print(__doc__.split("\n\n")[1], file=sys.stderr)
        return 2
    bad = 0
    with tempfile.TemporaryDirectory() as folder:
        library = shim(folder)
        for name in sys.argv[2:] or DEFAULT:
            calls, failed = tried(sys.argv[1], library, os.path.join(folder, "told"), name)
            print(f"{name}: {calls} calls refused, {len(failed)} failed", flush=True)
            for line in failed:
                print(f"  {line}", flush=True)
            bad += len(failed)
    return 1 if bad else 0


sys.exit(main())
