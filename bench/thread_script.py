#!/usr/bin/env python3
"""Writes a script for bench/threads.sh.

usage: thread_script.py raw64|raw900|copies|overlap whole|quarter

raw64: one partition, to which eight actors bring batches of 64 KiB from outside, twelve each.
raw900: the same with batches of 900 KiB, one each.
copies: four partitions, each with an actor that copies a segment of 1 MiB 250 times.
overlap: one partition with four actors, each of which appends three segments of 1 MiB, and then copies twelve times.

quarter: what one of four processes has for a quarter of the work: two of the eight actors, one of the four partitions, or one
of the four actors that copy.
"""
import sys

from sim_script import batch, value


def raws(size, actors, each):
    """Batches from outside, by each actor in turn."""
    line = "raw " + batch(size).hex() + "\n"
    for _ in range(each):
        for actor in range(actors):
            yield f"{actor} 0 0 {line}"


def segment(actor, partition):
    """A closed segment of 128 batches of 8 KiB, which is flushed and acknowledged."""
    for number in range(128):
        yield f"{actor} {partition} 0 append {1700000000000 + number},-,:" + value(number, 260) * 31 + "\n"
    for command in ["roll", "flush", "ack"]:
        yield f"{actor} {partition} 0 {command}\n"


def copies(partitions, each):
    """Copies of a segment in each partition, of which the last alone tells that it is whole."""
    if partitions > 1:
        yield f"partitions {partitions}\n"
    for partition in range(partitions):
        for copy in range(1, each):
            yield f"fault {partition} meta append {2 * copy} before\n"
    for partition in range(partitions):
        yield from segment(partition, partition)
    for _ in range(each):
        for partition in range(partitions):
            yield f"{partition} {partition} 0 copy\n"


def overlap(actors):
    """Actors that append three segments of 1 MiB each, side by side, and then copy what there is."""
    for number in range(3 * 128):
        for actor in range(actors):
            yield f"{actor} 0 0 append {1700000000000 + number},-,:" + value(number, 260) * 31 + "\n"
    for command in ["roll", "flush", "ack"] + ["copy"] * 12:
        for actor in range(actors):
            yield f"{actor} 0 0 {command}\n"


def main(kind, share):
    whole = share == "whole"
    lines = {
        "raw64": lambda: raws(64 << 10, 8 if whole else 2, 12),
        "raw900": lambda: raws(900 << 10, 8 if whole else 2, 1),
        "copies": lambda: copies(4 if whole else 1, 250),
        "overlap": lambda: overlap(4 if whole else 1),
    }[kind]()
    sys.stdout.writelines(lines)


if __name__ == "__main__":
    if len(sys.argv) != 3 or sys.argv[2] not in ("whole", "quarter"):
        sys.exit(__doc__)
    main(*sys.argv[1:])
