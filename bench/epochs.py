#!/usr/bin/env python3
"""Writes a script in which one broker takes the lead again and again, for trace_check over its trace.

usage: epochs.py ROUNDS > SCRIPT

Each round appends a batch, elects the broker and lets it learn, so each leader epoch begins with the whole log of the
one before. A script has at most 65,535 commands, so 21,845 rounds.
"""
import sys


def main():
    rounds = int(sys.argv[1])
    lines = ["brokers 1\n"]
    for n in range(rounds):
        lines.append(f"0 0 0 append {1700000000000 + n},-,:v\n0 0 0 elect\n0 0 0 learn\n")
    sys.stdout.write("".join(lines))


main()
