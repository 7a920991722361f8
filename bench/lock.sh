#!/usr/bin/env bash
# Counts what threads do with a partition's lock and without it, for the scripts of bench/threads.sh: instructions under callgrind,
# which other work on the machine doesn't change. A line a kind of script: millions of instructions with the lock (what a turn wants,
# and the turn), without it (what is made ready), and elsewhere (reading the script, writing the trace); and the lock's share of the
# first two.
# usage: bench/lock.sh PROGRAM [KIND..]   PROGRAM needs the names of its functions, `wanted`, `prepare` and `step_with` among them:
# a build in which these are not inlined. Needs valgrind.
set -euo pipefail
cd "$(dirname "$0")/.."
program=$1
shift
room=$(mktemp -d)
trap 'rm -rf "$room"' EXIT

# The instructions of all functions whose names match, with those that they call.
count() { # pattern
    awk -v pattern="$1" '$0 ~ pattern { gsub(/,/, "", $1); sum += $1 } END { printf "%d", sum }' "$room/counts"
}

printf '%-8s %9s %9s %9s %9s\n' kind lock without elsewhere share
for kind in ${*:-raw64 raw900 copies overlap}; do
    python3 bench/thread_script.py "$kind" whole > "$room/script"
    valgrind --tool=callgrind --callgrind-out-file="$room/calls" "$program" sim --threads < "$room/script" > "$room/trace" 2> "$room/told"
    callgrind_annotate --inclusive=yes --threshold=100 "$room/calls" > "$room/counts"
    total=$(count 'PROGRAM TOTALS')
    lock=$(($(count 'World::step_with') + $(count 'World::wanted')))
    without=$(count 'World::prepare')
    if [ "$lock" = 0 ]; then
        echo "lock.sh: the functions of $program have no names" >&2
        exit 1
    fi
    awk -v kind="$kind" -v all="$total" -v lock="$lock" -v without="$without" 'BEGIN {
        printf "%-8s %9.0f %9.0f %9.0f %8.0f%%\n", kind, lock / 1e6, without / 1e6, (all - lock - without) / 1e6, 100 * lock / (lock + without)
    }'
done
