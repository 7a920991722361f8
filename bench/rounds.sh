#!/usr/bin/env bash
# Times `./tiered audit` and `./tiered sweep` over directories whose remote tier doubles: 256 to 2,048 finished copies of one batch
# of 69 bytes, four objects each. A line a directory: copies, and the seconds of an audit and a sweep (the least of ROUNDS).
# usage: bench/rounds.sh [ROUNDS]   five by default. PROGRAM in the environment names another program than ./tiered.
# The directories are made in a temporary folder.
set -euo pipefail
cd "$(dirname "$0")/.."
program=${PROGRAM:-./tiered}
room=$(mktemp -d)
trap 'rm -rf "$room"' EXIT

# Prints a script that copies so many segments of a batch each.
script() { # copies
    awk -v n="$1" 'BEGIN {
        print "segment_bytes 100"
        for (i = 0; i < n; i++) print "0 0 0 append 1000,-,:a"
        print "0 0 0 roll\n0 0 0 flush\n0 0 0 ack"
        for (i = 0; i < n; i++) print "0 0 0 copy"
    }'
}

# Prints the least seconds that a word takes over a folder.
least() { # word folder
    for _ in $(seq "$rounds"); do
        local began=${EPOCHREALTIME/[.,]/}
        "$program" "$1" "$2" > /dev/null
        echo $((${EPOCHREALTIME/[.,]/} - began))
    done | sort -n | awk 'NR == 1 { printf "%.3f", $1 / 1000000 }'
}

rounds=${1:-5}
for copies in 256 512 1024 2048; do
    script "$copies" > "$room/script"
    "$program" run "$room/$copies" < "$room/script" > /dev/null
    echo "$copies $(least audit "$room/$copies") $(least sweep "$room/$copies")"
done
