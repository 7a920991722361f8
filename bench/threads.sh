#!/usr/bin/env bash
# Times `./tiered sim --threads` beside `./tiered sim`, and beside four processes that run a quarter of the work each.
# A line a kind of script (bench/thread_script.py has them): bytes of the script; seconds of `sim`, of `sim --threads` and of the
# four processes (the least of ROUNDS); how many times as fast as `sim` threads and processes are; and the seconds that `sim` takes
# to read a script of as many comments, which no thread shares.
# usage: bench/threads.sh [ROUNDS [KIND..]]   five rounds of all kinds by default. PROGRAM in the environment names another program
# than ./tiered. The scripts are made in a temporary folder.
set -euo pipefail
cd "$(dirname "$0")/.."
program=${PROGRAM:-./tiered}
rounds=${1:-5}
kinds=${*:2}
room=$(mktemp -d)
trap 'rm -rf "$room"' EXIT

# Runs the program over a script.
alone() { # form script
    "$program" $1 < "$2" > "$room/trace"
}

# Runs four processes at once, each over a quarter.
four() {
    local process
    for process in 1 2 3 4; do
        "$program" sim < "$room/quarter" > "$room/trace$process" &
    done
    wait
}

# The least of the seconds of a call.
least() { # call..
    for ((round = 0; round < rounds; round++)); do
        local began=${EPOCHREALTIME/[.,]/}
        "$@"
        echo $((${EPOCHREALTIME/[.,]/} - began))
    done | sort -n | awk 'NR == 1 { printf "%.3f", $1 / 1000000 }'
}

"$program" --version
printf '%-8s %9s %8s %8s %8s %8s %8s %8s\n' kind script sim threads four x-threads x-four reading
for kind in ${kinds:-raw64 raw900 copies overlap}; do
    python3 bench/thread_script.py "$kind" whole > "$room/whole"
    python3 bench/thread_script.py "$kind" quarter > "$room/quarter"
    # Comments of 100 bytes: what is read, and asks for nothing.
    size=$(stat -c %s "$room/whole")
    awk -v n=$((size / 100)) 'BEGIN { s = sprintf("%98s", ""); for (i = 0; i < n; i++) print "#" s }' > "$room/comments"
    one=$(least alone sim "$room/whole")
    threads=$(least alone "sim --threads" "$room/whole")
    quarters=$(least four)
    reading=$(least alone sim "$room/comments")
    awk -v kind="$kind" -v size="$size" -v one="$one" -v threads="$threads" -v four="$quarters" -v reading="$reading" \
        'BEGIN { printf "%-8s %9d %8.3f %8.3f %8.3f %8.2f %8.2f %8.3f\n", kind, size, one, threads, four, one / threads, one / four, reading }'
done
