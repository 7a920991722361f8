#!/usr/bin/env bash
# Times `./tiered sim` over scripts of five sizes, each about twice the one before; bench/README.md says what each kind has.
# A line a script: bytes of script and trace, seconds (the least of ROUNDS runs), peak memory in MiB, and how time and bytes grew.
# usage: bench/sim.sh [ROUNDS [KIND..]]   three rounds of all kinds by default. FORM='sim --threads' runs with threads.
# The scripts are made in a temporary folder.
set -euo pipefail
cd "$(dirname "$0")/.."
rounds=${1:-3}
kinds=${*:2}
form=${FORM:-sim}
room=$(mktemp -d)
trap 'rm -rf "$room"' EXIT

# Runs the program over a script, and tells its peak memory in KiB: by GNU time where it is there, and else by what
# /proc last told while the program ran.
peak_of() { # script
    if /usr/bin/time -f %M true 2> /dev/null; then
        /usr/bin/time -f %M -o "$room/peak" ./tiered $form < "$1" > "$room/trace"
        return
    fi
    ./tiered $form < "$1" > "$room/trace" &
    local told
    while told=$(awk '/^VmHWM/ { print $2 }' "/proc/$!/status" 2> /dev/null) && [ -n "$told" ]; do
        echo "$told" > "$room/peak"
        sleep 0.005
    done
    wait $!
}

# Runs the program, and prints seconds and peak memory.
measure() { # script
    local began=${EPOCHREALTIME/[.,]/}
    peak_of "$1"
    local ended=${EPOCHREALTIME/[.,]/}
    echo "$((ended - began)) $(cat "$room/peak")" | awk '{ printf "%.4f %d\n", $1 / 1e6, $2 }'
}

# The least of the seconds, and the greatest peak.
best() { # script
    for ((round = 0; round < rounds; round++)); do
        measure "$1"
    done | awk 'NR == 1 || $1 < least { least = $1 } $2 > peak { peak = $2 } END { print least, peak }'
}

# Prints a row, with the ratios to the row before it, which stands in the file `last`.
row() { # kind mebibytes
    python3 bench/sim_script.py "$1" $(($2 * 1048576)) > "$room/script"
    best "$room/script" > "$room/best"
    read -r seconds peak < "$room/best"
    awk -v kind="$1" -v script="$(stat -c %s "$room/script")" -v trace="$(stat -c %s "$room/trace")" \
        -v seconds="$seconds" -v peak="$peak" -v last="$(cat "$room/last")" 'BEGIN {
            split(last, was, " ")
            printf "%-8s %9d %10d %8.3f %9.1f", kind, script, trace, seconds, peak / 1024
            if (was[1] > 0) printf " %9.2f %9.2f", seconds / was[1], (script + trace) / was[2]
            printf "\n"
        }'
    echo "$seconds $(($(stat -c %s "$room/script") + $(stat -c %s "$room/trace")))" > "$room/last"
}

./tiered --version
printf '%-8s %9s %10s %8s %9s %9s %9s\n' kind script trace seconds peak-MiB x-seconds x-bytes
for kind in ${kinds:-mixed flush text raw fetch brokers actors segments faults copies closed trims expiries remote}; do
    echo > "$room/last"
    for mebibytes in 1 2 4 8 16; do
        row "$kind" "$mebibytes"
    done
done
