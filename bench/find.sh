#!/usr/bin/env bash
# Times lookups in a view of the remote tier while its copies double, 512 to 4,096; a copy's two events and a deletion's; and how
# long it takes to find how far copies reach. Two lines a run, the means of OFFSETS lookups at random offsets.
# usage: bench/find.sh [ROUNDS [OFFSETS]]   OFFSETS below 2^32
set -eu
cd "$(dirname "$0")/../crates/find_speed"
for _ in $(seq "${1:-5}"); do
    for copies in 512 1024 2048 4096; do
        rt run -- "$copies" "${2:-300000}" time
    done
done
