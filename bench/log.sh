#!/usr/bin/env bash
# Times a local log whose number of batches doubles: on a disk in memory with batches of 170 bytes in segments of 1 MiB, and in a
# directory with batches of 4 KiB in segments of 16 MiB, 256 MiB to 1 GiB in all. Every hundredth append is followed by a flush;
# then 20,000 batches are read at random offsets, all are read in order, 32 KiB a time, and the log is opened again. A line a log:
# how often each call was made, its mean time, and its mean in the fastest hundred calls one after another. Beside each log in a
# directory LevelDB's log writer appends as many records of 4 KiB with the same syncs, as many bytes are read at random places and
# their checksum is computed, and LevelDB's reader reads and checks all records in order, as many a time (Debian: g++,
# libleveldb-dev; without them it is left out). Two lines say how much longer this log took, by means and by the fastest hundred.
# usage: bench/log.sh [memory|folder [COUNT..]]   both by default
set -eu
bench=$(cd "$(dirname "$0")" && pwd)
cd "$bench/../crates/log_speed"
places=${1:-memory folder}
counts=${*:2}
room=$(mktemp -d ./leveldb.XXXXXX)
trap 'rm -rf "$room"' EXIT
writer=
if [ "$places" != memory ] && g++ -O2 -o "$room/leveldb_log" "$bench/leveldb_log.cc" \
    -Wl,-Bstatic -lleveldb -Wl,-Bdynamic -lpthread 2> /dev/null; then
    writer=$room/leveldb_log
fi

# How long a call of one kind took, of the lines that were printed: in the mean, or in the fastest hundred.
time_of() { # which lines kind
    if [ "$1" = means ]; then
        sed -n "s/.*$3 [0-9]* of \([0-9]*\) ns.*/\1/p" <<< "$2"
    else
        sed -n "s/.*$3 [0-9]* of [0-9]* ns (fastest \([0-9]*\)).*/\1/p" <<< "$2"
    fi
}

# Ours by theirs, for each kind of call.
ratios() { # which ours theirs
    local line="" kind
    for kind in appends flushes reads "in order"; do
        line+=", $kind $(awk -v ours="$(time_of "$1" "$2" "$kind")" -v theirs="$(time_of "$1" "$3" "$kind")" \
            'BEGIN { if (ours && theirs) printf "%.2f", ours / theirs; else printf "too few" }')"
    done
    echo "ratio of $1: ${line:2}"
}

for place in $places; do
    if [ "$place" = memory ]; then
        for count in ${counts:-250000 500000 1000000 2000000}; do
            rt run -- memory "$count" 100 1048576 20000 time
        done
    else
        for count in ${counts:-65536 131072 262144}; do
            ours=$(rt run -- folder "$count" 4026 16777216 20000 time)
            echo "$ours"
            if [ -n "$writer" ]; then
                rm -rf "$room/yard"
                theirs=$("$writer" "$room/yard" "$count" 4096 20000)
                rm -rf "$room/yard"
                echo "$theirs"
                ratios means "$ours" "$theirs"
                ratios fastest "$ours" "$theirs"
            fi
        done
    fi
done
