#!/usr/bin/env bash
# Prints how fast each body of CRC-32C is beside a copy of the same memory: a line a round.
# usage: bench/crc.sh [SIZE [ROUNDS]]   SIZE in bytes, below 2^32
set -eu
cd "$(dirname "$0")/../crates/crc_speed"
exec rt run -- "${1:-268435456}" "${2:-3}" time
