#!/usr/bin/env bash
# Checks the documents against crates.txt, the sources and the gate's tests; with a program, also runs all that they show.
# usage: docs/check.sh [PROGRAM]   for instance docs/check.sh ./tiered
# Prints a line for each thing that is wrong, and nothing else. Exit status 1 where something is. Needs python3.
set -u
cd "$(dirname "$0")/.." || exit 1
export PYTHONUTF8=1 PYTHONDONTWRITEBYTECODE=1
program=()
if [ $# -gt 0 ]; then
    program=("$1")
    [[ $1 == */* ]] || program=("./$1")
fi
bad=0

# Runs a check. One that breaks off by itself says so, and finds nothing.
check() {
    local said
    if said=$(python3 "$@" 2>&1); then
        return
    fi
    case $said in
        *'Traceback (most recent call last)'*) printf '%s breaks off: %s\n' "$1" "${said##*$'\n'}" ;;
        *)
            printf '%s\n' "$said"
            bad=1
            ;;
    esac
}

check docs/layers.py check
check docs/decisions.py check
check docs/refusals.py check
check docs/snippets.py check ${program[@]+"${program[@]}"}
check examples/view.py check ${program[@]+"${program[@]}"}
check examples/pictures.py check
check docs/prose.py check
exit $bad
