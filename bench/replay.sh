#!/usr/bin/env bash
# Times `replay` on made days (days.py says which): generated orders, 400,000 events at few prices, and a day that lives in special
# quotes. It prints for each the processor and the wall time of the program in milliseconds, the ratio to the start of the program
# (the first row: no words, which are refused), and the times of another program with the ratios to them (side_by_side.py says how).
# What the two write is compared first.
# Usage: bench/replay.sh [OTHER]        OTHER is the path of a program that takes the same words
# RUNS in the environment says how often each runs (7 where it does not).
top=$(cd "$(dirname "$0")/.." && pwd) || exit 2
command -v python3 >/dev/null || { echo "replay: this needs python3, which is not on the PATH" >&2; exit 2; }
if [ $# -gt 0 ] && [ ! -x "$1" ]; then
    echo "replay: $1 is no program" >&2
    exit 2
fi
room=$(mktemp -d) || exit 2
trap 'rm -rf "$room"' EXIT
rules=$top/examples/sample.toml

day() { # NAME RULES WORDS..     writes a day and its row
    local name=$1 by=$2
    shift 2
    python3 "$top/bench/days.py" "$@" >"$room/$name" || exit 2
    printf '%s\treplay\t%s\t%s\n' "$name" "$by" "$room/$name" >>"$room/workloads"
}

# (the launcher builds the program, which is then timed without it)
"$top/market" check "$rules" >/dev/null || exit 2

printf 'start\n' >"$room/workloads"
for orders in 2000 20000 200000; do
    day "$orders orders" "$rules" orders $orders
done
day "400000 at few prices" "$rules" few 400000
python3 "$top/bench/days.py" quoted "$rules" >"$room/quoted.toml" || exit 2
day "100000 in quotes" "$room/quoted.toml" quotes 100000
python3 "$top/bench/side_by_side.py" "$room" "${RUNS:-7}" first "$top/out/market" ${1+"$(readlink -f "$1")"}
