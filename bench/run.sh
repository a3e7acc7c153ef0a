#!/usr/bin/env bash
# Times `run` on made days (days.py says which), whose gateways do their lines in threads: generated orders, one issue at few prices,
# and thousands of stages in each of which all gateways act; of 4, and of 2 and 16 gateways. It prints for each the processor and the
# wall time of the program in milliseconds, and the times of another program with the ratios to them (side_by_side.py says how). Each
# report is audited by the program that wrote it. On a machine that does other work the times say nothing: a turn waits for one thread.
# Usage: bench/run.sh [OTHER]           OTHER is the path of a program that takes the same words
# RUNS in the environment says how often each runs (5 where it does not).
top=$(cd "$(dirname "$0")/.." && pwd) || exit 2
command -v python3 >/dev/null || { echo "run: this needs python3, which is not on the PATH" >&2; exit 2; }
if [ $# -gt 0 ] && [ ! -x "$1" ]; then
    echo "run: $1 is no program" >&2
    exit 2
fi
room=$(mktemp -d) || exit 2
trap 'rm -rf "$room"' EXIT

day() { # NAME GATEWAYS WORDS..     writes a day, its rules and its row
    local name=$1 gateways=$2
    shift 2
    python3 "$top/bench/days.py" gateways "$top/examples/sample.toml" "$gateways" >"$room/$gateways.toml" || exit 2
    python3 "$top/bench/days.py" "$@" >"$room/$name" || exit 2
    printf '%s\trun\t%s\t%s\n' "$name" "$room/$gateways.toml" "$room/$name" >>"$room/workloads"
}

# (the launcher builds the program, which is then timed without it)
"$top/market" check "$top/examples/sample.toml" >/dev/null || exit 2

for orders in 2000 20000 200000; do
    day "$orders orders" 4 orders $orders
done
day "400000 at few prices" 4 few 400000
for gateways in 2 4 16; do
    day "20000 orders of $gateways gateways" $gateways orders 20000 $gateways
    day "20000 in stages of $gateways" $gateways stages 20000 $gateways
done
python3 "$top/bench/side_by_side.py" "$room" "${RUNS:-5}" audited "$top/out/market" ${1+"$(readlink -f "$1")"}
