#!/usr/bin/env bash
# Measures how fast a script is read: 400,000 `order` lines and one more that is refused, so that `replay` reads all of them
# and does nothing else. It prints lines a second, and as side_by_side.py does the processor and the wall time of the program
# in milliseconds and, beside another program, the ratios to its times. Times are with the start of the process and the
# reading of the files.
# Usage: bench/script.sh [OTHER]        OTHER is the path of a program that takes `replay RULES SCRIPT`
# RUNS in the environment says how often each runs (25 where it does not).
top=$(cd "$(dirname "$0")/.." && pwd) || exit 2
for tool in awk python3; do
    command -v "$tool" >/dev/null || { echo "script: this needs $tool, which is not on the PATH" >&2; exit 2; }
done
if [ $# -gt 0 ] && [ ! -x "$1" ]; then
    echo "script: $1 is no program" >&2
    exit 2
fi
room=$(mktemp -d) || exit 2
trap 'rm -rf "$room"' EXIT
lines=400000

# Orders of all gateways, issues, participants and sides in no order, a tenth of them market orders; and a last line with a
# gateway that is not there.
awk -v lines="$lines" '
    function draw(n) { x = (x * 16807) % 2147483647; return int(x / 65536) % n }
    BEGIN {
        x = 7
        for (i = 0; i < lines; i++) {
            gateway = draw(4) + 1
            issue = draw(2) ? "BBBB" : "AAAA"
            participant = draw(8) + 1
            side = draw(2) ? "sell" : "buy"
            kind = draw(10) ? (issue == "AAAA" ? 20000 : 12000) - 300 + 10 * draw(61) : "market"
            printf "g%d %s order p%d %s %s %d\n", gateway, issue, participant, side, kind, 100 * (draw(10) + 1)
        }
        print "g9 AAAA order p1 buy market 100"
    }' >"$room/script"

# (the launcher builds the program, which is then timed without it)
"$top/market" check "$top/examples/sample.toml" >/dev/null || exit 2

printf '%d lines\treplay\t%s\t%s\n' "$lines" "$top/examples/sample.toml" "$room/script" >"$room/workloads"
python3 "$top/bench/side_by_side.py" "$room" "${RUNS:-25}" plain "$top/out/market" ${1+"$(readlink -f "$1")"} | tee "$room/table"
status=${PIPESTATUS[0]}
awk -v lines="$lines" 'NR == 2 { printf "%d lines a second of processor time\n", lines * 1000 / $3 }' "$room/table"
exit "$status"
