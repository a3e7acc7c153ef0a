#!/usr/bin/env bash
# Times `auction` on five files, and prints for each the processor and the wall time of the program in milliseconds, the
# ratio to the first row, and the times of another program with the ratios to them (side_by_side.py says how).
# Usage: bench/auction.sh [OTHER]       OTHER is the path of a program that takes the same words
# RUNS in the environment says how often each runs (7 where it does not).
top=$(cd "$(dirname "$0")/.." && pwd) || exit 2
command -v python3 >/dev/null || { echo "auction: this needs python3, which is not on the PATH" >&2; exit 2; }
if [ $# -gt 0 ] && [ ! -x "$1" ]; then
    echo "auction: $1 is no program" >&2
    exit 2
fi
room=$(mktemp -d) || exit 2
trap 'rm -rf "$room"' EXIT

# A file with a comment line so often, of so many bytes with its end, behind one grid line.
write_comments() { # LINES BYTES
    awk -v lines="$1" -v bytes="$2" 'BEGIN {
        print "grid 1000 10 11 1050"
        line = "# "
        while (length(line) < bytes - 1) line = line "x"
        for (i = 0; i < lines; i++) print line
    }'
}

# So many orders, buys and sells in turn, all at the price with this number on a grid from 1000 on, 10 apart.
write_book() { # PRICES REFERENCE ORDERS AT
    awk -v prices="$1" -v reference="$2" -v orders="$3" -v at="$4" 'BEGIN {
        printf "grid 1000 10 %d %d\n", prices, 1000 + 10 * reference
        for (i = 0; i < orders; i++) printf "%s 100 %d\n", i % 2 ? "sell" : "buy", 1000 + 10 * at
    }'
}

write_comments 400000 34 >"$room/comments"
write_comments 400000 190 >"$room/long comments"
write_book 1 0 400000 0 >"$room/orders"
write_book 20000 10000 1000 10000 >"$room/grid"
write_book 20000 0 100 19000 >"$room/rejected"

# (the launcher builds the program, which is then timed without it)
printf 'grid 1000 10 1 1000\n' >"$room/small"
"$top/market" auction "$room/small" >/dev/null || exit 2

for name in comments "long comments" orders grid rejected; do
    printf '%s\tauction\t%s\n' "$name" "$room/$name"
done >"$room/workloads"
python3 "$top/bench/side_by_side.py" "$room" "${RUNS:-7}" first "$top/out/market" ${1+"$(readlink -f "$1")"}
