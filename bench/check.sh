#!/usr/bin/env bash
# Times `check` on the sample and on the largest rules files, and prints for each the processor and the wall time of the
# program in milliseconds, the ratio to the start of the program (the first row: no words, which are refused), and the
# times of another program with the ratios to them (side_by_side.py says how).
# Usage: bench/check.sh [OTHER]         OTHER is the path of a program that takes the same words
# RUNS in the environment says how often each runs (25 where it does not).
top=$(cd "$(dirname "$0")/.." && pwd) || exit 2
command -v python3 >/dev/null || { echo "check: this needs python3, which is not on the PATH" >&2; exit 2; }
if [ $# -gt 0 ] && [ ! -x "$1" ]; then
    echo "check: $1 is no program" >&2
    exit 2
fi
room=$(mktemp -d) || exit 2
trap 'rm -rf "$room"' EXIT
limit=1048576

# The sample's keys with 64 issues, each of a grid of 20,000 prices.
write_issues() {
    sed '/^\[\[issue\]\]/,$d; s/^ticks.*/ticks = [[1000000000, 1]]/; s/^limits.*/limits = [[1000000001, 15000]]/' \
        "$top/examples/sample.toml"
    awk 'BEGIN { for (i = 1; i <= 64; i++) printf "[[issue]]\ncode = \"I%d\"\nbase = 5000\nunit = 100\n", i }'
}

# The same, filled up to the last byte that a file may have: with a comment, or with tables of keys that mean nothing.
fill_with_comment() {
    local room_left=$((limit - $(wc -c <"$room/issues") - 1))
    cat "$room/issues"
    printf '#'
    head -c "$room_left" /dev/zero | tr '\0' x
}

fill_with_tables() {
    awk -v limit="$limit" '
        { print; used += length($0) + 1 }
        END {
            table = "[[other]]\ncode = \"AAAA\"\nbase = 20000\nunit = 100\n"
            for (; used + length(table) <= limit; used += length(table)) printf "%s", table
            for (; used < limit; used++) printf "\n"
        }' "$room/issues"
}

write_issues >"$room/issues"
fill_with_comment >"$room/comment"
fill_with_tables >"$room/tables"

# (the launcher builds the program, which is then timed without it)
"$top/market" check "$top/examples/sample.toml" >/dev/null || exit 2

{
    printf 'start\n'
    printf 'sample\tcheck\t%s\n' "$top/examples/sample.toml"
    printf '64 issues of 20000 prices\tcheck\t%s\n' "$room/issues"
    printf 'and a comment up to %d bytes\tcheck\t%s\n' "$limit" "$room/comment"
    printf 'and tables up to %d bytes\tcheck\t%s\n' "$limit" "$room/tables"
} >"$room/workloads"
python3 "$top/bench/side_by_side.py" "$room" "${RUNS:-25}" first "$top/out/market" ${1+"$(readlink -f "$1")"}
