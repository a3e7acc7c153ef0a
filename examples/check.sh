#!/usr/bin/env bash
# Holds the auction of each example of one, checks each rules file, replays each day, and compares what is written with what
# is expected: standard output and standard error together. Each stored report of a day is audited, and `yes` is expected; so is what
# each day's gateways report that do their lines side by side, which may differ from one time to the next.
# Ends with status 1 where one differs.
examples=$(cd "$(dirname "$0")" && pwd) || exit 2
differing=0
compare() { # EXPECTED WORD..
    local expected=$1
    shift
    if diff <("$examples/../market" "$@" 2>&1) "$examples/$expected"; then
        echo "ok $expected"
    else
        echo "differs $expected"
        differing=1
    fi
}
audit() { # REPORT NAME
    if diff <("$examples/../market" audit "$examples/day/rules.toml" "$1" 2>&1) <(echo yes); then
        echo "ok audit of $2"
    else
        echo "differs audit of $2"
        differing=1
    fi
}
made=$(mktemp) || exit 2
trap 'rm -f "$made"' EXIT
for file in "$examples"/*.auction; do
    compare "$(basename "$file" .auction).expected" auction "$file"
done
for file in "$examples"/*.toml; do
    compare "$(basename "$file" .toml).expected" check "$file"
done
for file in "$examples"/day/*.txt; do
    compare "day/$(basename "$file" .txt).report" replay "$examples/day/rules.toml" "$file"
done
for file in "$examples"/day/*.report; do
    audit "$file" "day/$(basename "$file")"
done
for file in "$examples"/day/*.txt; do
    "$examples/../market" run "$examples/day/rules.toml" "$file" >"$made" || differing=1
    audit "$made" "a run of day/$(basename "$file")"
done
exit $differing
