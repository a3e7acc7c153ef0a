#!/usr/bin/env bash
# Prints what the gate costs, as a Markdown table: for each crate its lines (.rt and .antt) and the processor minutes of
# its proof, of its tests' proof and run, and of its must-fail edits, with a row of sums.
# Usage: bench/minutes.sh [CRATE..]     with names: only their rows
#
# All is measured from nothing, in a temporary clone of what is committed, one crate after the other and one job at a
# time, as user and system time of all processes of these commands:
#   proof   `rt lib`; of the program `rt check`, and `rt run` by both compilers, which runs it with no words
#   tests   `rt test`, with nothing kept of the proof
#   edits   `rt must-fail NAME`, as the gate does it: a check for the first edit, then each edit over the work of those
#           before it, and a last check of the crate as it is
# The gate, `rt ci`, differs in this: it writes no kept work (out/incremental), which costs some time here; it loads the
# statements alone of the libraries below a crate, where these commands have their proofs at hand; it gives processors
# that are idle to a check as further jobs, which need more time in all; and it checks the layout. A crate with no tests
# or no edits has 0 there, as in the gate. On a machine that does other work beside, the numbers are somewhat too high.
top=$(cd "$(dirname "$0")/.." && pwd) || exit 2
for tool in rt git; do
    command -v "$tool" >/dev/null || { echo "minutes: this needs $tool, which is not on the PATH" >&2; exit 2; }
done
room=$(mktemp -d) || exit 2
trap 'rm -rf "$room"' EXIT
trap 'exit 130' INT
trap 'exit 143' TERM
log=$room/log
git clone -q "$top" "$room/clone" || exit 2
cd "$room/clone" || exit 2

# The names in crates.txt, in its order.
crates() {
    sed 's/#.*//; s/:.*//' crates.txt | awk 'NF { print $1 }'
}

# What a crate stands on of this repository.
libraries_of() {
    local names name
    names=$(sed 's/#.*//; s/,/ /g' crates.txt |
        awk -F: -v crate="$1" '{ split($1, words, " ") } words[1] == crate { print $2 }')
    for name in $names; do
        if [ -d "crates/$name" ]; then
            echo "$name"
        fi
    done
}

fail() {
    tail -n 15 "$log" >&2
    echo "minutes: $1" >&2
    exit 1
}

# Runs a command in a folder and sets `spent` to the processor time of all its processes, in milliseconds, and `status`.
spent=0
measure() { # FOLDER COMMAND..
    local TIMEFORMAT='%3U %3S' user system folder=$1
    shift
    { time (cd "$folder" && "$@" </dev/null >"$log" 2>&1); } 2>"$room/time"
    status=$?
    read -r user system <"$room/time"
    spent=$((10#${user/./} + 10#${system/./}))
}

# Has the libraries that a crate names stand there built, with nothing measured.
build_libraries() {
    local name
    for name in $(libraries_of "$1"); do
        (cd "crates/$name" && rt lib --jobs 1 >"$log" 2>&1) || fail "$name is not proved"
    done
}

# Each of these sets `spent`.

measure_proof() {
    local folder=crates/$1 sum backend
    if [ ! -e "$folder/src/main.rt" ]; then
        measure "$folder" rt lib --jobs 1
        [ $status = 0 ] || fail "$1 is not proved"
        return
    fi
    measure "$folder" rt check --jobs 1
    [ $status = 0 ] || fail "$1 is not proved"
    sum=$spent
    for backend in llvm rattle; do
        measure "$folder" rt run --jobs 1 --backend "$backend" # (its status is the program's own)
        sum=$((sum + spent))
    done
    spent=$sum
}

measure_tests() {
    spent=0
    grep -rqE '#[[:space:]]*\[[[:space:]]*test' "crates/$1/src" || return
    rm -rf "crates/$1/out/incremental"
    measure "crates/$1" rt test --jobs 1
    [ $status = 0 ] || fail "the tests of $1 do not pass"
}

measure_edits() {
    spent=0
    compgen -G "crates/$1/must-fail/*.edit" >/dev/null || return
    measure . rt must-fail "$1"
    [ $status = 0 ] || fail "an edit of $1 is not refused"
}

minutes() {
    awk -v ms="$1" 'BEGIN { printf "%.1f", ms / 60000 }'
}

lines_sum=0 proof_sum=0 tests_sum=0 edits_sum=0
print_row() { # NAME LINES PROOF TESTS EDITS
    echo "| $1 | $2 | $(minutes "$3") | $(minutes "$4") | $(minutes "$5") | $(minutes $(($3 + $4 + $5))) |"
}

for name in "$@"; do
    crates | grep -qx -- "$name" || { echo "minutes: crates.txt has no line of $name" >&2; exit 2; }
done
echo "| Crate | Lines | Proof | Tests | Edits | All |"
echo "|---|---|---|---|---|---|"
for name in $(crates); do
    [ $# = 0 ] || [[ " $* " == *" $name "* ]] || continue
    build_libraries "$name"
    rm -rf "crates/$name/out"
    lines=$(find "crates/$name" \( -name '*.rt' -o -name '*.antt' \) -exec cat {} + | wc -l)
    measure_proof "$name"
    proof=$spent
    measure_tests "$name"
    tests=$spent
    measure_edits "$name"
    edits=$spent
    rm -rf "crates/$name/out/incremental" # (it is large, and only the crate itself reads it)
    print_row "$name" "$lines" "$proof" "$tests" "$edits"
    lines_sum=$((lines_sum + lines)) proof_sum=$((proof_sum + proof))
    tests_sum=$((tests_sum + tests)) edits_sum=$((edits_sum + edits))
done
print_row "All" $lines_sum $proof_sum $tests_sum $edits_sum
echo
awk -v ms=$((proof_sum + tests_sum + edits_sum)) -v lines=$lines_sum \
    'BEGIN { printf "Times are processor minutes. In all %.2f processor seconds a line.\n", ms / 1000 / lines }'
