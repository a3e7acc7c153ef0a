#!/usr/bin/env bash
# Measures what it costs to print a number: 3,000,000 numbers of 1 to 9 digits, one a line, through mkt_io's Printer
# into a sink that counts the bytes. Beside it plain Rust does the same in two ways: with a digit loop into a block of
# 4,096 bytes that is emptied when it is full, and with write! into a BufWriter of that size.
# Usage: bench/numbers.sh
#
# It prints nanoseconds of processor time a number, the best of RUNS runs (7 where the environment does not say), in
# which the programs take turns, and the ratios to the digit loop. The rows "made" are the cost of making the numbers
# alone, which is in the others too; "net" is without it. The Rattle program is proved and built in a temporary
# repository with copies of mkt_io and of what it stands on, which are proved anew where their out/ has no library.
top=$(cd "$(dirname "$0")/.." && pwd) || exit 2
for tool in rt rustc python3; do
    command -v "$tool" >/dev/null || { echo "numbers: this needs $tool, which is not on the PATH" >&2; exit 2; }
done
room=$(mktemp -d) || exit 2
trap 'rm -rf "$room"' EXIT
trap 'exit 130' INT
trap 'exit 143' TERM

# Copies a crate of the repository and those that it stands on, with their lines of crates.txt and built libraries.
copy_crate() {
    local line used part
    [ -e "$room/crates/$1" ] && return
    mkdir -p "$room/crates/$1"
    for part in src specs proofs out/rlib; do
        if [ -d "$top/crates/$1/$part" ]; then
            mkdir -p "$room/crates/$1/$part"
            cp -a "$top/crates/$1/$part/." "$room/crates/$1/$part"
        fi
    done
    line=$(sed 's/#.*//' "$top/crates.txt" | awk -F: -v crate="$1" '{ split($1, words, " ") } words[1] == crate')
    echo "$line" >>"$room/crates.txt"
    used=${line#*:}
    for used in ${used//,/ }; do
        if [ -d "$top/crates/$used" ]; then
            copy_crate "$used"
        fi
    done
}

copy_crate mkt_io
echo "numbers: mkt_io" >>"$room/crates.txt"
mkdir -p "$room/crates/numbers/src"

cat >"$room/crates/numbers/src/main.rt" <<'RT'
//! Prints 3,000,000 numbers into a sink that counts their bytes. With a word it only makes them.
#![tactic(auto)]

ghost use Rattle.std.specs.Prelude.{None};

use mkt_io::{Failed, Printer, Sink};
use std::env;
use std::io;

const COUNT: u64 = 3_000_000;

fn main(rt: HostRuntime) -> io::Result<()> {
    let only_makes = match env::args(&rt) {
        Ok(args) => args.count() > 1,
        Err(_) => false,
    };
    if only_makes {
        let mark = mark_all();
        println!(rt; "{mark}")?;
        return Ok(());
    }
    let mut sink = Counter {
        bytes: 0,
        mark: 0,
        faults: 0,
    };
    let mut printer = Printer::new(&mut sink);
    print_all(&mut printer);
    let is_whole = printer.finish().is_ok();
    let bytes = sink.bytes;
    println!(rt; "{bytes} {is_whole}")?;
    Ok(())
}

fn print_all<O: Sink>(printer: &mut Printer<'_, O>) {
    let mut state = 1;
    for place in 0..COUNT {
        state = next_state(state);
        printer.number(number_of(state, place));
        printer.line_end();
    }
}

fn mark_all() -> u64 {
    let mut state = 1;
    let mut mark = 0;
    for place in 0..COUNT {
        state = next_state(state);
        mark = mark ^ number_of(state, place);
    }
    mark
}

fn next_state(state: u64) -> u64 {
    state
        .wrapping_mul(6_364_136_223_846_793_005)
        .wrapping_add(1_442_695_040_888_963_407)
}

// A number of 1 to 9 digits, one after the other.
fn number_of(state: u64, place: u64) -> u64 {
    let random = state >> 33;
    match place % 9 {
        0 => random % 10,
        1 => random % 100,
        2 => random % 1_000,
        3 => random % 10_000,
        4 => random % 100_000,
        5 => random % 1_000_000,
        6 => random % 10_000_000,
        7 => random % 100_000_000,
        _ => random % 1_000_000_000,
    }
}

// Counts the bytes, and looks at one of each piece.
#[derive(Drop)]
struct Counter {
    bytes: u64,
    mark: u8,
    faults: u64,
}

impl Sink for Counter {
    ghost contents = { λ _. None };

    ghost faults = { λ s. s.faults };

    fn write(&mut self, piece: &[u8]) -> Result<usize, Failed> {
        self.bytes = self.bytes.wrapping_add(piece.len() as u64);
        self.mark = self.mark ^ piece[0];
        Ok(piece.len())
    }
}
RT

cat >"$room/plain.rs" <<'RS'
//! The same numbers with plain Rust: by a digit loop ("loop"), by write! ("write"), or only made ("made").
use std::hint::black_box;
use std::io::{BufWriter, Write};

const COUNT: u64 = 3_000_000;
const BLOCK: usize = 4096;

#[derive(Default)]
struct Counter {
    bytes: u64,
    mark: u8,
}

impl Write for Counter {
    fn write(&mut self, piece: &[u8]) -> std::io::Result<usize> {
        self.bytes = self.bytes.wrapping_add(piece.len() as u64);
        self.mark ^= black_box(piece)[0];
        Ok(piece.len())
    }

    fn flush(&mut self) -> std::io::Result<()> {
        Ok(())
    }
}

struct Plain {
    block: [u8; BLOCK],
    used: usize,
    sink: Counter,
}

impl Plain {
    fn line(&mut self, mut n: u64) {
        let mut text = [0; 21];
        let mut start = text.len() - 1;
        text[start] = b'\n';
        loop {
            start -= 1;
            text[start] = b'0' + (n % 10) as u8;
            n /= 10;
            if n == 0 {
                break;
            }
        }
        let text = &text[start..];
        if self.used + text.len() > BLOCK {
            self.empty();
        }
        self.block[self.used..self.used + text.len()].copy_from_slice(text);
        self.used += text.len();
    }

    fn empty(&mut self) {
        if self.used > 0 {
            self.sink.write_all(&self.block[..self.used]).unwrap();
        }
        self.used = 0;
    }
}

fn next_state(state: u64) -> u64 {
    state.wrapping_mul(6_364_136_223_846_793_005).wrapping_add(1_442_695_040_888_963_407)
}

fn number_of(state: u64, place: u64) -> u64 {
    let random = state >> 33;
    match place % 9 {
        0 => random % 10,
        1 => random % 100,
        2 => random % 1_000,
        3 => random % 10_000,
        4 => random % 100_000,
        5 => random % 1_000_000,
        6 => random % 10_000_000,
        7 => random % 100_000_000,
        _ => random % 1_000_000_000,
    }
}

fn each(mut with: impl FnMut(u64)) {
    let mut state = 1;
    for place in 0..COUNT {
        state = next_state(state);
        with(number_of(state, place));
    }
}

fn main() {
    match std::env::args().nth(1).as_deref() {
        Some("loop") => {
            let mut plain = Plain { block: [0; BLOCK], used: 0, sink: Counter::default() };
            each(|n| plain.line(n));
            plain.empty();
            println!("{} true", plain.sink.bytes);
        }
        Some("write") => {
            let mut out = BufWriter::with_capacity(BLOCK, Counter::default());
            each(|n| writeln!(out, "{n}").unwrap());
            let is_whole = out.flush().is_ok();
            println!("{} {is_whole}", out.get_ref().bytes);
        }
        _ => {
            let mut mark = 0;
            each(|n| mark ^= n);
            println!("{mark}");
        }
    }
}
RS

# (the program's own status is rt's then, and it is 0)
(cd "$room/crates/numbers" && rt run) >"$room/log" 2>&1 || {
    tail -n 15 "$room/log" >&2
    echo "numbers: the program was not proved and built" >&2
    exit 2
}
rustc -O -o "$room/plain" "$room/plain.rs" || exit 2

cat >"$room/run.py" <<'PY'
import os, subprocess, sys

runs, ours, plain = int(sys.argv[1]), sys.argv[2], sys.argv[3]
COUNT = 3_000_000
ROWS = {
    "Printer": [ours],
    "digit loop": [plain, "loop"],
    "write!": [plain, "write"],
    "made, Rattle": [ours, "made"],
    "made, Rust": [plain, "made"],
}


def run(words):
    """Runs a program, and returns what it prints and its processor time in nanoseconds a number."""
    with subprocess.Popen(words, stdout=subprocess.PIPE) as made:
        text = made.stdout.read()
        _, status, used = os.wait4(made.pid, 0)
        made.returncode = status
    if status:
        sys.exit(f"numbers: {' '.join(words)} ended with status {status}")
    return text, 1e9 * (used.ru_utime + used.ru_stime) / COUNT


texts, times = {}, {name: [] for name in ROWS}
for _ in range(runs):
    for name, words in ROWS.items():
        texts[name], time = run(words)
        times[name].append(time)
best = {name: min(own) for name, own in times.items()}
printing = ["Printer", "digit loop", "write!"]
for names in (printing, ["made, Rattle", "made, Rust"]):
    if len({texts[name] for name in names}) > 1:
        sys.exit(f"numbers: the programs do not do the same: {texts}")
net = {name: best[name] - best["made, Rattle" if name == "Printer" else "made, Rust"] for name in printing}
print(f"{'ns a number, best of %d' % runs:<24}{'time':>8}{'ratio':>8}{'net':>8}{'ratio':>8}")
for name in printing:
    ratio, net_ratio = best[name] / best["digit loop"], net[name] / net["digit loop"]
    print(f"{name:<24}{best[name]:8.2f}{ratio:8.2f}{net[name]:8.2f}{net_ratio:8.2f}")
for name in ("made, Rattle", "made, Rust"):
    print(f"{name:<24}{best[name]:8.2f}")
PY
python3 "$room/run.py" "${RUNS:-7}" "$room/crates/numbers/out/numbers" "$room/plain"
