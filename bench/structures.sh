#!/usr/bin/env bash
# Measures the lists and the sums that a book stands on: a million pushes of items of 40 bytes, as orders are, to 40,000 lists
# and as many unlinks from them by order_list, and a million each of additions, reads and searches on 20,000 positions by depth_index. Beside them plain Rust
# does the same: lists in one Vec of nodes with links of 32 bits and a list of free nodes, and a Fenwick tree.
# Usage: bench/structures.sh
#
# It prints nanoseconds of processor time an operation, the best of RUNS runs (7 where the environment does not say), in
# which the programs take turns, and the ratio to plain Rust. From each row the time of a run that only makes the numbers
# and the structure is taken off, of that program and of what comes before the row's operations. The Rattle program is
# proved and built in a temporary repository with copies of the two crates, which are proved anew where their out/ has no
# library.
top=$(cd "$(dirname "$0")/.." && pwd) || exit 2
for tool in rt rustc python3; do
    command -v "$tool" >/dev/null || { echo "structures: this needs $tool, which is not on the PATH" >&2; exit 2; }
done
room=$(mktemp -d) || exit 2
trap 'rm -rf "$room"' EXIT
trap 'exit 130' INT
trap 'exit 143' TERM

for crate in depth_index order_list; do
    mkdir -p "$room/crates/$crate"
    for part in src specs proofs out/rlib; do
        if [ -d "$top/crates/$crate/$part" ]; then
            mkdir -p "$room/crates/$crate/$part"
            cp -a "$top/crates/$crate/$part/." "$room/crates/$crate/$part"
        fi
    done
    sed 's/#.*//' "$top/crates.txt" | awk -F: -v crate="$crate" '{ split($1, words, " ") } words[1] == crate' >>"$room/crates.txt"
done
echo "structures: depth_index order_list" >>"$room/crates.txt"
mkdir -p "$room/crates/structures/src" "$room/crates/structures/proofs"

cat >"$room/crates/structures/src/main.rt" <<'RT'
//! A million operations on lists or on sums, as the first word says; with no word the numbers alone.
#![tactic(auto)]

ghost use Rattle.std.specs.Prelude.{◌≡◌, ◌+◌, ◌*◌, ◌<◌, ◌≤◌, length, sum};

use depth_index::{DepthIndex, Steps};
use order_list::OrderList;
use std::alloc::Global;
use std::env;
use std::io;
use std::marker::Brand;
use std::sync::ledger::{Blank, Ledger};

const COUNT: u32 = 1_000_000;

// As large as an order.
#[derive(Clone, Copy)]
struct Item {
    place: u64,
    spot: u64,
    left: u64,
    caller: u64,
    own: u64,
}

#[derive(Clone, Copy)]
enum Work {
    Numbers,
    Pushes,
    Unlinks,
    Made,
    Adds,
    Reads,
    Searches,
}

fn work_of(word: &str) -> Work {
    match word {
        "pushes" => Work::Pushes,
        "unlinks" => Work::Unlinks,
        "made" => Work::Made,
        "adds" => Work::Adds,
        "reads" => Work::Reads,
        "searches" => Work::Searches,
        _ => Work::Numbers,
    }
}

fn main(rt: HostRuntime) -> io::Result<()> {
    let mut words = env::args(&rt)?;
    let _program = words.next();
    let work = match words.next() {
        Some(word) => work_of(word.as_str()),
        None => Work::Numbers,
    };
    let mark = mark_of::<Brand>(rt.alloc(), Blank::new(1), work);
    println!(rt; "{mark}")
}

fn mark_of<L: Ledger>(alloc: Global, blank: Blank, work: Work) -> u64
    requires name { blank.name ≡ L.name }
    requires parts { blank.parts ≡ L.parts }
    requires some { 0 < blank.parts }
{
    match work {
        Work::Numbers => numbers(),
        Work::Pushes => on_lists(alloc, false),
        Work::Unlinks => on_lists(alloc, true),
        Work::Made | Work::Adds | Work::Reads | Work::Searches => on_sums::<L>(alloc, Steps::new(blank), work),
    }
}

fn on_sums<L: Ledger>(alloc: Global, steps: Steps<L>, work: Work) -> u64 {
    let mut steps = steps;
    let Ok(mut index) = DepthIndex::make(alloc, 20_000) else {
        return 0;
    };
    if let Work::Made = work {
        return index.at(19_999);
    }
    let total = add_all(&mut index);
    match work {
        Work::Reads => read_all(&index, &mut steps),
        Work::Searches => search_all(&index, total, &mut steps),
        _ => index.at(7),
    }
}

fn on_lists(alloc: Global, takes: bool) -> u64 {
    let Ok(mut lists) = OrderList::<Item>::make(alloc, 40_000) else {
        return 0;
    };
    let Ok(()) = lists.reserve(alloc, COUNT) else {
        return 0;
    };
    push_all(&mut lists);
    if takes { take_all(&mut lists) } else { 0 }
}

fn push_all(lists: &mut OrderList<Item>)
    requires size { length lists.old.lists ≡ 40000 }
    requires room { 1000000 ≤ lists.old.spare }
    ensures { length lists.new.lists ≡ 40000 }
{
    let mut state = 1;
    for _place in 0..COUNT {
        state = next_state(state);
        let random = state >> 33;
        let item = Item {
            place: random,
            spot: 1,
            left: 2,
            caller: 3,
            own: 4,
        };
        lists.push_back((random % 40_000) as u32, item);
    }
}

fn take_all(lists: &mut OrderList<Item>) -> u64
    requires { length lists.old.lists ≡ 40000 }
{
    let mut state = 5;
    let mut mark = 0;
    for _place in 0..COUNT {
        state = next_state(state);
        mark = mark ^ take_second(lists, ((state >> 33) % 40_000) as u32);
    }
    mark
}

// Takes the second item of a list, or the first where it has only one.
fn take_second(lists: &mut OrderList<Item>, list: u32) -> u64
    requires { list < length lists.old.lists }
    ensures { length lists.new.lists ≡ length lists.old.lists }
{
    let Some(first) = lists.front(list) else {
        return 0;
    };
    match lists.next(first) {
        Some(second) => lists.unlink(second).place,
        None => lists.unlink(first).place,
    }
}

fn add_all(index: &mut DepthIndex) -> u64
    requires size { length index.old ≡ 20000 }
    requires empty { sum index.old ≡ 0 }
    ensures { length index.new ≡ 20000 }
{
    let mut state = 1;
    let mut total = 0u64;
    for _place in 0..COUNT {
        state = next_state(state);
        let random = state >> 33;
        index.add((random % 20_000) as u32, random % 100);
        total = total.wrapping_add(random % 100);
    }
    total
}

fn read_all<L: Ledger>(index: &DepthIndex, steps: &mut Steps<L>) -> u64
    requires { length index.now ≡ 20000 }
{
    let mut state = 3;
    let mut mark = 0;
    for _place in 0..COUNT {
        state = next_state(state);
        mark = mark ^ index.upto(((state >> 33) % 20_000) as u32, steps);
    }
    mark
}

fn search_all<L: Ledger>(index: &DepthIndex, total: u64, steps: &mut Steps<L>) -> u64 {
    let mut state = 3;
    let mut mark = 0;
    for _place in 0..COUNT {
        state = next_state(state);
        let least = if total == 0 { 0 } else { (state >> 33) % total };
        mark = mark ^ u64::from(index.find_first(least, steps).unwrap_or(0));
    }
    mark
}

fn numbers() -> u64 {
    let mut state = 1;
    let mut mark = 0;
    for _place in 0..COUNT {
        state = next_state(state);
        mark = mark ^ (state >> 33) % 20_000;
    }
    mark
}

fn next_state(state: u64) -> u64 {
    state
        .wrapping_mul(6_364_136_223_846_793_005)
        .wrapping_add(1_442_695_040_888_963_407)
}
RT

mkdir -p "$room/crates/structures/proofs"/{main,push_all,take_all,take_second,add_all}
cat >"$room/crates/structures/proofs/main/Invariants.antt" <<'ANTT'
use Rattle.structures.proofs.main.Given as goal

abbrev pub ghosts-mark_of : goal.ghosts-mark_of
ghosts-mark_of a = record { name = a.blank.name; parts = a.blank.parts }
ANTT
cat >"$room/crates/structures/proofs/push_all/Invariants.antt" <<'ANTT'
use Rattle.std.proofs.Common.{◌≡◌, ◌+◌, ◌≤◌, length}
use Rattle.structures.proofs.push_all.Given as goal

abbrev pub invariant-loop-place : goal.invariant-loop-place
invariant-loop-place l = record { size : length l.lists.lists ≡ 40000; room : 1000000 ≤ l.lists.spare + l._place }
ANTT
cat >"$room/crates/structures/proofs/take_all/Invariants.antt" <<'ANTT'
use Rattle.std.proofs.Common.{◌≡◌, length}
use Rattle.structures.proofs.take_all.Given as goal

abbrev pub invariant-loop-place : goal.invariant-loop-place
invariant-loop-place l = length l.lists.lists ≡ 40000
ANTT
cat >"$room/crates/structures/proofs/take_second/Answers.antt" <<'ANTT'
use Rattle.structures.proofs.take_second.Goals as goal

pub unlink-requires : goal.unlink-requires
unlink-requires c =
    let first = c.in-Some.ensures.live in
    let second = c.in-Some-next.ensures.live c.args.list first.0 first.1 in
    (c.args.list, second.0, second.1)
ANTT
cat >"$room/crates/structures/proofs/add_all/Invariants.antt" <<'ANTT'
use Rattle.std.proofs.Common.{◌≡◌, ◌*◌, ◌≤◌, length, sum}
use Rattle.structures.proofs.add_all.Given as goal

abbrev pub invariant-loop-place : goal.invariant-loop-place
invariant-loop-place l = record { size : length l.index ≡ 20000; small : sum l.index ≤ 100 * l._place }
ANTT

cat >"$room/plain.rs" <<'RS'
//! The same with plain Rust.
const COUNT: u32 = 1_000_000;
const NONE: u32 = u32::MAX;

#[derive(Clone, Copy)]
#[allow(dead_code)]
struct Item {
    place: u64,
    spot: u64,
    left: u64,
    caller: u64,
    own: u64,
}

struct Node {
    list: u32,
    before: u32,
    after: u32,
    item: Item,
}

struct Lists {
    nodes: Vec<Node>,
    free: u32,
    ends: Vec<(u32, u32)>,
}

impl Lists {
    fn push_back(&mut self, list: u32, item: Item) -> u32 {
        let before = self.ends[list as usize].1;
        let node = Node { list, before, after: NONE, item };
        let key = if self.free == NONE {
            self.nodes.push(node);
            self.nodes.len() as u32 - 1
        } else {
            let key = self.free;
            self.free = self.nodes[key as usize].after;
            self.nodes[key as usize] = node;
            key
        };
        if before == NONE {
            self.ends[list as usize].0 = key;
        } else {
            self.nodes[before as usize].after = key;
        }
        self.ends[list as usize].1 = key;
        key
    }

    fn unlink(&mut self, key: u32) -> Item {
        let Node { list, before, after, item } = self.nodes[key as usize];
        if before == NONE {
            self.ends[list as usize].0 = after;
        } else {
            self.nodes[before as usize].after = after;
        }
        if after == NONE {
            self.ends[list as usize].1 = before;
        } else {
            self.nodes[after as usize].before = before;
        }
        self.nodes[key as usize].after = self.free;
        self.free = key;
        item
    }
}

struct Sums {
    sums: Vec<u64>,
}

impl Sums {
    fn add(&mut self, i: usize, qty: u64) {
        let mut at = i + 1;
        while at < self.sums.len() {
            self.sums[at] += qty;
            at += at & at.wrapping_neg();
        }
    }

    fn upto(&self, i: usize) -> u64 {
        let mut at = i + 1;
        let mut sum = 0;
        while at > 0 {
            sum += self.sums[at];
            at &= at - 1;
        }
        sum
    }

    fn find_first(&self, mut least: u64) -> Option<usize> {
        let mut at = 0;
        let mut step = 1 << (usize::BITS - 1 - self.sums.len().leading_zeros());
        while step > 0 {
            if at + step < self.sums.len() && self.sums[at + step] < least {
                at += step;
                least -= self.sums[at];
            }
            step /= 2;
        }
        (at + 1 < self.sums.len()).then_some(at)
    }
}

fn next_state(state: u64) -> u64 {
    state.wrapping_mul(6_364_136_223_846_793_005).wrapping_add(1_442_695_040_888_963_407)
}

fn each(mut state: u64, mut with: impl FnMut(u64)) {
    for _ in 0..COUNT {
        state = next_state(state);
        with(state >> 33);
    }
}

fn on_lists(takes: bool) -> u64 {
    let mut lists = Lists { nodes: Vec::with_capacity(COUNT as usize), free: NONE, ends: vec![(NONE, NONE); 40_000] };
    each(1, |random| {
        let item = Item { place: random, spot: 1, left: 2, caller: 3, own: 4 };
        lists.push_back((random % 40_000) as u32, item);
    });
    let mut mark = 0;
    if takes {
        each(5, |random| {
            let first = lists.ends[(random % 40_000) as usize].0;
            if first != NONE {
                let second = lists.nodes[first as usize].after;
                mark ^= lists.unlink(if second == NONE { first } else { second }).place;
            }
        });
    }
    mark
}

fn main() {
    let word = std::env::args().nth(1).unwrap_or_default();
    let mut mark = 0;
    match word.as_str() {
        "" => each(1, |random| mark ^= random % 20_000),
        "pushes" => mark = on_lists(false),
        "unlinks" => mark = on_lists(true),
        _ => {
            let mut sums = Sums { sums: vec![0; 20_001] };
            let mut total = 0;
            if word != "made" {
                each(1, |random| {
                    sums.add((random % 20_000) as usize, random % 100);
                    total += random % 100;
                });
            }
            match word.as_str() {
                "made" => mark = sums.upto(19_999) - sums.upto(19_998),
                "reads" => each(3, |random| mark ^= sums.upto((random % 20_000) as usize)),
                "searches" => each(3, |random| mark ^= sums.find_first(random % total).unwrap_or(0) as u64),
                _ => mark = sums.upto(7) - sums.upto(6),
            }
        }
    }
    println!("{mark}");
}
RS

# (the program's own status is rt's then, and it is 0)
(cd "$room/crates/structures" && rt run) >"$room/log" 2>&1 || {
    tail -n 15 "$room/log" >&2
    echo "structures: the program was not proved and built" >&2
    exit 2
}
rustc -O -o "$room/plain" "$room/plain.rs" || exit 2

cat >"$room/run.py" <<'PY'
import os, subprocess, sys

runs, ours, plain = int(sys.argv[1]), sys.argv[2], sys.argv[3]
COUNT = 1_000_000
# each row, with the run that it goes on from
ROWS = {"pushes": "", "unlinks": "pushes", "adds": "made", "reads": "adds", "searches": "adds"}


def run(words):
    """Runs a program, and returns what it prints and its processor time in nanoseconds an operation."""
    with subprocess.Popen([word for word in words if word], stdout=subprocess.PIPE) as made:
        text = made.stdout.read()
        _, status, used = os.wait4(made.pid, 0)
        made.returncode = status
    if status:
        sys.exit(f"structures: {' '.join(words)} ended with status {status}")
    return text, 1e9 * (used.ru_utime + used.ru_stime) / COUNT


words = ["", "made", *ROWS]
texts, times = {}, {(program, word): [] for program in (ours, plain) for word in words}
for _ in range(runs):
    for word in words:
        for program in (ours, plain):
            texts[program, word], time = run([program, word])
            times[program, word].append(time)
for word in words:
    if texts[ours, word] != texts[plain, word]:
        sys.exit(f"structures: the programs do not do the same with '{word}': {texts}")
best = {key: min(own) for key, own in times.items()}
print(f"{'ns an operation, best of %d' % runs:<30}{'Rattle':>8}{'Rust':>8}{'ratio':>8}")
for word, before in ROWS.items():
    mine, other = (best[program, word] - best[program, before] for program in (ours, plain))
    print(f"{word:<30}{mine:8.2f}{other:8.2f}{mine / other:8.2f}")
PY
python3 "$room/run.py" "${RUNS:-7}" "$room/crates/structures/out/structures" "$room/plain"
