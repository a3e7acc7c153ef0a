#!/usr/bin/env bash
# Measures what a turn costs: a million turns in all, by 2, 4 and 16 callers in threads of their own, on one turn cell.
# Beside it plain Rust does the same by a ticket lock that waits as the cell does, and by a pthread mutex.
# Usage: bench/turns.sh
#
# It prints microseconds a turn by the clock and of processor time, the middle one of RUNS runs (9 where the environment does
# not say), in which the programs take turns, the ratios to the plain ticket lock, and the machine's load. All callers begin
# at once. A turn adds 1 to a number, so nearly all of it is the lock. On a machine that does other work the times of both
# ticket locks are those of the scheduler: a ticket is fair, and waits for a thread that does not run. The Rattle program is proved and built in a temporary repository with copies of
# turn_cell and of what it stands on, which are proved anew where their out/ has no library.
top=$(cd "$(dirname "$0")/.." && pwd) || exit 2
for tool in rt rustc python3; do
    command -v "$tool" >/dev/null || { echo "turns: this needs $tool, which is not on the PATH" >&2; exit 2; }
done
room=$(mktemp -d) || exit 2
trap 'rm -rf "$room"' EXIT
trap 'exit 130' INT
trap 'exit 143' TERM

# Copies a crate of the repository and those that it stands on, with their lines of crates.txt and built libraries.
copy_crate() {
    local line used part
    [ -e "$room/crates/$1" ] && return
    mkdir -p "$room/crates/$1"
    for part in src specs proofs out/rlib; do
        if [ -d "$top/crates/$1/$part" ]; then
            mkdir -p "$room/crates/$1/$part"
            cp -a "$top/crates/$1/$part/." "$room/crates/$1/$part"
        fi
    done
    line=$(sed 's/#.*//' "$top/crates.txt" | awk -F: -v crate="$1" '{ split($1, words, " ") } words[1] == crate')
    echo "$line" >>"$room/crates.txt"
    used=${line#*:}
    for used in ${used//,/ }; do
        if [ -d "$top/crates/$used" ]; then
            copy_crate "$used"
        fi
    done
}

copy_crate turn_cell
cp "$top/HANDLES" "$room/HANDLES"
echo "turns: mkt_base turn_cell" >>"$room/crates.txt"
measures="$room/crates/turns/proofs/+fn-run_all-join+arg2+run_all"
mkdir -p "$room/crates/turns/src" "$room/crates/turns/proofs/take_turns" "$measures"

cat >"$room/crates/turns/src/main.rt" <<'RT'
//! So many callers take so many turns in all on one cell, each in a thread of its own, once all threads have begun. A turn
//! counts.
#![tactic(auto)]

ghost use Rattle.std.specs.Prelude.{◌≡◌, ◌+◌, ◌<◌, [], None, length};
ghost use Rattle.std.specs.Thread.{IsSync};

use mkt_base::Halt;
use std::alloc::Global;
use std::sync::{Barrier, Wait};
use std::thread::{Threads, join};
use std::{env, io};
use turn_cell::{Pass, TurnCell, TurnValue};

#[derive(Drop)]
struct Counter {
    count: u64,
}

impl TurnValue for Counter {
    type Fixed = ();

    ghost entries = { λ _. [] };

    ghost halt = { λ _. None };

    ghost fixed = { λ _. tt };

    fn length(&self) -> u64 {
        0
    }

    fn halted(&self) -> Option<Halt> {
        None
    }
}

fn take_turns<R: Wait>(
    rt: &R,
    cell: &TurnCell<Counter>,
    mut pass: Pass<Counter>,
    start: &Barrier,
    turns: u32,
) -> Pass<Counter>
    requires { pass.cell ≡ cell.now }
    ensures { (result.cell ≡ pass.cell) × (result.callers ≡ pass.callers) × (result.block ≡ pass.block) × (result.met ≡ pass.met) }
{
    start.wait(rt);
    for _ in 0..turns {
        let mut turn = cell.enter(rt, pass);
        let counter = turn.value();
        counter.count = counter.count.wrapping_add(1);
        pass = cell.leave(turn);
    }
    pass
}

fn run_all<R: Threads + Wait + Sync>(
    rt: &R,
    cell: &TurnCell<Counter>,
    mut pass: Pass<Counter>,
    start: &Barrier,
    turns: u32,
) -> Pass<Counter>
    requires { pass.cell ≡ cell.now }
    ensures cell { result.cell ≡ pass.cell }
    ensures all_back { (result.callers ≡ pass.callers) × (result.block ≡ 0) × (length result.met ≡ length pass.met + pass.block) }
{
    if pass.block() == 0 {
        return take_turns(rt, cell, pass, start, turns);
    }
    let other = cell.split(&mut pass);
    let (mut rest, ended) = join(
        rt,
        move || -> Pass<Counter>
            requires { IsSync R.row × (pass.cell ≡ cell.now) }
            ensures { (result.cell ≡ pass.cell) × (result.callers ≡ pass.callers) × (result.block ≡ 0) × (length result.met ≡ length pass.met + pass.block) }
        { run_all(rt, cell, pass, start, turns) },
        move || -> Pass<Counter>
            requires { other.cell ≡ cell.now }
            ensures { (result.cell ≡ other.cell) × (result.block ≡ other.block) × (result.met ≡ other.met) }
        { take_turns(rt, cell, other, start, turns) },
    );
    cell.meet(&mut rest, ended);
    rest
}

fn count_all<R: Threads + Wait + Sync>(
    rt: &R,
    alloc: Global,
    callers: u16,
    turns: u32,
) -> Option<Counter>
    requires { 0 < callers }
{
    let (cell, pass) = TurnCell::make(alloc, Counter { count: 0 }, callers).ok()?;
    let start = Barrier::new(usize::from(callers));
    let pass = run_all(rt, &cell, pass, &start, turns);
    Some(cell.close(pass))
}

fn number_of(text: Option<String>) -> Option<u32> {
    text?.as_str().parse::<u32>().ok()
}

fn main(rt: HostRuntime) -> io::Result<()> {
    let args = env::args(&rt)?;
    let mut words = args.skip(1);
    let callers = number_of(words.next()).unwrap_or(1).max(1).min(64) as u16;
    let turns = number_of(words.next()).unwrap_or(1_000_000);
    match count_all(&rt, rt.alloc(), callers, turns / u32::from(callers)) {
        Some(counter) => {
            let count = counter.count;
            println!(rt; "{count}")?
        }
        None => println!(rt; "no memory")?,
    }
    Ok(())
}
RT

cat >"$room/crates/turns/proofs/take_turns/Invariants.antt" <<'ANTT'
use Rattle.std.proofs.Common.{◌≡◌}
use Rattle.turns.proofs.take_turns.Given as goal

abbrev pub invariant-loop : goal.invariant-loop
invariant-loop g l =
    let p = l.pass in let q = l.fn.pass in
    (p.cell ≡ q.cell) × (p.callers ≡ q.callers) × (p.block ≡ q.block) × (p.met ≡ q.met)
ANTT

cat >"$measures/Invariants.antt" <<'ANTT'
use Rattle.std.proofs.Common.{◌+◌, ◌*◌}
use Rattle.turns.proofs.+fn-run_all-join+arg2+run_all.Given as goal

abbrev pub decreases-join+arg2 : goal.decreases-join+arg2
decreases-join+arg2 g l = 2 * l.pass.block + 1

abbrev pub decreases-run_all : goal.decreases-run_all
decreases-run_all g l = 2 * l.pass.block
ANTT

cat >"$room/plain.rs" <<'RS'
//! So many callers take so many turns in all, by a plain ticket lock that waits as the cell does ("ticket"), or by a
//! pthread mutex ("mutex").
use std::cell::UnsafeCell;
use std::hint::{black_box, spin_loop};
use std::sync::Barrier;
use std::sync::atomic::{AtomicU64, Ordering::SeqCst};
use std::thread;

const NEAR: u64 = 3;
const LOOKS: u32 = 2_000;
const LOOKS_WOKEN: u32 = 400;
const SPACES: u64 = 16;

extern "C" {
    fn syscall(number: i64, ...) -> i64;
    fn pthread_mutex_init(mutex: *mut u8, attributes: *const u8) -> i32;
    fn pthread_mutex_lock(mutex: *mut u8) -> i32;
    fn pthread_mutex_unlock(mutex: *mut u8) -> i32;
}

fn park(word: *const u32, expected: u32) {
    unsafe { syscall(202, word, 128, expected, std::ptr::null::<u8>()) };
}

fn wake_all(word: *const u32) {
    unsafe { syscall(202, word, 129, i32::MAX) };
}

#[repr(align(128))]
#[derive(Default)]
struct Word(AtomicU64);

#[derive(Default)]
struct Space {
    sleepers: AtomicU64,
    wakes: AtomicU64,
}

impl Space {
    fn wake(&self) {
        if self.sleepers.load(SeqCst) > 0 {
            self.wakes.fetch_add(1, SeqCst);
            wake_all(self.wakes.as_ptr() as *const u32);
        }
    }
}

#[derive(Default)]
struct Ticket {
    next: Word,
    served: Word,
    spaces: [Space; SPACES as usize],
    count: UnsafeCell<u64>,
}

unsafe impl Sync for Ticket {}

impl Ticket {
    fn space(&self, ticket: u64) -> &Space {
        &self.spaces[(ticket % SPACES) as usize]
    }

    fn sleep(&self, ticket: u64, has_looked: bool) {
        let space = self.space(ticket);
        space.sleepers.fetch_add(1, SeqCst);
        let wakes = space.wakes.load(SeqCst);
        let before = ticket.wrapping_sub(self.served.0.load(SeqCst));
        if before > 1 || (before == 1 && has_looked) {
            park(space.wakes.as_ptr() as *const u32, wakes as u32);
        }
        space.sleepers.fetch_sub(1, SeqCst);
    }

    fn turn(&self) {
        let ticket = self.next.0.fetch_add(1, SeqCst);
        let mut looks = LOOKS;
        loop {
            let served = self.served.0.load(SeqCst);
            if served == ticket {
                break;
            }
            if looks > 0 && ticket - served <= NEAR {
                looks -= 1;
                spin_loop();
            } else {
                self.sleep(ticket, looks == 0);
                looks = LOOKS_WOKEN;
            }
        }
        unsafe { *black_box(self.count.get()) += 1 };
        let served = self.served.0.fetch_add(1, SeqCst) + 1;
        self.space(served).wake();
        self.space(served + 1).wake();
    }
}

#[repr(align(128))]
struct Mutex {
    lock: UnsafeCell<[u64; 16]>,
    count: UnsafeCell<u64>,
}

unsafe impl Sync for Mutex {}

impl Mutex {
    fn turn(&self) {
        let lock = self.lock.get() as *mut u8;
        unsafe {
            pthread_mutex_lock(lock);
            *black_box(self.count.get()) += 1;
            pthread_mutex_unlock(lock);
        }
    }
}

fn all(callers: u64, turns: u64, turn: impl Fn() + Sync) {
    let start = Barrier::new(callers as usize);
    thread::scope(|scope| {
        for _ in 0..callers {
            scope.spawn(|| {
                start.wait();
                (0..turns / callers).for_each(|_| turn());
            });
        }
    });
}

fn main() {
    let words: Vec<String> = std::env::args().collect();
    let number = |i: usize| words[i].parse().expect("a number");
    let (callers, turns) = (number(2), number(3));
    if words[1] == "mutex" {
        let mutex = Mutex { lock: UnsafeCell::new([0; 16]), count: UnsafeCell::new(0) };
        unsafe { pthread_mutex_init(mutex.lock.get() as *mut u8, std::ptr::null()) };
        all(callers, turns, || mutex.turn());
        println!("{}", mutex.count.into_inner());
    } else {
        let ticket = Ticket::default();
        all(callers, turns, || ticket.turn());
        println!("{}", ticket.count.into_inner());
    }
}
RS

# (the program's own status is rt's then, and it is 0)
(cd "$room/crates/turns" && rt run -- 1 1000) >"$room/log" 2>&1 || {
    tail -n 15 "$room/log" >&2
    echo "turns: the program was not proved and built" >&2
    exit 2
}
rustc -O -o "$room/plain" "$room/plain.rs" || exit 2

cat >"$room/run.py" <<'PY'
import os, subprocess, sys, time

runs, ours, plain = int(sys.argv[1]), sys.argv[2], sys.argv[3]
TURNS = 1_000_000
ROWS = {"turn cell": [ours], "plain ticket lock": [plain, "ticket"], "pthread mutex": [plain, "mutex"]}


def run(words):
    """Runs a program, and returns what it prints, and its time by the clock and of processors in microseconds a turn."""
    start = time.monotonic()
    with subprocess.Popen(words, stdout=subprocess.PIPE) as made:
        text = made.stdout.read()
        _, status, used = os.wait4(made.pid, 0)
        made.returncode = status
    if status:
        sys.exit(f"turns: {' '.join(words)} ended with status {status}")
    return text, 1e6 * (time.monotonic() - start) / TURNS, 1e6 * (used.ru_utime + used.ru_stime) / TURNS


print(f"{'microseconds a turn, middle of %d' % runs:<32}{'clock':>8}{'ratio':>8}{'used':>8}{'ratio':>8}")
for callers in (2, 4, 16):
    texts, times = set(), {name: [] for name in ROWS}
    for _ in range(runs):
        for name, words in ROWS.items():
            text, clock, used = run(words + [str(callers), str(TURNS)])
            texts.add(text)
            times[name].append((clock, used))
    if len(texts) > 1:
        sys.exit(f"turns: the programs do not do the same: {texts}")
    middle = {name: [sorted(column)[runs // 2] for column in zip(*own)] for name, own in times.items()}
    base = middle["plain ticket lock"]
    for name, (clock, used) in middle.items():
        row = f"{callers} callers, {name}"
        print(f"{row:<32}{clock:8.3f}{clock / base[0]:8.2f}{used:8.3f}{used / base[1]:8.2f}")
load = " ".join(f"{part:.1f}" for part in os.getloadavg())
print(f"load of the machine: {load}, on {os.cpu_count()} processors")
PY
python3 "$room/run.py" "${RUNS:-9}" "$room/crates/turns/out/turns" "$room/plain"
