#!/bin/sh
# How many lots a second go over the belt: 1, 2 and 4 threads put, one takes, with room for 64 and for 1,024 lots; beside
# std's bounded channel of plain Rust, `std::sync::mpsc::sync_channel`, compiled by `rustc -O`. Then what packets of 30
# bytes cost as a lot each, and where a lot joins the packets of one read of 65,536 bytes.
# usage: bench/belt.sh [RUNS [LOTS]]: the best of 3 runs, of 1,000,000 lots each.
# The program over the belt is a crate of its own, made here in a folder that is removed at the end, and proved as any.
set -eu

root=$(CDPATH='' cd -- "$(dirname -- "$0")/.." && pwd -P)
runs=${1:-3}
lots=${2:-1000000}
command -v rustc >/dev/null || { echo 'belt: rustc is needed for the channel' >&2; exit 1; }

work=$(mktemp -d)
trap 'rm -rf -- "$work"' EXIT
trap 'exit 1' HUP INT TERM

# The crate and all that it stands on, lowest first.
crates_up_to() {
    for below in $(sed -n "s/^$1://p" "$root/crates.txt"); do
        [ ! -d "$root/crates/$below" ] || crates_up_to "$below"
    done
    echo "$1"
}

mkdir "$work/crates"
for crate in $(crates_up_to worker_mux | awk '!seen[$0]++'); do
    cp -R "$root/crates/$crate" "$work/crates/$crate"
    grep "^$crate:" "$root/crates.txt" >> "$work/crates.txt"
done
echo 'belt_speed: sub_number worker_lane worker_mux' >> "$work/crates.txt"
cp "$root/HANDLES" "$work/HANDLES"
crate=$work/crates/belt_speed
mkdir -p "$crate/src" "$crate/proofs"
echo > "$crate/proofs/Lib.antt"

cat > "$crate/src/main.rt" <<'RATTLE'
//! `belt_speed THREADS ROOM LOTS SIZE` prints the nanoseconds that the lots took, and a sum over them.
#![tactic(auto)]

ghost use Rattle.std.specs.Prelude.{◌≤◌, All};
ghost use Rattle.worker_mux.specs.Passes.{IsPassFor, IsTakerFor};

use std::alloc::Global;
use std::env;
use std::env::Env;
use std::io;
use std::sync::Wait;
use std::thread;
use std::thread::Threads;
use std::time::Instant;
use sub_number::Bytes;
use worker_lane::{Ending, Lot};
use worker_mux::{Belt, LanePass, Taker};

fn lot_of(alloc: Global, bytes: &[u8]) -> Lot {
    if bytes.is_empty() {
        return Lot::End(Ending::Exit(7));
    }
    match Bytes::new(alloc, bytes) {
        Ok(packet) => Lot::Packet(packet),
        Err(_) => Lot::End(Ending::NoMemory),
    }
}

fn put_at_last<R: Wait>(rt: &R, belt: &Belt, pass: &mut LanePass, lot: Lot)
    requires { IsPassFor belt.now pass.old }
    ensures { IsPassFor belt.now pass.new }
{
    let mut lot = lot;
    for _ in rt.forever() {
        match belt.put(rt, pass, lot) {
            Ok(()) => return,
            Err(same) => lot = same,
        }
        thread::yield_now();
    }
    unreachable!()
}

fn take_at_last<R: Wait>(rt: &R, belt: &Belt, taker: &mut Taker) -> (u32, Lot)
    requires { IsTakerFor belt.now taker.old }
    ensures { IsTakerFor belt.now taker.new }
{
    for _ in rt.forever() {
        if let Some(lot) = belt.take(rt, taker) {
            return lot;
        }
        thread::yield_now();
    }
    unreachable!()
}

fn put_all<R: Wait>(
    rt: &R,
    alloc: Global,
    belt: &Belt,
    mut pass: LanePass,
    each: u32,
    bytes: &[u8],
) -> LanePass
    requires { IsPassFor belt.now pass }
    ensures { IsPassFor belt.now result }
{
    for _ in 0..each {
        let lot = lot_of(alloc, bytes);
        put_at_last(rt, belt, &mut pass, lot);
    }
    pass
}

fn weight_of(lane: u32, lot: &Lot) -> u64 {
    let weight = u64::from(lane) + 1;
    match lot {
        Lot::Packet(packet) => weight.wrapping_add(packet.bytes().len() as u64),
        Lot::End(_) => weight,
    }
}

fn take_all<R: Wait>(rt: &R, belt: &Belt, mut taker: Taker, count: u32) -> u64
    requires { IsTakerFor belt.now taker }
{
    let mut sum = 0u64;
    for _ in 0..count {
        let (lane, lot) = take_at_last(rt, belt, &mut taker);
        sum = sum.wrapping_add(weight_of(lane, &lot));
    }
    sum
}

fn put_by_threads<R: Threads + Wait + Sync>(
    rt: &R,
    alloc: Global,
    belt: &Belt,
    passes: Vec<LanePass>,
    each: u32,
    bytes: &[u8],
) -> bool
    requires { All (IsPassFor belt.now) passes.items }
{
    thread::map_vec(rt, passes, &|pass: LanePass| -> LanePass
        requires { IsPassFor belt.now pass }
    { put_all(rt, alloc, belt, pass, each, bytes) })
    .is_ok()
}

fn goes_over<R: Threads + Wait + Sync>(
    rt: &R,
    alloc: Global,
    threads: u32,
    room: usize,
    each: u32,
    bytes: &[u8],
) -> Option<u64>
    requires threads { (1 ≤ threads) × (threads ≤ 64) }
    requires room { (1 ≤ room) × (room ≤ 1024) }
{
    let (belt, taker, passes) = Belt::new(alloc, threads, room).ok()?;
    let shared = &belt;
    let (_, sum) = thread::join(
        rt,
        move || -> bool
            requires { All (IsPassFor shared.now) passes.items }
        { put_by_threads(rt, alloc, shared, passes, each, bytes) },
        move || -> u64
            requires { IsTakerFor shared.now taker }
        { take_all(rt, shared, taker, each.wrapping_mul(threads)) },
    );
    Some(sum)
}

// The number that this word spells, or 0.
fn number_at<R: Env + AllocGlobal>(rt: &R, place: usize) -> u32 {
    match env::args(rt) {
        Ok(mut words) => match words.nth(place) {
            Some(word) => word.parse().unwrap_or(0),
            None => 0,
        },
        Err(_) => 0,
    }
}

fn main(rt: HostRuntime) -> io::Result<()> {
    let alloc = rt.alloc();
    let threads = number_at(&rt, 1);
    let room = number_at(&rt, 2) as usize;
    let lots = number_at(&rt, 3);
    let bytes = Vec::from_elem(alloc, 7u8, number_at(&rt, 4) as usize)?;
    if threads < 1 || threads > 64 || room < 1 || room > 1024 {
        return println!(rt; "usage: belt_speed THREADS ROOM LOTS SIZE");
    }
    let start = Instant::now(&rt)?;
    let sum = goes_over(&rt, alloc, threads, room, lots / threads, bytes.as_slice());
    let nanos = start.elapsed(&rt)?.as_nanos();
    println!(rt; "{nanos} {}", sum.unwrap_or(0))
}
RATTLE

# What each loop keeps.
kept() {
    mkdir -p "$crate/proofs/$1"
    cat > "$crate/proofs/$1/Invariants.antt" <<ANTT
use Rattle.worker_mux.specs.Passes.{$3}
use Rattle.belt_speed.proofs.$1.Given as goal

abbrev pub invariant-$2 : goal.invariant-$2
invariant-$2 g l = $3 l.belt l.$4
ANTT
}
kept put_at_last loop IsPassFor pass
kept take_at_last loop IsTakerFor taker
kept put_all loop IsPassFor pass
kept take_all loop IsTakerFor taker

cat > "$work/channel.rs" <<'RUST'
use std::sync::mpsc::{Receiver, SyncSender, sync_channel};
use std::thread;
use std::time::Instant;

enum Lot {
    Packet(Vec<u8>),
    End(i32),
}

fn put_all(lane: u32, belt: SyncSender<(u32, Lot)>, each: usize, bytes: &[u8]) {
    for _ in 0..each {
        let lot = match bytes.len() {
            0 => Lot::End(7),
            _ => Lot::Packet(bytes.to_vec()),
        };
        belt.send((lane, lot)).expect("the taker is there");
    }
}

fn take_all(belt: Receiver<(u32, Lot)>) -> u64 {
    let mut sum = 0;
    for (lane, lot) in belt {
        sum += u64::from(lane) + 1;
        sum += match lot {
            Lot::Packet(bytes) => bytes.len() as u64,
            Lot::End(status) => u64::from(status < 0),
        };
    }
    sum
}

fn main() {
    let words: Vec<usize> = std::env::args()
        .skip(1)
        .map(|word| word.parse().expect("a number"))
        .collect();
    let (threads, room, lots, bytes) = (words[0], words[1], words[2], vec![7u8; words[3]]);
    let start = Instant::now();
    let (put, take) = sync_channel(room);
    let sum = thread::scope(|scope| {
        for lane in 0..threads {
            let (put, bytes) = (put.clone(), bytes.as_slice());
            scope.spawn(move || put_all(lane as u32, put, lots / threads, bytes));
        }
        drop(put);
        take_all(take)
    });
    println!("{} {}", start.elapsed().as_nanos(), sum);
}
RUST
rustc -O "$work/channel.rs" -o "$work/channel"

echo 'belt: proving and building the program over the belt' >&2
# There is no command that only builds. Without words it then says how it is used.
(cd -- "$crate" && rt run </dev/null) > "$work/build.log" 2>&1 || true
if [ ! -x "$crate/out/belt_speed" ]; then
    cat -- "$work/build.log" >&2
    exit 1
fi

RUNS=$runs LOTS=$lots python3 - "$crate/out/belt_speed" "$work/channel" <<'PYTHON'
import os
import subprocess
import sys

belt, channel = sys.argv[1:]
runs, lots = int(os.environ["RUNS"]), int(os.environ["LOTS"])
SMALL, READ = 30, 65_536


def nanos(program, *words):
    out = subprocess.run([program, *map(str, words)], stdout=subprocess.PIPE, check=True, timeout=600).stdout
    taken, total = out.split()
    return int(taken), int(total)


def best(*words):
    """The least time over the belt and over the channel, which are tried in turn, and whether their sums agree."""
    tried = [(nanos(belt, *words), nanos(channel, *words)) for _ in range(runs)]
    if any(one[1] != other[1] for one, other in tried):
        sys.exit(f"belt: the sums differ at {words}")
    return min(one[0] for one, _ in tried), min(other[0] for _, other in tried)


print("lots without bytes: nanoseconds a lot, the best of", runs)
print("threads  room      belt   channel   ratio")
for threads in (1, 2, 4):
    for room in (64, 1024):
        ours, theirs = best(threads, room, lots, 0)
        print(f"{threads:7} {room:5} {ours / lots:9.0f} {theirs / lots:9.0f} {ours / theirs:7.2f}", flush=True)

print(f"packets of {SMALL} bytes: nanoseconds a packet over the belt, room 16, the best of", runs)
print("threads   one a lot    joined   channel, one   channel, joined")
for threads in (1, 4):
    one = best(threads, 16, lots, SMALL)
    joined_lots = max(threads, lots * SMALL // READ)
    packets = joined_lots * READ / SMALL
    joined = best(threads, 16, joined_lots, READ)
    print(f"{threads:7} {one[0] / lots:11.0f} {joined[0] / packets:9.1f} {one[1] / lots:14.0f} {joined[1] / packets:17.1f}")
PYTHON
