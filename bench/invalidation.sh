#!/usr/bin/env bash
# Times invalidations, with the program below as LLVM builds it: a million `ends_reading` of the sixteen rows of a guest's load; and
# queues in which 64 operations pend, each made anew a hundred thousand times: with a 65th, with a tlbsync, and with a tlbsync and a
# ptesync. Each five times. Prints the best times.
set -eu

top=$(cd "$(dirname "${BASH_SOURCE[0]}")/.." && pwd)
folder=$(mktemp -d)
trap 'rm -rf "$folder"' EXIT

mkdir -p "$folder/crates/inval_bench/src"
cp -r "$top"/crates/{ppc_bits,ppc_ops,journal_core,tlbie_ops,inval_queue} "$folder/crates"
cp "$top/HANDLES" "$folder"
grep -E '^(ppc_bits|ppc_ops|journal_core|tlbie_ops|inval_queue):' "$top/crates.txt" >"$folder/crates.txt"
echo 'inval_bench: arrayvec journal_core tlbie_ops inval_queue' >>"$folder/crates.txt"

cat >"$folder/crates/inval_bench/src/main.rt" <<'PROGRAM'
//! Times invalidations.
#![tactic(auto)]

use inval_queue::Queue;
use journal_core::{Done, DoneRow, Inval, ReadRow, Role};
use std::io;
use std::time::Instant;
use tlbie_ops::ends_reading;

/// How often the rows are asked, and how many queues are made.
const ROUNDS: u32 = 62_500;
const QUEUES: u32 = 100_000;

fn op(number: u32) -> Inval {
    Inval {
        page: 0x1_0000,
        pid: number,
        lpid: 1,
        ric: 0,
        prs: true,
        is: 0,
        bits: 12,
    }
}

fn reading(role: Role, pid: u32, sought: u64, level: u8, left: u8) -> ReadRow {
    ReadRow {
        role,
        lpid: 1,
        pid,
        sought,
        level,
        left,
        at: 0,
        value: 0,
        moment: 17,
    }
}

/// The rows of a guest's load.
fn readings(rt: &HostRuntime) -> io::Result<Vec<ReadRow>> {
    let mut rows = Vec::new(rt.alloc());
    rows.push(reading(Role::Pate, 1, 0x1_0000, 0, 0))?;
    rows.push(reading(Role::Prte, 1, 0x1_0000, 0, 31))?;
    rows.push(reading(Role::ProcessDir, 1, 0x1_0000, 1, 21))?;
    rows.push(reading(Role::ProcessLeaf, 1, 0x1_0000, 2, 12))?;
    for sought in [0x10, 0x2000, 0x4080, 0x1_0000] {
        rows.push(reading(Role::Pate, 0, sought, 0, 31))?;
        rows.push(reading(Role::PartDir, 0, sought, 1, 21))?;
        rows.push(reading(Role::PartLeaf, 0, sought, 2, 12))?;
    }
    Ok(rows)
}

/// A queue in which 64 operations pend.
fn full() -> Queue {
    let mut queue = Queue::new();
    for i in 0..64 {
        let _ = queue.issue(op(i), false);
    }
    queue
}

fn main(rt: HostRuntime) -> io::Result<()> {
    let rows = readings(&rt)?;
    let start = Instant::now(&rt)?;
    let mut ended = 0u32;
    for i in 0..ROUNDS {
        let done = DoneRow {
            step: 18,
            thread: 0,
            what: Done::Global(op(i % 2)),
        };
        for row in &rows {
            if ends_reading(1, row, &done) {
                ended = ended.wrapping_add(1);
            }
        }
    }
    let asked = start.elapsed(&rt)?;
    println!(rt; "a million ends_reading, {ended} ended: {} us", asked.as_micros())?;

    let start = Instant::now(&rt)?;
    let mut count = 0usize;
    for i in 0..QUEUES {
        let mut queue = full();
        count = count.wrapping_add(queue.issue(op(i), true).len());
        count = count.wrapping_add(queue.as_slice().len());
    }
    let issued = start.elapsed(&rt)?;
    println!(rt; "{QUEUES} times 65 issues, {count}: {} us", issued.as_micros())?;

    let start = Instant::now(&rt)?;
    let mut count = 0usize;
    for _ in 0..QUEUES {
        let mut queue = full();
        queue.tlbsync();
        count = count.wrapping_add(queue.as_slice().len());
    }
    let marked = start.elapsed(&rt)?;
    println!(rt; "{QUEUES} times 64 issues and a tlbsync, {count}: {} us", marked.as_micros())?;

    let start = Instant::now(&rt)?;
    let mut count = 0usize;
    for _ in 0..QUEUES {
        let mut queue = full();
        queue.tlbsync();
        count = count.wrapping_add(queue.ptesync().len());
    }
    let completed = start.elapsed(&rt)?;
    println!(rt; "{QUEUES} times 64 issues, a tlbsync and a ptesync, {count}: {} us", completed.as_micros())?;
    Ok(())
}
PROGRAM

cd "$folder/crates/inval_bench"
rt run >"$folder/log" 2>&1 || { cat "$folder/log" >&2 && exit 1; }
for _ in 1 2 3 4 5; do
    out/inval_bench
done >"$folder/times"
for what in ends_reading 'times 65' 'and a tlbsync,' ptesync; do
    grep "$what" "$folder/times" | sort -t: -k2 -n | head -1
done
