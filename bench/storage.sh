#!/usr/bin/env bash
# Times RAM with the program below as LLVM builds it: ten million loads of eight bytes, and 65,536 stores of eight bytes with their
# rows, each eighty times, where the memory of the rows has mostly been used before. Prints the best times.
set -eu

top=$(cd "$(dirname "${BASH_SOURCE[0]}")/.." && pwd)
folder=$(mktemp -d)
trap 'rm -rf "$folder"' EXIT

mkdir -p "$folder"/crates/store_bench/{src,proofs/store_all}
cp -r "$top"/crates/{ppc_bits,journal_core,real_store} "$folder/crates"
cp "$top/HANDLES" "$folder"
grep -E '^(ppc_bits|journal_core|real_store):' "$top/crates.txt" >"$folder/crates.txt"
echo 'store_bench: journal_core real_store' >>"$folder/crates.txt"

cat >"$folder/crates/store_bench/src/main.rt" <<'PROGRAM'
//! Times loads and stores.
#![tactic(auto)]

ghost use Rattle.std.specs.Prelude.{◌≡◌, length};

use journal_core::Journal;
use real_store::Store;
use std::io;
use std::time::Instant;

/// The bytes of RAM, how many loads and stores there are, the steps of a journal with places for all these rows, and how often each
/// is timed.
const BYTES: u64 = 16_777_216;
const LOADS: u32 = 10_000_000;
const STORES: u32 = 65_536;
const STEPS: u32 = 4_096;
const ROUNDS: u32 = 16;

/// The address of the i-th access, in the first 64 KiB, aligned or not.
fn address(i: u32) -> u64 {
    u64::from(i) * 9 % 65_536
}

/// What all loads add up to.
fn load_all(store: &Store) -> u64 {
    let mut sum = 0u64;
    for i in 0..LOADS {
        if let Ok(value) = store.load(address(i), 8) {
            sum = sum.wrapping_add(value);
        }
    }
    sum
}

/// How many stores were made.
fn store_all(store: &mut Store, journal: &mut Journal) -> u32
    requires reserved { journal.old.reserved ≡ 4096 }
    requires steps { length journal.old.rows.steps ≡ 0 }
    requires writes { length journal.old.rows.writes ≡ 0 }
{
    let mut made = 0u32;
    for i in 0..STORES {
        if store.store(journal, 0, 0, address(i), 8, u64::from(i)).is_ok() {
            made = made.wrapping_add(1);
        }
    }
    made
}

fn main(rt: HostRuntime) -> io::Result<()> {
    let mut store = Store::open(rt.alloc(), BYTES)?;
    for _ in 0..ROUNDS {
        let mut journal = Journal::open(rt.alloc(), STEPS)?;
        let start = Instant::now(&rt)?;
        let made = store_all(&mut store, &mut journal);
        let stored = start.elapsed(&rt)?;
        let start = Instant::now(&rt)?;
        let sum = load_all(&store);
        let loaded = start.elapsed(&rt)?;
        println!(rt; "{LOADS} loads, {sum} in all: {} us", loaded.as_micros())?;
        println!(rt; "{STORES} stores, {made} made: {} us", stored.as_micros())?;
    }
    Ok(())
}
PROGRAM

cat >"$folder/crates/store_bench/proofs/store_all/Invariants.antt" <<'PROOF'
use Rattle.std.proofs.Common.{◌≡◌, ◌≤◌, length}
use Rattle.store_bench.proofs.store_all.Given as goal

abbrev pub invariant-loop-i : goal.invariant-loop-i
invariant-loop-i l = record {
  reserved : l.journal.reserved ≡ 4096;
  steps : length l.journal.rows.steps ≡ 0;
  writes : length l.journal.rows.writes ≤ l.i;
}
PROOF

cd "$folder/crates/store_bench"
rt run >"$folder/log" 2>&1 || { cat "$folder/log" >&2 && exit 1; }
for _ in 1 2 3 4 5; do
    out/store_bench
done >"$folder/times"
for what in loads stores; do
    grep " $what," "$folder/times" | sort -t: -k2 -n | head -1
done
