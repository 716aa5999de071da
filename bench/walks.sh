#!/usr/bin/env bash
# Times walks with the program below as LLVM builds it: a million walks each of a partition's tree of four levels (five words), of the
# largest trees (36 words) and of the trees of a small guest (16 words), and a million translations of the last by `Plain`, which
# adds their rows to a journal that is opened anew as it fills. Prints the best of five times of each, in ns a walk and ns a word, and
# at last how many times the walk alone a translation takes.
set -eu

top=$(cd "$(dirname "${BASH_SOURCE[0]}")/.." && pwd)
folder=$(mktemp -d)
trap 'rm -rf "$folder"' EXIT

below=(ppc_bits ppc_spr ppc_ops table_formats journal_core tlbie_ops walk_laws protect part_walk nested_walk real_store walk_rows translator)
mkdir -p "$folder"/crates/walk_bench/{src,proofs/translate,proofs/translate_all}
for crate in "${below[@]}"; do
    mkdir "$folder/crates/$crate"
    tar -C "$top/crates/$crate" --exclude=./out -cf - . | tar -C "$folder/crates/$crate" -xf -
    grep "^$crate:" "$top/crates.txt" >>"$folder/crates.txt"
done
cp "$top/HANDLES" "$folder"
echo 'walk_bench: journal_core real_store part_walk nested_walk walk_rows translator' >>"$folder/crates.txt"

cat >"$folder/crates/walk_bench/src/main.rt" <<'PROGRAM'
//! Times walks and translations.
#![tactic(auto)]

ghost use Rattle.std.specs.Prelude.{◌≡◌, ◌≤◌, [], length, IfOk};
ghost use Rattle.journal_core.specs.Translating.{IsQuiet};

use journal_core::{AccessKind, Ask, Found, Journal, NestResult, PartResult, Place, StopName, Translate};
use nested_walk::{place_of, walk_fresh};
use part_walk::{Trail, walk_partition_fresh};
use real_store::Store;
use std::alloc::{AllocError, Global};
use std::io;
use std::time::Instant;
use translator::Plain;

/// How many walks are timed, how many translations are made in one journal, and how many journals these take.
const WALKS: u32 = 1_000_000;
const IN_A_JOURNAL: u32 = 400;
const JOURNALS: u32 = 2_500;

/// The steps of a journal with places for the rows of so many translations.
const STEPS: u32 = 64;

/// The register whose partition table stands at 20000.
const PTCR: u64 = 0x2_0000;

/// The words of the largest trees, and those of the trees of a small guest, with their places.
const LARGEST: [(u64, u64); 15] = [
    (0x2_0010, 0xC000_0000_0040_00AD),
    (0x40_0000, 0x8000_0000_0041_0009),
    (0x41_0000, 0x8000_0000_0041_1009),
    (0x41_1000, 0x8000_0000_0041_2009),
    (0x41_2000, 0xC000_0000_0050_0187),
    (0x41_2028, 0xC000_0000_0050_5187),
    (0x41_2080, 0xC000_0000_0051_0187),
    (0x41_2100, 0xC000_0000_0052_0187),
    (0x41_2108, 0xC000_0000_0052_1187),
    (0x41_2110, 0xC000_0000_0052_2187),
    (0x50_0010, 0x4000_0000_0001_00AD),
    (0x51_0000, 0x8000_0000_0002_0009),
    (0x52_0000, 0x8000_0000_0002_1009),
    (0x52_1000, 0x8000_0000_0002_2009),
    (0x52_2028, 0xC000_0000_0000_5187),
];
const SMALL: [(u64, u64); 9] = [
    (0x2_0010, 0x8000_0000_0010_000A),
    (0x10_0000, 0x8000_0000_0010_2009),
    (0x10_2000, 0xC000_0000_0011_0187),
    (0x10_2010, 0xC000_0000_0011_2187),
    (0x10_2020, 0xC000_0000_0011_4187),
    (0x10_2028, 0xC000_0000_0011_5187),
    (0x11_0010, 0x0000_0000_0000_200A),
    (0x11_2000, 0x8000_0000_0000_4009),
    (0x11_4028, 0xC000_0000_0000_5187),
];

/// An empty journal.
fn empty_journal(alloc: Global) -> Result<Journal, AllocError>
    ensures moment { IfOk result (λ journal. length journal.rows.steps ≡ 0) }
    ensures quiet { IfOk result (λ journal. IsQuiet journal.rows) }
    ensures reserved { IfOk result (λ journal. journal.reserved ≡ 64) }
    ensures dones { IfOk result (λ journal. journal.rows.dones ≡ []) }
{
    Journal::open(alloc, STEPS)
}

/// Places words.
fn place(store: &mut Store, words: &[(u64, u64)]) {
    for word in words {
        let _ = store.place(word.0, &word.1.to_be_bytes());
    }
}

/// The i-th address, all in one page.
fn address(i: u32) -> u64 {
    0x5000 + u64::from(i % 4096)
}

/// The i-th fetch of process 1 of partition 1.
fn fetch(i: u32) -> Ask
    ensures { result.ptcr ≡ 0x20000 }
{
    Ask {
        ea: address(i),
        access: AccessKind::Fetch,
        msr: 0x8000_0000_0000_1033,
        lpid: 1,
        pid: 1,
        ptcr: PTCR,
        amr: 0,
        iamr: 0,
    }
}

/// How many words a walk of an ask to a page reads, else 0.
fn ask_words(store: &Store, journal: &Journal, ask: &Ask) -> u64
    requires moment { length journal.now.rows.steps ≡ 0 }
    requires quiet { IsQuiet journal.now.rows }
{
    if let Place::Real(_) = place_of(ask) {
        return 0;
    }
    let mut trail = Trail::new();
    match walk_fresh(store, journal, 0, ask, 0, &mut trail) {
        NestResult::Page(_) => u64::from(trail.count()),
        _ => 0,
    }
}

/// How many words all walks of asks read.
fn walk_asks(store: &Store, journal: &Journal) -> u64
    requires moment { length journal.now.rows.steps ≡ 0 }
    requires quiet { IsQuiet journal.now.rows }
{
    let mut words = 0u64;
    for i in 0..WALKS {
        words = words.wrapping_add(ask_words(store, journal, &fetch(i)));
    }
    words
}

/// How many words a walk of a partition's tree to a leaf reads, else 0.
fn partition_words(store: &Store, journal: &Journal, gra: u64) -> u64
    requires moment { length journal.now.rows.steps ≡ 0 }
    requires quiet { IsQuiet journal.now.rows }
{
    let mut trail = Trail::new();
    match walk_partition_fresh(store, journal, 0, PTCR, 1, gra, 0, &mut trail) {
        PartResult::Leaf { .. } => u64::from(trail.count()),
        _ => 0,
    }
}

/// How many words all walks of the partition's tree read.
fn walk_partitions(store: &Store, journal: &Journal) -> u64
    requires moment { length journal.now.rows.steps ≡ 0 }
    requires quiet { IsQuiet journal.now.rows }
{
    let mut words = 0u64;
    for i in 0..WALKS {
        words = words.wrapping_add(partition_words(store, journal, address(i)));
    }
    words
}

/// Translates an ask, where the journal has room.
fn translate(store: &Store, journal: &mut Journal, ask: &Ask) -> Found
    requires ptcr { ask.now.ptcr ≡ 0x20000 }
    requires reserved { journal.old.reserved ≡ 64 }
    requires quiet { journal.old.rows.dones ≡ [] }
    ensures reserved { journal.new.reserved ≡ 64 }
    ensures quiet { journal.new.rows.dones ≡ [] }
{
    let counts = journal.counts();
    if counts.reads > 6_800 || counts.fills > 6_500 {
        return Found::Stop(StopName::GuestZero, 0);
    }
    Plain::new().translate(store, journal, 0, ask, counts.steps)
}

/// Translates from the `first` fetch on, and answers how many have a page.
fn translate_all(store: &Store, journal: &mut Journal, first: u32) -> u64
    requires reserved { journal.old.reserved ≡ 64 }
    requires quiet { journal.old.rows.dones ≡ [] }
{
    let mut pages = 0u64;
    for i in 0..IN_A_JOURNAL {
        if let Found::Real(_, _) = translate(store, journal, &fetch(first.wrapping_add(i))) {
            pages = pages.wrapping_add(1);
        }
    }
    pages
}

/// Storage of this many bytes with words placed in it.
fn store_with(alloc: Global, bytes: u64, words: &[(u64, u64)]) -> Result<Store, AllocError>
    requires { bytes ≤ 0x600000 }
{
    let mut store = Store::open(alloc, bytes)?;
    place(&mut store, words);
    Ok(store)
}

fn time_partitions(rt: &HostRuntime, store: &Store, journal: &Journal) -> io::Result<()>
    requires moment { length journal.now.rows.steps ≡ 0 }
    requires quiet { IsQuiet journal.now.rows }
{
    let start = Instant::now(rt)?;
    let words = walk_partitions(store, journal);
    let spent = start.elapsed(rt)?;
    println!(rt; "partition, {WALKS} walks, {words} words: {} us", spent.as_micros())
}

fn time_asks(rt: &HostRuntime, what: &str, store: &Store, journal: &Journal) -> io::Result<()>
    requires moment { length journal.now.rows.steps ≡ 0 }
    requires quiet { IsQuiet journal.now.rows }
{
    let start = Instant::now(rt)?;
    let words = walk_asks(store, journal);
    let spent = start.elapsed(rt)?;
    println!(rt; "{what}, {WALKS} walks, {words} words: {} us", spent.as_micros())
}

/// How many of all translations have a page.
fn translate_in_journals(rt: &HostRuntime, store: &Store) -> Result<u64, AllocError> {
    let mut pages = 0u64;
    for k in 0..JOURNALS {
        let mut journal = empty_journal(rt.alloc())?;
        pages = pages.wrapping_add(translate_all(store, &mut journal, k));
    }
    Ok(pages)
}

fn time_translations(rt: &HostRuntime, store: &Store) -> io::Result<()> {
    let start = Instant::now(rt)?;
    let pages = translate_in_journals(rt, store)?;
    let spent = start.elapsed(rt)?;
    let words = pages.wrapping_mul(16);
    println!(rt; "translated, {pages} walks, {words} words: {} us", spent.as_micros())
}

fn time_walks(rt: &HostRuntime, largest: &Store, small: &Store) -> io::Result<()> {
    let journal = empty_journal(rt.alloc())?;
    time_partitions(rt, largest, &journal)?;
    time_asks(rt, "largest", largest, &journal)?;
    time_asks(rt, "small", small, &journal)
}

fn main(rt: HostRuntime) -> io::Result<()> {
    let largest = store_with(rt.alloc(), 0x60_0000, &LARGEST)?;
    let small = store_with(rt.alloc(), 0x20_0000, &SMALL)?;
    time_walks(&rt, &largest, &small)?;
    time_translations(&rt, &small)
}
PROGRAM

cat >"$folder/crates/walk_bench/proofs/translate/Answers.antt" <<'PROOF'
use Rattle.std.proofs.Common.{[], ◌∷◌, refl}
use Rattle.walk_bench.proofs.translate.Goals as goal

pub translate-requires-clause-fits : goal.translate-requires-clause-fits
translate-requires-clause-fits c = (c.args.ask.now.ptcr ∷ [], refl, tt)
PROOF

cat >"$folder/crates/walk_bench/proofs/translate_all/Invariants.antt" <<'PROOF'
use Rattle.std.proofs.Common.{◌≡◌, []}
use Rattle.walk_bench.proofs.translate_all.Given as goal

abbrev pub invariant-loop-i : goal.invariant-loop-i
invariant-loop-i l = record {
  reserved : l.journal.reserved ≡ 64;
  quiet : l.journal.rows.dones ≡ [];
}
PROOF

cd "$folder/crates/walk_bench"
rt run >"$folder/log" 2>&1 || { cat "$folder/log" >&2 && exit 1; }
for _ in 1 2 3 4 5; do
    out/walk_bench
done >"$folder/times"
for what in partition largest small translated; do
    grep "^$what," "$folder/times" | sort -t: -k2 -n | head -1
done | awk '
    { printf "%s %d walks, %d words: %.1f ns a walk, %.2f ns a word\n", $1, $2, $4, $6 * 1000 / $2, $6 * 1000 / $4; time[$1] = $6 / $2 }
    END { printf "a translation takes %.2f times the walk alone\n", time["translated,"] / time["small,"] }'
