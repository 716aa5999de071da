#!/usr/bin/env bash
# Times `decode` over a million words of all rows of the instruction table, five times, with the program below as LLVM
# builds it. Prints the best time.
set -eu

top=$(cd "$(dirname "${BASH_SOURCE[0]}")/.." && pwd)
folder=$(mktemp -d)
trap 'rm -rf "$folder"' EXIT

mkdir -p "$folder/crates/decode_bench/src"
cp -r "$top"/crates/{ppc_bits,ppc_ops,word_decoder} "$folder/crates"
cp "$top/HANDLES" "$folder"
grep -E '^(ppc_bits|ppc_ops|word_decoder):' "$top/crates.txt" >"$folder/crates.txt"
echo 'decode_bench: ppc_ops word_decoder' >>"$folder/crates.txt"

cat >"$folder/crates/decode_bench/src/main.rt" <<'PROGRAM'
//! Times the decoder over words of all rows of the instruction table.
#![tactic(auto)]

use word_decoder::{Decoded, decode};
use ppc_ops::{row, row_count};
use std::io;
use std::time::Instant;

/// How many words are decoded.
const WORDS: u32 = 1_000_000;

/// Words of each row in turn, whose other bits come from a sequence of numbers.
fn words(rt: &HostRuntime) -> io::Result<Vec<u32>> {
    let mut words = Vec::new(rt.alloc());
    let mut x = 1u64;
    for i in 0..WORDS {
        x = x.wrapping_mul(6_364_136_223_846_793_005).wrapping_add(1_442_695_040_888_963_407);
        if let Some(row) = row((i % u32::from(row_count().max(1))) as u16) {
            words.push(row.value | (x >> 32) as u32 & !row.mask)?;
        }
    }
    Ok(words)
}

fn main(rt: HostRuntime) -> io::Result<()> {
    let words = words(&rt)?;
    let start = Instant::now(&rt)?;
    let mut forms = 0u32;
    for word in &words {
        if let Decoded::Form(_) = decode(*word) {
            forms = forms.wrapping_add(1);
        }
    }
    let spent = start.elapsed(&rt)?;
    println!(rt; "{} words, {forms} forms: {} us", words.len(), spent.as_micros())?;
    Ok(())
}
PROGRAM

cd "$folder/crates/decode_bench"
rt run >"$folder/log" 2>&1 || { cat "$folder/log" >&2 && exit 1; }
for _ in 1 2 3 4 5; do
    out/decode_bench
done | sort -t: -k2 -n | head -1
