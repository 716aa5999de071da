#!/usr/bin/env bash
# Times a bus with a console, a control and a tape in boxes, with the program below as LLVM builds it: ten million `slot_at` of
# addresses of RAM, and a million stores of one byte to the console, each five times. Prints the best times.
set -eu

top=$(cd "$(dirname "${BASH_SOURCE[0]}")/.." && pwd)
folder=$(mktemp -d)
trap 'rm -rf "$folder"' EXIT

mkdir -p "$folder/crates/device_bench/src"
cp -r "$top"/crates/{ppc_bits,journal_core,ppc_bus,bench_devices} "$folder/crates"
cp "$top/HANDLES" "$folder"
grep -E '^(ppc_bits|journal_core|ppc_bus|bench_devices):' "$top/crates.txt" >"$folder/crates.txt"
echo 'device_bench: bench_devices ppc_bus' >>"$folder/crates.txt"

cat >"$folder/crates/device_bench/src/main.rt" <<'PROGRAM'
//! Times a bus of boxed devices.
#![tactic(auto)]

use bench_devices::{Console, Control, Tape};
use ppc_bus::{Bus, Device};
use std::io;
use std::time::Instant;

/// How many addresses of RAM there are, how often each is asked for, and how many bytes are stored.
const ADDRESSES: u32 = 10_000;
const ROUNDS: u32 = 1_000;
const STORES: u32 = 1_000_000;

/// Addresses of RAM from a sequence of numbers.
fn addresses(rt: &HostRuntime) -> io::Result<Vec<u64>> {
    let mut addresses = Vec::new(rt.alloc());
    let mut x = 1u64;
    for _ in 0..ADDRESSES {
        x = x.wrapping_mul(6_364_136_223_846_793_005).wrapping_add(1_442_695_040_888_963_407);
        addresses.push(x >> 36)?;
    }
    Ok(addresses)
}

fn main(rt: HostRuntime) -> io::Result<()> {
    let mut bus = Bus::new();
    let console: Box<dyn Device> = Box::new(rt.alloc(), Console::new())?;
    let control: Box<dyn Device> = Box::new(rt.alloc(), Control::new())?;
    let tape: Box<dyn Device> = Box::new(rt.alloc(), Tape::new(Vec::new(rt.alloc())))?;
    let _ = bus.plug(0x1000_0000, console);
    let _ = bus.plug(0x1000_1000, control);
    let _ = bus.plug(0x1000_2000, tape);

    let addresses = addresses(&rt)?;
    let start = Instant::now(&rt)?;
    let mut found = 0u32;
    for _ in 0..ROUNDS {
        for at in &addresses {
            if bus.slot_at(*at).is_some() {
                found = found.wrapping_add(1);
            }
        }
    }
    let asked = start.elapsed(&rt)?;

    let start = Instant::now(&rt)?;
    let mut stored = 0u32;
    for i in 0..STORES {
        if bus.store(0x1000_0000, 1, u64::from(i)).is_ok() {
            stored = stored.wrapping_add(1);
        }
    }
    let shown = start.elapsed(&rt)?;
    println!(rt; "{ROUNDS} times {ADDRESSES} addresses, {found} in a window: {} us", asked.as_micros())?;
    println!(rt; "{STORES} bytes, {stored} to the console: {} us", shown.as_micros())?;
    Ok(())
}
PROGRAM

cd "$folder/crates/device_bench"
rt run >"$folder/log" 2>&1 || { cat "$folder/log" >&2 && exit 1; }
for _ in 1 2 3 4 5; do
    out/device_bench
done >"$folder/times"
for what in addresses bytes; do
    grep " $what," "$folder/times" | sort -t: -k2 -n | head -1
done
