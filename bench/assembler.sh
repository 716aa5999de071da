#!/usr/bin/env bash
# Times the assembler with the program below as LLVM builds it, over sources of 1,024, 8,192 and 65,536 lines, of which each but the
# first and the last is an instruction with a label of its own, over the greatest of these with an expression of the last label on each
# line, over a source of 64 MiB whose second line has nearly all of it, and over as many lines of one of the table's last operations as
# a source may have. Prints the best of five times of each, and the most memory that a run held beside its source.
set -eu

top=$(cd "$(dirname "${BASH_SOURCE[0]}")/.." && pwd)
folder=$(mktemp -d)
trap 'rm -rf "$folder"' EXIT

# The assembler and all crates below it, of which crates.txt has each behind those that it uses.
mkdir -p "$folder"/crates/asm_bench/src
grep -v '^#' "$top/crates.txt" | tac | awk '
    BEGIN { used["ppc_asm"] = 1 }
    { name = $1; sub(":", "", name) }
    name in used { print; for (i = 2; i <= NF; i++) used[$i] = 1 }' | tac >"$folder/crates.txt"
cut -d: -f1 "$folder/crates.txt" | while read -r crate; do
    cp -r "$top/crates/$crate" "$folder/crates"
done
cp "$top/HANDLES" "$folder"
echo 'asm_bench: ppc_asm' >>"$folder/crates.txt"

cat >"$folder/crates/asm_bench/src/main.rt" <<'PROGRAM'
//! Times the assembling of a source.
#![tactic(auto)]

use ppc_asm::assemble;
use std::fs;
use std::io;
use std::time::Instant;

fn main(rt: HostRuntime) -> io::Result<()> {
    let source = fs::read(&rt, "source")?;
    let start = Instant::now(&rt)?;
    let good = assemble(rt.alloc(), &source).is_ok();
    let spent = start.elapsed(&rt)?;
    println!(rt; "{good}: {} us", spent.as_micros())?;
    Ok(())
}
PROGRAM

# A source of so many lines: its first and its last, and between them these words behind a label of each line.
labelled_lines() {
    awk -v n="$1" -v words="$2" 'BEGIN {
        print ".seg 0"
        for (i = 1; i < n - 1; i++) printf "l%05d: %s\n", i, words
        print ".entry l00001"
    }'
}

cd "$folder/crates/asm_bench"
rm -rf stdin stdout
labelled_lines 16 'addi r3,r3,1' >source
rt run >"$folder/log" 2>&1 || true
[ -x out/asm_bench ] || { cat "$folder/log" >&2 && exit 1; }

# The best time of a source, and the memory of a run.
time_source() {
    local name=$1 size
    size=$(($(wc -c <source) / 1024))
    for _ in 1 2 3 4 5; do
        out/asm_bench
    done | sort -t: -k2 -n | head -1 | sed "s/^/$name, no fault: /"
    if [ -x /usr/bin/time ]; then
        /usr/bin/time -f '%M' -o "$folder/memory" out/asm_bench >/dev/null
        echo "  held $(($(cat "$folder/memory") - size)) KiB beside the source's $size KiB"
    fi
}

for lines in 1024 8192 65536; do
    labelled_lines "$lines" 'addi r3,r3,1' >source
    time_source "$lines lines with a label each"
done
labelled_lines 65536 '.dword l65534+1' >source
time_source '65536 lines, each with the name of the last label'
{ printf '.seg 0\ne: .word 1'; head -c 67108838 /dev/zero | sed 's/\x00\x00/+1/g'; printf '\n.entry e'; } >source
time_source 'one line of 64 MiB'
awk 'BEGIN {
    print ".seg 0\ne: tlbie r4,r5,0,1,1"
    for (i = 1; i < 65534; i++) print "tlbie r4,r5,0,1,1"
    print ".entry e"
}' >source
time_source '65534 lines of tlbie'
