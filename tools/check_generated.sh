#!/usr/bin/env bash
# Writes the files of three generated images with the small program below, and compares their digests with the ones that were worked
# out from the definition of the image by another program. It tries the program out without its proofs: those are the gate's.
set -eu

if ! command -v sha256sum >/dev/null; then
    echo 'check_generated: sha256sum is not installed, so the files of generated images were not compared'
    exit 0
fi

top=$(cd "$(dirname "${BASH_SOURCE[0]}")/.." && pwd)
folder=$(mktemp -d)
trap 'rm -rf "$folder"' EXIT

mkdir -p "$folder/crates/generate/src"
crates='ppc_bits ppc_ops word_decoder ppc_decode journal_core elf_image gen_image'
for crate in $crates; do
    mkdir "$folder/crates/$crate"
    cp -r "$top/crates/$crate"/{src,specs,proofs} "$folder/crates/$crate"
    grep "^$crate:" "$top/crates.txt" >>"$folder/crates.txt"
done
cp "$top/HANDLES" "$folder"
echo 'generate: elf_image gen_image' >>"$folder/crates.txt"

cat >"$folder/crates/generate/src/main.rt" <<'PROGRAM'
//! Writes the files of three generated images.
#![tactic(auto)]

use elf_image::write_elf;
use gen_image::generate;
use std::path::Path;
use std::{fs, io};

fn write(rt: &HostRuntime, name: &str, seed: u64, size: u8) -> io::Result<()> {
    if let Ok(image) = generate(rt.alloc(), seed, size)
        && let Ok(bytes) = write_elf(rt.alloc(), &image)
    {
        fs::write(rt, Path::new(name), bytes.as_slice())?;
    }
    Ok(())
}

fn main(rt: HostRuntime) -> io::Result<()> {
    write(&rt, "FOLDER/1_1", 1, 1)?;
    write(&rt, "FOLDER/7_16", 7, 16)?;
    write(&rt, "FOLDER/greatest_64", u64::MAX, 64)
}
PROGRAM
sed -i "s|FOLDER|$folder|" "$folder/crates/generate/src/main.rt"

cd "$folder/crates/generate"
rt try >"$folder/log" 2>&1 || { cat "$folder/log" >&2 && exit 1; }
cd "$folder"
sha256sum --check --quiet <<'DIGESTS' && echo 'check_generated: three files compared, 0 differences'
b00aec693789306e31ef18a1a719bddd91dce5728dfb22753b7c7f6b3985be12  1_1
f3fab59db5234fcc5b37ec50cde1dce1c605d2789823316a1185893e9eed2a3c  7_16
772ac68569f343fcfd6cd4be3f5de7e6148061ea1c8573e14dd3b9339b7906fc  greatest_64
DIGESTS
