#!/usr/bin/env bash
# Times what the built program writes and reads as text, as `./radix` runs it, each five times, in whole calls: `dis` (`print_listing` of
# report_text) of an image of 16 MiB of code of all layouts, into /dev/null; and `asm` of two sources of 65,536 lines, one with a label on
# each line but two, and one of the texts of that listing. Prints the best times. Ends with status 1 where an answer is wrong, or a figure is
# beyond what is wanted of it.
set -eu

top=$(cd "$(dirname "${BASH_SOURCE[0]}")/.." && pwd)
program=$top/crates/radix/out/radix
export GLIBC_TUNABLES=${GLIBC_TUNABLES-glibc.malloc.hugetlb=1}
folder=$(mktemp -d)
trap 'rm -rf "$folder"' EXIT
beyond=0

# Ends the script with what was wanted and what came.
fail() {
    echo "bench: $1: wanted '$2', came '$3'" >&2
    exit 1
}

# Sets `best` to the microseconds of the best of five runs of the program with these words, which stand behind the file for its output.
time_run() {
    local out=$1 before after
    shift
    best=
    for _ in 1 2 3 4 5; do
        before=${EPOCHREALTIME/[.,]/}
        "$program" "$@" >"$out" 2>"$folder/said" || fail "radix $*" 'status 0' "status $?, $(head -n 1 "$out") $(cat "$folder/said")"
        after=${EPOCHREALTIME/[.,]/}
        if [ -z "$best" ] || [ $((after - before)) -lt "$best" ]; then
            best=$((after - before))
        fi
    done
}

# Times `asm` of the source. What it is, and how many words its image has.
time_source() {
    local name=$1 words=$2 size
    time_run "$folder/source.elf" asm "$folder/source"
    size=$(wc -c <"$folder/source.elf")
    [ "$size" -eq $((120 + 4 * words)) ] || fail "the image of $name" "$((120 + 4 * words)) bytes" "$size"
    echo "asm, $(wc -l <"$folder/source") lines, $name: best of five: $best us, at most 600000 wanted"
    [ "$best" -le 600000 ] || beyond=1
}

if [ ! -x "$program" ]; then
    "$top/tools/build.sh"
fi
"$program" --version

# The examples of docs/INSTRUCTIONS.md, and five words more; then 65,536 times these 64 words, under the headers of an image of 16 MiB.
"$top/tools/make_image.sh" 0 0 \
    0x38600001 0x3460FFFF 0x4C7FFFC5 0x7C221E15 0x7C6400D0 0x7C642812 0x7C642E12 0x106429B3 \
    0x60638000 0x7C832839 0x7C830074 0x7C8300F4 0x7C832BF8 0x7C83FE77 0x54830706 0x5C83283E \
    0x788307C6 0x78832830 0x7C60215E 0x2FA3FFFF 0x2803FFFF 0x7C232000 0x7D8429C0 0x7C232180 \
    0x7C7C0100 0x0883FFFF 0x7FE00008 0x4BFFFFFC 0x4BFFFFFE 0x4280FFF8 0x41820001 0x41820023 \
    0x4E800021 0x4C46FA02 0x4C880000 0x7D800480 0x7C600026 0x7C780026 0x7C6FF120 0x7C701120 \
    0xE8600008 0x9421FFF0 0x7C60212D 0x7C64286A 0x7C0027EC 0x7C6802A6 0x7C6803A6 0x7C6C42E6 \
    0x7C6000A6 0x7C610164 0x7C4004AC 0x7C0006AC 0x7C00046C 0x7CA32264 0x7C00199C 0x4C00012C \
    0x4C000024 0x4C000224 0x44000022 0x7C641B78 0x80A40000 0x90A40000 0x4200FFF0 0x2C05000A >"$folder/block.elf"
tail -c +121 "$folder/block.elf" >"$folder/words"
for _ in {1..16}; do
    cat "$folder/words" "$folder/words" >"$folder/twice"
    mv "$folder/twice" "$folder/words"
done
head -c 120 "$folder/block.elf" >"$folder/code.elf"
printf '\x00\x00\x00\x01' >"$folder/size"
for place in 96 104; do
    dd if="$folder/size" of="$folder/code.elf" bs=1 seek=$place conv=notrunc status=none
done
cat "$folder/words" >>"$folder/code.elf"

time_run /dev/null dis "$folder/code.elf"
read -r lines bytes < <("$program" dis "$folder/code.elf" | wc -lc)
last=$("$program" dis "$folder/code.elf" | tail -n 1)
[ "$lines" -eq 4194304 ] || fail 'the listing' '4194304 lines' "$lines"
[ "$last" = '0000000000fffffc 2c05000a cmpi 0,0,r5,10' ] || fail 'the last line' '0000000000fffffc 2c05000a cmpi 0,0,r5,10' "$last"
echo "dis, 16 MiB of code: $lines lines, $bytes bytes, best of five: $best us, $((bytes / best)) MB/s, at least 150 wanted"
[ $((bytes / best)) -ge 150 ] || beyond=1

awk 'BEGIN {
    print ".seg 0"
    for (i = 1; i < 65535; i++) printf "l%05d: addi r3,r3,1\n", i
    print ".entry l00001"
}' >"$folder/source"
time_source 'a label on each' 65534

{
    printf '.seg 0\n.equ e, 0\n.entry e\n'
    "$program" dis "$folder/code.elf" 2>/dev/null | head -n 65533 | cut -c27-
} >"$folder/source"
time_source 'the texts of a listing' 65533
tail -c +121 "$folder/source.elf" >"$folder/again"
head -c $((4 * 65533)) "$folder/words" | cmp -s - "$folder/again" || fail 'the texts of a listing' 'the words that were listed' 'others'

if [ $beyond -ne 0 ]; then
    echo "bench: a figure above is beyond what is wanted of it; where the machine has other work, run this again" >&2
    exit 1
fi
