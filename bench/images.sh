#!/usr/bin/env bash
# Times what the built program says of long files, as `./radix` runs it, each five times: an ELF file of 64 MiB whose one segment has no
# place in RAM, the same file with one byte more, and 64 MiB of zeros. Prints the best times, beside them those of `cat` of the same
# file, and how much more memory the program held at most than over an empty file. Ends with status 1 where a figure is beyond what is
# wanted of it.
set -eu

top=$(cd "$(dirname "${BASH_SOURCE[0]}")/.." && pwd)
program=$top/crates/radix/out/radix
most=67108864
export GLIBC_TUNABLES=${GLIBC_TUNABLES-glibc.malloc.hugetlb=1}
folder=$(mktemp -d)
trap 'rm -rf "$folder"' EXIT
beyond=0

# Sets `best` to the microseconds of the best of five runs of a command, which stands behind the file for its output.
time_command() {
    local out=$1 before after
    shift
    best=
    for _ in 1 2 3 4 5; do
        before=${EPOCHREALTIME/[.,]/}
        "$@" >"$out" 2>"$folder/said" || true
        after=${EPOCHREALTIME/[.,]/}
        if [ -z "$best" ] || [ $((after - before)) -lt "$best" ]; then
            best=$((after - before))
        fi
    done
}

# Sets `held` to the most KiB that a run over a file held, or to 0 where it is not measured.
measure_memory() {
    held=0
    if [ -x /usr/bin/time ]; then
        /usr/bin/time -f '%M' -o "$folder/memory" "$program" run "$1" "$folder/schedule" 1 >/dev/null 2>&1 || true
        held=$(tail -n 1 "$folder/memory")
    fi
}

# Times the program over a file. What the file is; the file; the line that the program prints; and the most that is wanted: microseconds
# beyond those of `cat`, and KiB of memory.
time_file() {
    local name=$1 file=$2 line=$3 limit=$4 room=$5 alone
    time_command /dev/null cat "$file"
    alone=$best
    time_command "$folder/out" "$program" run "$file" "$folder/schedule" 1
    if [ "$(cat "$folder/out")" != "$line" ]; then
        echo "bench: $name: wanted '$line', came '$(head -n 1 "$folder/out")'" >&2
        exit 1
    fi
    measure_memory "$file"
    echo "$name: $line"
    echo "  best of five: $best us; cat takes $alone us, and at most $limit more are wanted"
    echo "  memory: $((held - base)) KiB more than over an empty file, at most $room wanted"
    if [ $((best - alone)) -gt "$limit" ] || [ $((held - base)) -gt "$room" ]; then
        beyond=1
    fi
}

if [ ! -x "$program" ]; then
    "$top/tools/build.sh"
fi
"$program" --version
printf 'threads 1\n0\nrepeat\n' >"$folder/schedule"

# An image of one word whose segment's header is given the sizes of all bytes behind the headers, and these bytes.
"$top/tools/make_image.sh" 0x10000 0x10000 0x48000000 >"$folder/long.elf"
printf '\x88\xff\xff\x03' >"$folder/size"
for place in 96 104; do
    dd if="$folder/size" of="$folder/long.elf" bs=1 seek=$place conv=notrunc status=none
done
head -c $((most - 124)) /dev/zero >>"$folder/long.elf"
head -c $most /dev/zero >"$folder/zeros"
: >"$folder/empty"

measure_memory "$folder/empty"
base=$held
# The file's bytes and one copy of them, and 2 MiB.
time_file 'an image of 64 MiB' "$folder/long.elf" \
    'fault place 0000000000010000 000000000400ff88 0000000000000000 0000000001000000' 200000 $((130 * 1024))
printf 'x' >>"$folder/long.elf"
time_file 'a byte more' "$folder/long.elf" 'fault long 1' 300000 $((70 * 1024))
time_file '64 MiB of zeros' "$folder/zeros" 'fault image Magic' 300000 $((70 * 1024))

if [ ! -x /usr/bin/time ]; then
    echo "memory was not measured, since /usr/bin/time is not there"
fi
if [ $beyond -ne 0 ]; then
    echo "bench: a figure above is beyond what is wanted of it; where the machine has other work, run this again" >&2
    exit 1
fi
