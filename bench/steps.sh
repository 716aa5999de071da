#!/usr/bin/env bash
# Times loops with the built program, as `./radix` runs it, each run five times, and prints the best wall times of whole calls,
# opening and report included:
# - 1,048,576 steps of two instructions; of eight sums, products and a quotient; of eight logic operations, shifts, rotations and a
#   count; of a system call with its return and a branch; and of a load, a sum, a store and a branch;
# - 524,288 steps of stores to the console and branches;
# - opening 16 MiB of RAM alone, for no step, and for 1,048,576 steps of which the first one stops;
# - the report of the loads and stores with --trace, from which the time of the same run without it is taken off.
# Prints for two of them the most memory they held. Ends with status 1 where a figure is beyond what is wanted of it.
set -eu

top=$(cd "$(dirname "${BASH_SOURCE[0]}")/.." && pwd)
program=$top/crates/radix/out/radix
steps=1048576
export GLIBC_TUNABLES=${GLIBC_TUNABLES-glibc.malloc.hugetlb=1}
folder=$(mktemp -d)
trap 'rm -rf "$folder"' EXIT
beyond=0

# Runs the program with these words after a file for its report and its exit status, and sets `best` to the microseconds of the best run.
time_run() {
    local report=$1 wanted=$2 before after status
    shift 2
    best=
    for _ in 1 2 3 4 5; do
        status=0
        before=${EPOCHREALTIME/[.,]/}
        "$program" run "$@" >"$report" 2>"$folder/said" || status=$?
        after=${EPOCHREALTIME/[.,]/}
        if [ "$status" -ne "$wanted" ]; then
            echo "bench: radix run $* ended with $status, and not with $wanted" >&2
            exit 1
        fi
        if [ -z "$best" ] || [ $((after - before)) -lt "$best" ]; then
            best=$((after - before))
        fi
    done
}

# Times so many steps of a loop with this entry and address of these words, and prints its times.
time_loop() {
    local name=$1 count=$2
    shift 2
    "$top/tools/make_image.sh" "$@" >"$folder/loop.elf"
    time_run "$folder/report" 0 "$folder/loop.elf" "$folder/loop.sched" "$count"
    if ! grep -qx "steps $count" "$folder/report" || ! grep -qx 'end all' "$folder/report"; then
        echo "bench: the report of $name does not say steps $count" >&2
        exit 1
    fi
    echo "$name: $count steps, best of five: $best us, $((count * 1000000 / best)) steps/s"
}

# Prints the most KiB that a run with these words held, and compares them with the limit before them.
measure_memory() {
    local name=$1 limit=$2 held
    shift 2
    if [ ! -x /usr/bin/time ]; then
        echo "$name: peak memory not measured, since /usr/bin/time is not there"
        return
    fi
    /usr/bin/time -f '%M' -o "$folder/memory" "$program" run "$@" >/dev/null
    held=$(cat "$folder/memory")
    echo "$name: peak memory $held KiB, at most $limit wanted"
    [ "$held" -le "$limit" ] || beyond=1
}

if [ ! -x "$program" ]; then
    "$top/tools/build.sh"
fi
"$program" --version
printf 'threads 1\n0\nrepeat\n' >"$folder/loop.sched"

# at 0xc00 rfid, to which sc goes; sc; b .-4
time_loop 'a system call, its return and a branch' $steps 0xc04 0xc00 0x4C000024 0x44000002 0x4BFFFFFC
# addi, add, subf, addic, adde, mulld, neg, divdu; b .-32
time_loop 'eight sums, products and quotients' $steps 0x10000 0x10000 \
    0x38630003 0x7C841A14 0x7CA32050 0x30C4FFFF 0x7CE53114 0x7D0321D2 0x7D2800D0 0x7D481B92 0x4BFFFFE0
# ori, xor, sld, rlwinm, cntlzd, andc, srawi, rldicl, b .-32
time_loop 'eight logic operations, shifts, rotations and counts' $steps 0x10000 0x10000 \
    0x60630005 0x7C841A78 0x7C652036 0x54A638F8 0x7CC70074 0x7CA83878 0x7D091E70 0x792A6900 0x4BFFFFE0
# addis r4,0,0x1000; stb r3,0(r4); b .-4
time_loop 'stores to the console, and branches' 524288 0x10000 0x10000 0x3C801000 0x98640000 0x4BFFFFFC
# addi r3,r3,1; b .-4
time_loop 'two instructions' $steps 0x10000 0x10000 0x38630001 0x4BFFFFFC
two=$best
# addis r4,0,2; lwz r5,0(r4); addi r5,r5,1; stw r5,0(r4); b .-12
time_loop 'a load, a sum, a store and a branch' $steps 0x10000 0x10000 0x3C800002 0x80A40000 0x38A50001 0x90A40000 0x4BFFFFF4
hundredths=$((100 * best / two))
printf '  %d.%02d times as long a step as two instructions, at most 1.50 wanted\n' $((hundredths / 100)) $((hundredths % 100))
[ $hundredths -le 150 ] || beyond=1

# The report with --trace of the same loop.
time_run /dev/null 0 "$folder/loop.elf" "$folder/loop.sched" $steps
plain=$best
time_run /dev/null 0 "$folder/loop.elf" "$folder/loop.sched" $steps --trace
spent=$((best > plain ? best - plain : 1))
bytes=$("$program" run "$folder/loop.elf" "$folder/loop.sched" $steps --trace | wc -c)
echo "its report with --trace: $bytes bytes in $best us, of which the run takes $plain: $((bytes / spent)) MB/s, at least 200 wanted"
[ $((bytes / spent)) -ge 200 ] || beyond=1

# A word that is no instruction stops the machine in its first step.
time_run "$folder/report" 0 "$folder/loop.elf" "$folder/loop.sched" 0
echo "opening alone, for no step: $best us"
"$top/tools/make_image.sh" 0x10000 0x10000 0xC8000000 >"$folder/stop.elf"
time_run "$folder/report" 13 "$folder/stop.elf" "$folder/loop.sched" $steps
echo "opening for $steps steps, of which the first stops: $best us"

# RAM, 8 MiB, and the journal: 332 MiB by the places and bytes of docs/MACHINE.md, "The journal".
limit=$(((332 + 16 + 8) * 1024))
measure_memory 'a load, a sum, a store and a branch' $limit "$folder/loop.elf" "$folder/loop.sched" $steps
measure_memory 'the same with --trace' $limit "$folder/loop.elf" "$folder/loop.sched" $steps --trace

if [ $beyond -ne 0 ]; then
    echo "bench: a figure above is beyond what is wanted of it; where the machine has other work, run this again" >&2
    exit 1
fi
