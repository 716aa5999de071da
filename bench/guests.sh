#!/usr/bin/env bash
# Times walks of tables with the built program, as `./radix` runs it: best wall times of three whole calls, opening and report included.
# - 1,048,576 steps of a hypervisor's loop of twenty instructions whose data are translated: eighteen sums, a load through the tables of
#   a guest, which are 16 words, and a branch; beside them the same loop with a sum in place of the load;
# - a guest that branches to itself until its journal is full, behind trees of two levels (16 words a fetch) and behind the largest
#   ones (36 words);
# - the report of the first of these with --walks, from which the time of the same run without it is taken off.
# Prints the most memory that these held. Ends with status 1 where a figure is beyond what is wanted of it.
set -eu

top=$(cd "$(dirname "${BASH_SOURCE[0]}")/.." && pwd)
program=$top/crates/radix/out/radix
steps=1048576
export GLIBC_TUNABLES=${GLIBC_TUNABLES-glibc.malloc.hugetlb=1}
folder=$(mktemp -d)
trap 'rm -rf "$folder"' EXIT
beyond=0

# Runs the program with these words after the exit status that is wanted, and sets `best` to the microseconds of the best run.
time_run() {
    local wanted=$1 before after status
    shift
    best=
    for _ in 1 2 3; do
        status=0
        before=${EPOCHREALTIME/[.,]/}
        "$program" run "$@" >"$folder/report" 2>/dev/null || status=$?
        after=${EPOCHREALTIME/[.,]/}
        if [ "$status" -ne "$wanted" ]; then
            echo "bench: radix run $* ended with $status, and not with $wanted" >&2
            exit 1
        fi
        if [ -z "$best" ] || [ $((after - before)) -lt "$best" ]; then
            best=$((after - before))
        fi
    done
}

# Assembles an example of guests with other code in place of the lines that an awk program finds.
make_image() {
    local name=$1 source=$2 change=$3
    awk "$change" "$top/examples/guest/$source" >"$folder/$name.asm"
    "$program" asm "$folder/$name.asm" >"$folder/$name.elf"
}

if [ ! -x "$program" ]; then
    "$top/tools/build.sh"
fi
"$program" --version
printf 'threads 1\n0\nrepeat\n' >"$folder/loop.sched"

# The hypervisor's loop in place of hrfid: data are translated (DR), register 6 is 4000000000010000, in quadrant 1. Register 9 is 10000.
loop() {
    echo '/^ *hrfid/ {
        print " mfmsr r8"; print " ori r8,r8,16"; print " mtmsrd r8,0"
        print " addis r6,0,16384"; print " rldicr r6,r6,32,31"; print " addis r9,0,1"; print " or r6,r6,r9"
        print "again: '"$1"'"
        for (k = 0; k < 18; k++) print " addi r3,r3,1"
        print " b again"; next
    } { print }'
}
make_image sums first_load.asm "$(loop 'addi r3,r3,1')"
make_image loads first_load.asm "$(loop 'ld r7,0(r6)')"
time_run 0 "$folder/sums.elf" "$folder/loop.sched" $steps
sums=$best
echo "a loop of nineteen sums and a branch: $steps steps in $best us"
time_run 0 "$folder/loads.elf" "$folder/loop.sched" $steps
hundredths=$((100 * best / sums))
printf 'the same with a load through 16 words: %d us, %d.%02d times as long, at most 3.00 wanted\n' "$best" $((hundredths / 100)) $((hundredths % 100))
[ $hundredths -le 300 ] || beyond=1

# A guest whose first instruction branches to itself; its journal is full before the steps are made, which is status 14.
endless='/^[a-z0-9]+: *ld r7,0\(r12\)/ { sub(/ld r7,0\(r12\)/, "b .") } { print }'
make_image small first_load.asm "$endless"
make_image largest largest.asm "$endless"
for name in small largest; do
    time_run 14 "$folder/$name.elf" "$folder/loop.sched" $steps
    made=$(sed -n 's/^steps //p' "$folder/report")
    echo "a guest behind the $name trees: $made steps in $best us, $((made * 1000000 / best)) steps/s, $((best * 1000 / made)) ns a step"
    [ "$name" = largest ] || plain=$best
done

time_run 14 "$folder/small.elf" "$folder/loop.sched" $steps --walks
bytes=$(wc -c <"$folder/report")
spent=$((best > plain ? best - plain : 1))
echo "its report with --walks: $bytes bytes in $best us, of which the run takes $plain: $((bytes / spent)) MB/s, at least 100 wanted"
[ $((bytes / spent)) -ge 100 ] || beyond=1

if [ -x /usr/bin/time ]; then
    /usr/bin/time -f '%M' -o "$folder/memory" "$program" run "$folder/small.elf" "$folder/loop.sched" $steps --walks >/dev/null 2>&1 || true
    held=$(tail -1 "$folder/memory")
    echo "peak memory with --walks: $held KiB, at most 400000 wanted"
    [ "$held" -le 400000 ] || beyond=1
else
    echo "peak memory not measured, since /usr/bin/time is not there"
fi

if [ $beyond -ne 0 ]; then
    echo "bench: a figure above is beyond what is wanted of it; where the machine has other work, run this again" >&2
    exit 1
fi
