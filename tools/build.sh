#!/usr/bin/env bash
# Proves and builds the program, crates that do not wait for one another side by side, and prints a line as each is done.
set -u
set -o pipefail

top=$(cd "$(dirname "${BASH_SOURCE[0]}")/.." && pwd)
program=$top/crates/radix/out/radix

if ! command -v rt >/dev/null; then
    echo "radix: the program is not built for these sources; that takes the Rattle kit, whose command rt is not on the path"
    exit 17
fi

# The crates that the program is made of: itself, and what crates.txt names below it.
crates_of_program() {
    awk -F: '/^[a-z]/ { split($1, name, " "); needs[name[1]] = $2 }
        function reach(crate,    parts, count, k) {
            if (crate in seen || !(crate in needs)) return
            seen[crate] = 1
            count = split(needs[crate], parts, " ")
            for (k = 1; k <= count; k++) reach(parts[k])
            print crate
        }
        END { reach("radix") }' "$top/crates.txt"
}

# How many crates are worked on at once: as many as there are processors, with 3 GiB of memory each.
jobs_at_once() {
    local processors memory
    processors=$(getconf _NPROCESSORS_ONLN 2>/dev/null || echo 1)
    memory=$(awk '/^MemAvailable:/ { print int($2 / 3145728) }' /proc/meminfo 2>/dev/null)
    if [ -n "$memory" ] && [ "$memory" -lt "$processors" ]; then
        processors=$memory
    fi
    if [ "$processors" -lt 1 ]; then
        processors=1
    fi
    echo "$processors"
}

time_so_far() {
    printf '%d min %02d s' $((SECONDS / 60)) $((SECONDS % 60))
}

left=$(crates_of_program | wc -l)
jobs=$(jobs_at_once)
log=$(mktemp) || exit 17
trap 'rm -f "$log"' EXIT

echo "radix: proving and building the program, $left crates, $jobs at once; the first time takes some minutes (README.md says how many)"
(cd "$top/crates/radix" && rt all check --jobs "$jobs" 2>&1 </dev/null) | while IFS= read -r line; do
    printf '%s\n' "$line" >>"$log"
    case $line in
        '== summary') ;;
        '== '*)
            left=$((left - 1))
            echo "radix: ${line#== } is done, $left to go, $(time_so_far)"
            ;;
    esac
done
if [ $? -ne 0 ] || ! (cd "$top/crates/radix" && rt run -- --version) >>"$log" 2>&1 </dev/null; then
    cat "$log"
    echo "radix: the program could not be built, for the reason above"
    exit 17
fi
touch "$program"
echo "radix: built in $(time_so_far)"
