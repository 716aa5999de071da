#!/usr/bin/env bash
# Makes the run that each page of examples/ names, and compares its report and its image; assembles the sources first. Ends at the
# first difference.
set -u

top=$(cd "$(dirname "${BASH_SOURCE[0]}")/.." && pwd)
program=$top/crates/radix/out/radix
folder=$(mktemp -d) || exit 1
trap 'rm -rf "$folder"' EXIT
made=$folder/made
count=0

if [ ! -x "$program" ]; then
    "$top/tools/build.sh" || exit 1
fi
cd "$top" || exit 1

for name in first loop overflow trap system_call memory console; do
    page=examples/$name/README.md
    read -r -a words < <(sed -n 's|^    ./radix ||p' "$page")
    if ! "$program" "${words[@]}" >"$made" || ! cmp "$made" "examples/$name/$name.report"; then
        echo "examples: the run of $page has another report than examples/$name/$name.report"
        diff "$made" "examples/$name/$name.report"
        echo "The report follows from docs/MACHINE.md and the words: work out by hand which of the two is right."
        exit 1
    fi
    read -r -a words < <(sed -n 's|^    tools/make_image.sh ||p' "$page")
    if ! tools/make_image.sh "${words[@]}" | cmp - "examples/$name/$name.elf"; then
        echo "examples: the words of $page make another image than examples/$name/$name.elf; write it anew by the page's last line"
        exit 1
    fi
    for word in $(sed -n 's/^| [0-9a-f]* | `\([0-9A-F]*\)` .*/0x\1/p' "$page"); do
        case " ${words[*]} " in
            *" $word "*) ;;
            *) echo "examples: $page explains $word, which is no word of its image"; exit 1 ;;
        esac
    done
    count=$((count + 1))
done
for file in first.elf first.sched; do
    cmp "examples/first/$file" "crates/radix/data/$file" || { echo "examples: crates/radix/data/$file is to be the same as examples/first/$file"; exit 1; }
done
cmp examples/first/first.report crates/radix/stdout || { echo "examples: crates/radix/stdout is to be the report of examples/first"; exit 1; }

# The sources: each is assembled and run as its page says.
for source in asm/first.s asm/tables.s asm/hypervisor.s generated/generated.s \
    guest/guest.asm guest/first_load.asm guest/missing.asm guest/largest.asm; do
    page=examples/${source%/*}/README.md
    name=$(basename "${source%.*}")
    report=examples/${source%.*}.report
    [ -e "$report" ] || report=examples/$name/$name.report
    if ! grep -qxF "    ./radix asm examples/$source >$name.elf" "$page"; then
        echo "examples: $page does not say how examples/$source is assembled"
        exit 1
    fi
    if ! "$program" asm "examples/$source" >"$folder/$name.elf"; then
        echo "examples: examples/$source is not assembled: $(head -c 100 "$folder/$name.elf")"
        exit 1
    fi
    read -r -a words < <(sed -n "s|^    ./radix run $name.elf ||p" "$page")
    "$program" run "$folder/$name.elf" "${words[@]}" >"$made" 2>/dev/null
    if ! cmp "$made" "$report"; then
        echo "examples: the run of examples/$source, by $page, has another report than $report"
        diff "$made" "$report"
        exit 1
    fi
    if ! "$program" dis "$folder/$name.elf" >>"$folder/listing"; then
        echo "examples: the image of examples/$source is not listed"
        exit 1
    fi
    count=$((count + 1))
done
cmp "$folder/first.elf" examples/first/first.elf || { echo "examples: examples/asm/first.s is to make examples/first/first.elf"; exit 1; }

# Each word of the page of sources stands in a listing, at its address.
while read -r address word; do
    printf -v line '%016x %s ' "0x$address" "${word,,}"
    grep -qF "$line" "$folder/listing" || { echo "examples: examples/asm/README.md has $word at $address, where no source has it"; exit 1; }
done < <(sed -n 's/^| \([0-9a-f]*\) | `\([0-9A-F]\{8\}\)` .*/\1 \2/p' examples/asm/README.md)

# The image that a seed and a size make: the digest of its file stands in its page.
if command -v sha256sum >/dev/null; then
    wanted=$(sed -n 's/^    \([0-9a-f]\{64\}\)  generated.elf$/\1/p' examples/generated/README.md)
    came=$(sha256sum <"$folder/generated.elf")
    if [ "${came%% *}" != "$wanted" ]; then
        echo "examples: the image of examples/generated/generated.s has the SHA-256 ${came%% *}, and its page says $wanted"
        exit 1
    fi
else
    echo "examples: sha256sum is not installed, so the image of examples/generated/generated.s was not compared"
fi

# The fixture has the segments of this image and two doublewords; and the rows of walks in three reports, which came from the program too, are
# those that a script works out from the rules alone.
if command -v python3 >/dev/null; then
    python3 tools/fixture.py --compare "$folder/generated.elf" "$folder/guest.elf" || exit 1
    for name in first_load missing largest; do
        if ! python3 tools/walk_cases.py --walks "$name" | diff - <(grep '^[rf] ' "examples/guest/$name.report"); then
            echo "examples: the rows of walks in examples/guest/$name.report are not what tools/walk_cases.py works out"
            exit 1
        fi
    done
else
    echo "examples: python3 is not installed, so the image of examples/guest/guest.asm and the rows of walks were not compared"
fi

echo "examples: $count runs have their reports"
