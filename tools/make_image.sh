#!/usr/bin/env bash
# Writes the file of an image to standard output: its first instruction at ENTRY, and these words of 32 bits in memory from
# ADDRESS on. docs/FORMATS.md, "The image", describes the file.
#
#     tools/make_image.sh ENTRY ADDRESS WORD.. >FILE
#
# The numbers are decimal, or hexadecimal after 0x. `objdump -d` of GNU binutils for powerpc64le prints the words of a program that
# `as` has assembled.
set -eu

if [ $# -lt 3 ]; then
    echo "make_image: give the entry, the address and at least one word" >&2
    exit 2
fi

# The text of a number, from its lowest byte on, as escapes of printf: the number of bytes, then the number.
bytes=
put() {
    local left=$1 value=$2 byte
    while [ "$left" -gt 0 ]; do
        printf -v byte '\\x%02x' $((value & 255))
        bytes+=$byte
        value=$((value >> 8))
        left=$((left - 1))
    done
}

entry=$(($1))
address=$(($2))
shift 2
size=$((4 * $#))
bytes='\x7fELF\x02\x01\x01'
put 9 0
put 2 2; put 2 21; put 4 1; put 8 "$entry"; put 8 64; put 8 0
put 4 2; put 2 64; put 2 56; put 2 1; put 6 0
put 4 1; put 4 7; put 8 120; put 8 "$address"; put 8 "$address"; put 8 "$size"; put 8 "$size"; put 8 1
for word in "$@"; do
    put 4 $((word))
done
printf "$bytes"
