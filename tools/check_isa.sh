#!/bin/bash
# Compares the instruction table of docs/INSTRUCTIONS.md with GNU binutils.
# Options go to check_isa.py (see check_isa.sh --help). Without the tools there is nothing to compare: the
# check then says so and passes.
set -eu

directory=$(cd "$(dirname "$0")" && pwd)

for program in powerpc64le-linux-gnu-as powerpc64le-linux-gnu-objdump python3; do
    if ! command -v "$program" > /dev/null; then
        echo "check_isa: not run, $program is not installed"
        exit 0
    fi
done

exec python3 "$directory/check_isa.py" "$@"
