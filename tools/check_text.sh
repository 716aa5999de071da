#!/bin/bash
# Compares the text of instructions that the built program prints with that of GNU objdump. Options go to check_text.py.
# Without the tools there is nothing to compare: the check then says so and passes.
set -eu

directory=$(cd "$(dirname "$0")" && pwd)

for program in powerpc64le-linux-gnu-objdump python3; do
    if ! command -v "$program" > /dev/null; then
        echo "check_text: not run, $program is not installed"
        exit 0
    fi
done

exec python3 "$directory/check_text.py" "$@"
