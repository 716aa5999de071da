#!/bin/bash
# Compares what random programs do in the machine and in QEMU. Seed, count and options go to check_qemu.py, which says what they are.
# Without the tools there is nothing to compare with: the check then says so and passes.
set -eu

directory=$(cd "$(dirname "$0")" && pwd)

for program in qemu-ppc64le python3; do
    if ! command -v "$program" > /dev/null; then
        echo "check_qemu: not run, $program is not installed"
        exit 0
    fi
done

exec python3 "$directory/check_qemu.py" "$@"
