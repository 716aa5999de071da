#!/bin/bash
# Builds the programs of examples/linked with Debian's gcc and ld for powerpc64le, in several layouts, runs each, and compares
# what it shows on the console with the bytes that objcopy takes out of the file, and its listing with the words of the file.
# Options go to check_linker.py. Without the tools there is nothing to build: the check then says so and passes.
set -eu

directory=$(cd "$(dirname "$0")" && pwd)

for program in powerpc64le-linux-gnu-gcc powerpc64le-linux-gnu-ld powerpc64le-linux-gnu-objcopy powerpc64le-linux-gnu-objdump \
    powerpc64le-linux-gnu-nm powerpc64le-linux-gnu-strip python3; do
    if ! command -v "$program" > /dev/null; then
        echo "check_linker: not run, $program is not installed"
        exit 0
    fi
done

exec python3 "$directory/check_linker.py" "$@"
