#!/bin/bash
# Builds the C programs of examples/linked/programs with Debian's gcc and ld for powerpc64le, at several levels of optimisation and in several
# layouts, runs each, and compares what it shows on the console with what the same source prints when the host's compiler builds it.
# Options go to check_programs.py. Without the tools there is nothing to build: the check then says so and passes.
set -eu

directory=$(cd "$(dirname "$0")" && pwd)

for program in powerpc64le-linux-gnu-gcc powerpc64le-linux-gnu-nm powerpc64le-linux-gnu-objdump powerpc64le-linux-gnu-strip gcc python3; do
    if ! command -v "$program" > /dev/null; then
        echo "check_programs: not run, $program is not installed"
        exit 0
    fi
done

exec python3 "$directory/check_programs.py" "$@"
