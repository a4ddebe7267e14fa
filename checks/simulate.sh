#!/bin/sh
# Simulates sessions: sh checks/simulate.sh SEED COUNT. Prints each difference from the rules with its seed, and at last how many seeds, moments and
# differences there were. Ends with status 1 if there is a difference. The program is proved and built first, unless it is there.
set -eu
if [ "$#" -ne 2 ]; then
    echo "sh checks/simulate.sh SEED COUNT" >&2
    exit 2
fi
cd "$(dirname "$0")/../crates/simulation"
if [ -x out/simulation ]; then
    exec out/simulation "$@"
fi
exec rt run -- "$@"
