#!/bin/bash
# Prints what a step costs by a call of the library (steps.c), with 1, 64 and 4,096 tickets held in a group, and with 1, 16
# and 1,000 groups: nanoseconds of processor time, the mean of a submit, a start, a finish and a collect.
#
#   bench/steps_c.sh [-n STEPS] [-r RUNS] [LIBRARY]     LIBRARY is proved and built where none is given
set -euo pipefail

here=$(cd "$(dirname "$0")" && pwd)
declare -A options=([n]=steps [r]=runs)
steps=1000000 runs=20
. "$here/options.sh"
. "$here/../bindings/library.sh"
work=$(mktemp -d)
trap 'rm -r "$work"' EXIT
cc -O2 -Wall -Wextra -I "$here/../include" -o "$work/steps" "$here/steps.c" "$library" "${archives[@]}"

for each in "1 1" "1 64" "1 4096" "16 1" "16 4096" "1000 1" "1000 64"; do
    read -r groups held <<<"$each"
    "$work/steps" "$groups" "$held" "$steps" "$runs"
done
