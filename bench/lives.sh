#!/bin/bash
# Prints what a registration, a retirement and a step cost: of groups of 64 slots beside 1, 100 and 1,000 such groups, of
# groups of one slot beside 1 and 1,000, and of groups of 4,096 slots beside one. Nanoseconds, the means of some rounds,
# each the least of some runs; the clock's own time is taken off. It fails where one of them does not go as it should.
#
#   bench/lives.sh [-n ROUNDS] [-r RUNS] [PROGRAM]     PROGRAM is proved and built where none is given
#
# The program is `lives.rt.txt`. It is no crate of the repository, so it is built in a folder of its own, over copies of
# the crates that it stands on and of what earlier checks left in their out/.
set -euo pipefail

here=$(cd "$(dirname "$0")" && pwd)
declare -A options=([n]=rounds [r]=runs)
rounds=2000 runs=5
. "$here/options.sh"
work=$(mktemp -d)
trap 'rm -r "$work"' EXIT
program=${1:-$work/crates/lives/out/lives}

# Proves and builds the program.
build() {
    local name
    mkdir -p "$work/crates/lives/src"
    for name in bh_base bh_rolling bh_admit bh_circuit bh_index_lists bh_slot_arena bh_cache bh_tickets bh_core; do
        grep "^$name:" "$here/../crates.txt" >>"$work/crates.txt"
        cp -a "$here/../crates/$name" "$work/crates/"
    done
    echo "lives: bh_base bh_core" >>"$work/crates.txt"
    cp "$here/lives.rt.txt" "$work/crates/lives/src/main.rt"
    (cd "$work/crates/lives" && rt run -- 1 1 1 1)
}

if [ $# -eq 0 ]; then
    build >"$work/build" 2>&1 || { cat "$work/build"; exit 1; }
fi
for each in "1 64" "100 64" "1000 64" "1 1" "1000 1" "1 4096"; do
    read -r groups slots <<<"$each"
    "$program" "$groups" "$slots" "$rounds" "$runs"
done
