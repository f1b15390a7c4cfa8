#!/bin/bash
# Proves a crate from nothing by one process, and prints how many seconds each of its functions took, the dearest first. A
# function with several values to drop and several ways out takes the most, and is often proved sooner as two.
#
#   bench/proofs.sh CRATE [MOST]     the twenty dearest where MOST is not given; libraries below it are proved first where
#                                    they are not
set -euo pipefail

if [ $# -lt 1 ] || [ $# -gt 2 ]; then
    sed -n '2,6p' "$0" >&2
    exit 2
fi
crate=$(cd "$(dirname "$0")/../crates/$1" && pwd) most=${2:-20}
kept=$crate/out/incremental
rm -rf "$kept"
(cd "$crate" && rt check --jobs 1 >&2)

# The parts of a function's proof are files, which are written one after the other.
find "$kept" -name "Rattle-$1-*.oantt" ! -path '*/records/*' -printf '%T@ %f\n' | sort -n | awk -v most="$most" '
    NR > 1 {
        name = $2
        sub(/^Rattle-[a-z_]*-(proofs|specs)\./, "", name)
        sub(/(\.(Lts|Proof|Tie|Met|Code|Layout|Statement|Kinds|Key|Named|Given|Goals|Answers|Invariants)[^.]*)*\.oantt$/, "", name)
        took[name] += $1 - before
        total += $1 - before
    }
    { before = $1 }
    END {
        printf "%7.1f in all\n", total
        for (name in took) printf "%7.1f %s\n", took[name], name | "sort -rn | head -" most
    }'
