#!/bin/bash
# Prints what a step costs, with its reply, as a group holds 1, 64, 1,024 and 4,096 tickets, and with 1, 16 and 1,000
# groups that hold one each: nanoseconds of processor time, the mean of a submit, a start, a finish and a collect. What
# cutting and reading the lines take is left out: it is measured by the same lines with an operation that there is not.
#
#   bench/steps.sh [-n LINES] [-r RUNS] [PROGRAM]     PROGRAM is proved and built where none is given
set -euo pipefail

here=$(cd "$(dirname "$0")" && pwd)
declare -A options=([n]=lines [r]=runs)
lines=2000000 runs=3
. "$here/options.sh"
. "$here/timing.sh"

# Prints what a step costs with so many groups that hold so many tickets each.
measure() {
    local groups=$1 held=$2 rounds before whole refused
    rounds=$((lines / 4 / groups)) before=$((3 * groups * (held - 1)))
    { list_groups "$groups"; echo "service.slots.default = $held"; } >"$settings"
    awk -v GROUPS="$groups" -v HELD="$held" -v ROUNDS="$rounds" -f "$here/steps.awk" >"$work/load"
    sed "$((before + 1)),\$s/\"op\":\"[a-z]*\"/\"op\":\"none\"/" "$work/load" >"$work/refused"
    whole=$(best "$work/load")
    if grep -qv '"reply":"\(queued\|assigned\|done\|value\)"' "$work/answers"; then
        echo "a step did not go as it should" >&2
        exit 1
    fi
    refused=$(best "$work/refused")
    echo "$groups groups of $held tickets: $(((whole - refused) * 1000000 / (4 * groups * rounds))) ns a step"
}

for held in 1 64 1024 4096; do
    measure 1 "$held"
done
for groups in 16 1000; do
    measure "$groups" 1
done
