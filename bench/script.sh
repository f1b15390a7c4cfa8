#!/bin/bash
# Prints how many lines a second of one processor's time a script is answered at, and what of that reading takes: the
# same lines with an operation that there is not are cut, read and refused. It fails where a line is answered `worn` or
# by a fault, or not at all.
#
#   bench/script.sh [-n LINES] [-g GROUPS] [-c COMMANDS] [-r RUNS] [PROGRAM]
#
# COMMANDS are those of each group, its own one among them. PROGRAM is proved and built where none is given.
set -euo pipefail

here=$(cd "$(dirname "$0")" && pwd)
declare -A options=([n]=lines [g]=groups [c]=commands [r]=runs)
lines=1000000 groups=16 commands=1 runs=3
. "$here/options.sh"
. "$here/timing.sh"

list_groups "$groups" >"$settings"
list_commands "$groups" "$commands" >>"$settings"
awk -v GROUPS="$groups" -v COMMANDS="$commands" -v LINES="$lines" -f "$here/load.awk" >"$work/load"
sed 's/"op":"[a-z]*"/"op":"none"/' "$work/load" >"$work/refused"

whole=$(best "$work/load")
worn=$(grep -c '"reply":"worn"' "$work/answers" || true)
faulty=$(grep -c '"error"' "$work/answers" || true)
reading=$(best "$work/refused")
echo "$lines lines of $groups groups of $commands commands, best of $runs: $((lines * 1000 / whole)) a second, $((whole * 1000000 / lines)) ns each"
echo "of these, cutting, reading and refusing: $((reading * 1000000 / lines)) ns each"
echo "and steps and replies: $(((whole - reading) * 1000000 / lines)) ns each"
echo "answered worn: $worn, by a fault: $faulty"
[ "$worn" -eq 0 ] && [ "$faulty" -eq 0 ]
