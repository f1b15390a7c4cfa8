#!/bin/bash
# Prints lines a second of one processor's time of `bulkhead run` and of a plain Rust program (`plain`) over the same
# lines, in turn in one run, and fails unless both give the same answers.
#
#   bench/plain.sh [-n LINES] [-g GROUPS] [-r RUNS] [PROGRAM]
#
# It needs cargo, and of Debian's packages librust-serde-json-dev and librust-serde+derive-dev; CRATES is where those
# lie. PROGRAM is proved and built where none is given.
set -euo pipefail

here=$(cd "$(dirname "$0")" && pwd)
declare -A options=([n]=lines [g]=groups [r]=runs)
lines=1000000 groups=16 runs=5
. "$here/options.sh"
. "$here/timing.sh"

cp -r "$here/plain" "$work/plain"
(cd "$work/plain" && cargo build --release --offline --quiet \
    --config 'source.crates-io.replace-with = "debian"' \
    --config "source.debian.directory = \"${CRATES:-/usr/share/cargo/registry}\"")
list_groups "$groups" >"$settings"
awk -v GROUPS="$groups" -v COMMANDS=1 -v LINES="$lines" -f "$here/load.awk" >"$work/load"

# Prints the milliseconds of processor time of a command over the lines; its answers go to a file.
took() {
    local TIMEFORMAT='%U %S' answers=$1
    shift
    { time timeout 600 "$@" <"$work/load" >"$answers"; } 2>"$work/time"
    awk 'END { printf("%d", ($1 + $2) * 1000) }' "$work/time"
}

proved= plain=
for _ in $(seq "$runs"); do
    each=$(took "$work/answers" "$program" run "$settings")
    proved=$((proved && proved < each ? proved : each))
    each=$(took "$work/plain_answers" "$work/plain/target/release/plain" "$groups")
    plain=$((plain && plain < each ? plain : each))
done
cmp "$work/answers" "$work/plain_answers"
echo "$lines lines of $groups groups, best of $runs: bulkhead $((lines * 1000 / proved)) a second, a plain program $((lines * 1000 / plain))"
