#!/bin/bash
# Runs each test with threads many times in a row, alone and then while every processor is kept busy, and fails where
# one fails or takes longer than a minute.
#
#   bench/stress.sh [-n TIMES] [TESTS..]     TESTS are the built tests of `bh_workers_tests`, proved and built where not
#                                            given
set -euo pipefail

here=$(cd "$(dirname "$0")" && pwd)
crates=$here/../crates
declare -A options=([n]=times)
times=100
. "$here/options.sh"
built=("$@")
work=$(mktemp -d)
busy=()
trap 'end_load; rm -r "$work"' EXIT

end_load() {
    [ ${#busy[@]} -eq 0 ] || kill "${busy[@]}" 2>/dev/null || true
    busy=()
}

# Keeps every processor busy, twice over.
load_all() {
    for _ in $(seq $((2 * $(nproc)))); do
        (while :; do :; done) &
        busy+=($!)
    done
}

# Runs a test so many times.
run_one() {
    local started=$SECONDS
    for _ in $(seq "$times"); do
        timeout 60 "$2" "$3" >"$work/out" 2>&1 || { echo "$1: $3 failed" >&2; cat "$work/out" >&2; exit 1; }
    done
    echo "$1: $3, $times times in $((SECONDS - started)) s"
}

# Runs each test with threads so many times.
run_all() {
    local tests test
    for tests in "${built[@]}"; do
        for test in $("$tests" --list | sed -n 's/: test$//p' | grep -E '^(lives|mixed|stress|threads|waking)::'); do
            run_one "$1" "$tests" "$test"
        done
    done
}

if [ $# -eq 0 ]; then
    (cd "$crates/bh_workers_tests" && rt test >"$work/build" 2>&1) || { cat "$work/build"; exit 1; }
    built=("$crates/bh_workers_tests/out/bh_workers_tests_tests")
fi
run_all alone
load_all
run_all "under load"
