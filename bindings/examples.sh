#!/bin/bash
# Gives the program the worked scripts that lie beside their answers, and compares: those of examples/, the lines that are cut
# out of one, and the run of crates/bulkhead.
#
#   bindings/examples.sh PROGRAM
set -euo pipefail

top=$(cd "$(dirname "$0")/.." && pwd)
program=$(realpath "$1")
same=0 differ=0

# Whether the program, given the input, writes what stands in the file and ends well: `answers WHAT WANTED INPUT WORDS..`.
answers() {
    local what=$1 wanted=$2 input=$3 status=0
    shift 3
    "$program" "$@" <"$input" | cmp -s - "$wanted" || status=1
    if [ "$status" -eq 0 ]; then
        same=$((same + 1))
    else
        differ=$((differ + 1))
        echo "$what differs from $wanted"
    fi
}

for replies in "$top"/examples/*/replies.jsonl; do
    beside=$(dirname "$replies")
    answers "a run of $(basename "$beside")" "$replies" "$beside/script.jsonl" run "$beside/settings.toml"
done
beside=$top/examples/come-and-go
answers "a cut of come-and-go" "$beside/tenant-7.jsonl" "$beside/script.jsonl" cut "$beside/settings.toml" --group tenant-7
answers "a run of that cut" "$beside/tenant-7.replies.jsonl" "$beside/tenant-7.jsonl" run "$beside/settings.toml"
mapfile -t words <"$top/crates/bulkhead/args"
cd "$top/crates/bulkhead/data"
answers "the run of crates/bulkhead" "$top/crates/bulkhead/stdout" "$top/crates/bulkhead/stdin" "${words[@]}"

echo "$same agree, $differ differ"
[ "$differ" -eq 0 ]
