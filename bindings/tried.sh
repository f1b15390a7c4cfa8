#!/bin/bash
# What runs without any proof: the first command of README.md, which has to say within two seconds what it waits for, and a
# copy of crates/own, renamed, beside its server, with the answers that docs/OWN.md has. Each compiles for a minute or more.
#
#   bindings/tried.sh
set -euo pipefail

top=$(cd "$(dirname "$0")/.." && pwd)
work=$(mktemp -d)
server=
trap 'kill $server 2>/dev/null || true; rm -rf "$work"' EXIT
same=0 differ=0

agree() {
    if [ "$2" = "$3" ]; then
        same=$((same + 1))
    else
        differ=$((differ + 1))
        printf '%s differs\n--- %s\n+++ %s\n' "$1" "$3" "$2"
    fi
}

"$top/try" >"$work/answers" 2>"$work/said" &
run=$!
sleep 2
agree "what ./try says at once" "$(head -n 1 "$work/said" | sed 's/[0-9]* s/N s/')" "try: N s: reads the crates and the libraries below them"
wait "$run" || true
agree "the answers of ./try" "$(cat "$work/answers")" "$(cat "$top/examples/full-pool/replies.jsonl")"

mkdir "$work/repository"
tar -C "$top" --exclude='crates/*/out' -cf - crates crates.txt HANDLES examples | tar -C "$work/repository" -xf -
cd "$work/repository"
examples/own/copy mine >/dev/null
port=$(python3 -c 'import socket; print(socket.create_server(("127.0.0.1", 0)).getsockname()[1])')
examples/own/server.py "$port" &
server=$!
status=0
(cd crates/mine && rt try -- "127.0.0.1:$port" <../../examples/own/requests) >"$work/own" 2>/dev/null || status=$?
agree "the status of a copy of crates/own" "$status" 0
agree "the answers of a copy of crates/own" "$(cat "$work/own")" "$(sed -n '/^item 7: /,/^```$/p' "$top/docs/OWN.md" | sed '$d')"

echo "$same agree, $differ differ"
[ "$differ" -eq 0 ]
