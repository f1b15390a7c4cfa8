#!/bin/bash
# A shop in Java whose payment service goes down and comes back: it opens the shop, has 600 orders paid by four customers at
# a time, shows the page of the shop, and replays the record of all that by the program.
#
#   examples/java/run.sh [PROGRAM [JAR]]     PROGRAM is proved and built where none is given, and JAR by java/build
set -euo pipefail

here=$(cd "$(dirname "$0")" && pwd)
top=$here/../..
program=${1:-$top/crates/bulkhead/out/bulkhead}
if [ $# -eq 0 ]; then
    (cd "$top/crates/bulkhead" && rt run -- --help >/dev/null)
fi
if [ $# -lt 2 ]; then
    compgen -G "$top/java/out/bulkhead-hystrix-*[0-9].jar" >/dev/null || "$top/java/build"
fi
jar=${2:-$(ls "$top"/java/out/bulkhead-hystrix-*[0-9].jar)}
work=$(mktemp -d)
shop=
trap 'kill $shop 2>/dev/null || true; rm -r "$work"' EXIT

mkdir "$work/classes" "$work/record"
touch "$work/said"
javac -cp "$jar" -d "$work/classes" "$here/Shop.java"
java -Dbulkhead.record="$work/record" -cp "$jar:$work/classes" Shop 0 >"$work/said" &
shop=$!
until grep -q listening "$work/said"; do
    kill -0 "$shop"
    sleep 0.05
done
at=http://127.0.0.1:$(sed 's/listening on //' "$work/said")

seq 0 599 | xargs -P 4 -n 20 bash -c 'for order; do curl -s "$0/pay?$order"; done' "$at" >"$work/answers"
echo "# What the customers were told, and how often"
sed 's/order [0-9]* //' "$work/answers" | sort | uniq -c
echo "# The page of the shop"
curl -s "$at/" | sed 's/<title>.*<\/title>//; s/<[^>]*>//g'
curl -s "$at/stop"
wait "$shop"

record=$work/record/PaymentService
echo "# What the record tells, and whether the program answers it as it was answered then"
"$program" summary "$record.toml" <"$record.jsonl" | grep -v /spare-
"$program" run "$record.toml" <"$record.jsonl" | cmp - "$record.replies"
echo "$(wc -l <"$record.jsonl") steps replay byte for byte"
