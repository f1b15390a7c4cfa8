#!/bin/bash
# Runs the service under a supervisor that ends it by a signal: SIGTERM or SIGINT end its standard input, so that it ends
# well, and its status is the status here.
#
#   examples/serve/supervised.sh PROGRAM SETTINGS PORT [OPTION]..
set -euo pipefail

program=$1 settings=$2 port=$3
shift 3
folder=$(mktemp -d)
mkfifo "$folder/input"
"$program" serve "$settings" --port "$port" --keep-serving "$@" <"$folder/input" &
service=$!
exec 3>"$folder/input"
trap 'exec 3>&-' TERM INT
rm -r "$folder"

# A signal that is taken ends a wait before the service has ended.
status=0
wait "$service" || status=$?
while kill -0 "$service" 2>/dev/null; do
    wait "$service" && status=0 || status=$?
done
exit "$status"
