#!/bin/bash
# Prints what calls over four connections take alone, and beside 60 connections of clients that are silent, slow or
# broken (hostile_client.c): calls a second, median (p50) and 99th percentile (p99).
#
#   bench/hostile.sh [-n CALLS] [-g GROUPS] [-i IDLE] [-p PORT] [PROGRAM]
#
# IDLE is after how many seconds the service closes a connection that does nothing. PROGRAM is proved and built where
# none is given.
set -euo pipefail

here=$(cd "$(dirname "$0")" && pwd)
declare -A options=([n]=calls [g]=groups [i]=idle [p]=port)
calls=40000 groups=16 idle=2 port=7413
. "$here/options.sh"
. "$here/service.sh"
hostile=
trap 'end_hostile; end_service; rm -r "$work"' EXIT

end_hostile() {
    [ -z "$hostile" ] || kill "$hostile" 2>/dev/null || true
    hostile=
}

cc -O2 -pthread -o "$work/client" "$here/serve_client.c"
cc -O2 -o "$work/hostile" "$here/hostile_client.c"
# The last group is called by the hostile clients alone: those who call one group share its workers.
list_settings "$((groups + 1))" "" >"$work/settings.toml"

# Prints the figures of four connections.
call_four() {
    "$work/client" "$port" 4 "$calls" "$groups" "$service" | {
        read -r rate p50 p99 switches busy
        printf '%s: %7.0f calls a second, p50 %.3f ms, p99 %.3f ms\n' "$1" "$rate" "$p50" "$p99"
    }
}

# The service goes on until its standard input is closed, of which nobody else keeps the writing end open.
start_with_input "$program" --connections 64 --keep-serving --idle "$idle" 2>"$work/errors"
call_four "4 connections alone"
"$work/hostile" "$port" 60 "g$groups" >"$work/connected" &
hostile=$!
within_ten_seconds grep -qs connected "$work/connected"
sleep 1
call_four "4 connections beside 60"
end_hostile
end_input
await_end
echo "the service reported: $(sort "$work/errors" | uniq -c | tr -s ' \n' ' ')"
