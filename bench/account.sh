#!/bin/bash
# Makes a million calls over 64 connections, each of which has to be answered once and by its own argument, and then
# compares what the metrics of all groups count with the calls that were made.
#
#   bench/account.sh [-n CALLS] [-g GROUPS] [-p PORT] [PROGRAM]     PROGRAM is proved and built where none is given
set -euo pipefail

here=$(cd "$(dirname "$0")" && pwd)
declare -A options=([n]=calls [g]=groups [p]=port)
calls=1000000 groups=16 port=7414
. "$here/options.sh"
. "$here/service.sh"
cc -O2 -pthread -o "$work/client" "$here/serve_client.c"

# The window is an hour, so that no call has left it when the metrics are read.
list_settings "$groups" "hystrix.command.default.metrics.rollingStats.timeInMilliseconds = 3600000" >"$work/settings.toml"
start_with_input "$program" --connections 64 --keep-serving
"$work/client" "$port" 64 "$calls" "$groups" "$service"
exec 3<>"/dev/tcp/127.0.0.1/$port"
for ((group = 0; group < groups; group++)); do
    printf '{"op":"metrics","group":"g%d"}\n' "$group" >&3
    IFS= read -t 10 -r answer <&3
    echo "$answer"
done >"$work/metrics"
exec 3>&-
end_input
await_end
counted=$(sed 's/.*"SUCCESS":\([0-9]*\).*/\1/' "$work/metrics" | awk '{ sum += $1 } END { print sum }')
echo "$calls calls, $counted counted as successes in $(grep -vc '"events":{"SUCCESS":[0-9]*}' "$work/metrics" || true) groups with other events"
[ "$counted" -eq "$calls" ]
