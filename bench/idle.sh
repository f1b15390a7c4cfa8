#!/bin/bash
# Prints how much of one processor `serve` takes while nobody calls: its workers sleep, and its timer looks for tickets
# that are due.
#
#   bench/idle.sh [-g GROUPS] [-w WORKERS] [-s SECONDS] [-p PORT] [PROGRAM]
#
# WORKERS is how many each group has. PROGRAM is proved and built where none is given.
set -euo pipefail

here=$(cd "$(dirname "$0")" && pwd)
declare -A options=([g]=groups [w]=workers [s]=seconds [p]=port)
groups=1000 workers=1 seconds=20 port=7413
. "$here/options.sh"
. "$here/service.sh"
list_settings "$groups" "hystrix.threadpool.default.coreSize = $workers" >"$work/settings.toml"

# The processor time of the service so far, in ticks of the kernel.
ticks() {
    awk '{ sub(/.*\) /, ""); print $12 + $13 }' "/proc/$service/stat"
}

start "$program" --connections 1
sleep 2
before=$(ticks)
sleep "$seconds"
after=$(ticks)
awk -v GROUPS="$groups" -v TICKS=$((after - before)) -v A_SECOND="$(getconf CLK_TCK)" -v SECONDS_IDLE="$seconds" 'BEGIN {
    printf("%d idle groups: %.2f %% of a processor over %d s\n", GROUPS, TICKS * 100 / A_SECOND / SECONDS_IDLE, SECONDS_IDLE)
}'
