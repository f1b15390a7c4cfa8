#!/bin/bash
# Calls a service over connections that come and go, hostile ones among them, for an hour: each call has to be answered
# once and by its own argument, the metrics have to add up, the memory that the service has once they are gone has to be
# within two percent of what it had before they came, its resident size at most two more than when all had left it after
# the first minute, and no thread and no descriptor may be left over (soak.py). It needs cc.
#
#   bench/soak.sh [-s SECONDS] [-p PORT] [PROGRAM]     PROGRAM is proved and built where none is given
set -euo pipefail

here=$(cd "$(dirname "$0")" && pwd)
declare -A options=([s]=seconds [p]=port)
seconds=3600 port=7416
. "$here/options.sh"
. "$here/program.sh"
cc -O2 -shared -fPIC -o "$work/live.so" "$here/live.c"
python3 "$here/soak.py" "$program" "$port" "$seconds" "$work/live.so"
