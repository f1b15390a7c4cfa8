#!/bin/bash
# Has twenty clients of `share` killed, stopped and broken off at random moments for half an hour, and the service stand still
# now and then (chaos.py). For the other half it has a service of the Python package called by threads, coroutines that are
# cancelled, forks, and callbacks that raise (python/chaos.py). At the end of each every slot and permit is free, nothing is left
# over, and the record replays.
#
#   bench/chaos.sh [-s SECONDS] [-r SEED] [-o ONE] [PROGRAM]     PROGRAM is proved and built where none is given, and so is the
#                                                                library by bindings/build.sh. ONE, `share` or `python`, has
#                                                                that one alone take all of the time
set -euo pipefail

here=$(cd "$(dirname "$0")" && pwd)
declare -A options=([s]=seconds [r]=seed [o]=one)
seconds=3600 seed= one=
. "$here/options.sh"
. "$here/program.sh"
case $one in
'') seconds=$((seconds / 2)) ;;
share | python) ;;
*) echo "chaos: there are share and python, and not $one" >&2; exit 2 ;;
esac
[ "$one" = python ] || python3 "$here/chaos.py" "$program" "$seconds" ${seed:+"$seed"}
[ "$one" != share ] || exit 0
[ -n "${BULKHEAD_LIBRARY:-}" ] || [ -f "$here/../bindings/out/libbulkhead.so" ] || "$here/../bindings/build.sh"
PYTHONPATH=$here/../python/src python3 "$here/python/chaos.py" "$program" "$seconds" ${seed:+"$seed"}
