#!/bin/bash
# Prints what a call of a command costs in Python, in microseconds, beside a bare function, Debian's
# python3-circuitbreaker (where it is there) and concurrent.futures: of each the least and the middle of its rounds, all by
# turns in one run.
#
#   bench/python.sh [ROUNDS [PROGRAM]]   25 where none are given; the library is built by bindings/build.sh where it is not
#                                        there. With PROGRAM also by `bulkhead.connect` to its `share`
#
# It runs by Debian's Python where that one alone has the circuitbreaker.
set -euo pipefail

here=$(cd "$(dirname "$0")" && pwd)
[ -n "${BULKHEAD_LIBRARY:-}" ] || [ -f "$here/../bindings/out/libbulkhead.so" ] || "$here/../bindings/build.sh"
python=python3
if ! python3 -c 'import circuitbreaker' 2>/dev/null && /usr/bin/python3 -c 'import circuitbreaker' 2>/dev/null; then
    python=/usr/bin/python3
fi
echo "load: $(cut -d ' ' -f 1-3 /proc/loadavg), $(nproc) processors, $("$python" --version)"
PYTHONPATH=$here/../python/src exec "$python" "$here/python/calls.py" "${1:-25}" ${2:+"$2"}
