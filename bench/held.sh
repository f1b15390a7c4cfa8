#!/bin/bash
# Tries to hold up a service: by a standard error that nobody reads, by clients that read nothing, send no whole line or are
# too many, and by a call that goes on. Another client has to be answered beside each, up to the connections allowed, and
# the service to end within two seconds of the end of its standard input (held.py).
#
#   bench/held.sh [-p PORT] [PROGRAM]     PROGRAM is proved and built where none is given
set -euo pipefail

here=$(cd "$(dirname "$0")" && pwd)
declare -A options=([p]=port)
port=7415
. "$here/options.sh"
. "$here/program.sh"
python3 "$here/held.py" "$program" "$port"
