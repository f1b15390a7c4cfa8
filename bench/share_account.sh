#!/bin/bash
# Makes a million steps in a service that connections share, over 64 connections that come and go, many of them with runs and
# answers in their hands, and accounts for each step by the record of the service (share_account.py).
#
#   bench/share_account.sh [-n STEPS] [PROGRAM]     PROGRAM is proved and built where none is given
set -euo pipefail

here=$(cd "$(dirname "$0")" && pwd)
steps=1000000
declare -A options=([n]=steps)
. "$here/options.sh"
. "$here/program.sh"
python3 "$here/share_account.py" "$program" "$steps"
