#!/bin/bash
# Compares `bulkhead run`, `check`, `lint`, `cut` and `summary` with the model of model/ over settings and scripts at random,
# and fails at the first of them that is answered otherwise, which it prints.
#
#   bench/model.sh [-n SCRIPTS] [-l LINES] [-s SEED] [PROGRAM]     the seeds are SEED, SEED + 1, ..
set -euo pipefail

here=$(cd "$(dirname "$0")" && pwd)
declare -A options=([n]=scripts [l]=lines [s]=seed)
scripts=1000 lines=300 seed=1
. "$here/options.sh"
. "$here/program.sh"
PYTHONDONTWRITEBYTECODE=1 PYTHONPATH=$here python3 -m model -n "$scripts" -l "$lines" -s "$seed" "$program"
