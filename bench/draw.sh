#!/bin/bash
# Prints what `bulkhead summary` and `bulkhead draw` take for a script beside `bulkhead run`: the processor time of each and its
# ratio to that of `run`, by turns, the best of the runs, and the most resident memory that each has, of a tenth of the lines
# and of all. It fails where a ratio is over 1.5, where the picture is no SVG, and where all lines take more than twice the
# memory that a tenth of them takes.
#
#   bench/draw.sh [-n LINES] [-g GROUPS] [-c COMMANDS] [-r RUNS] [PROGRAM]
#
# COMMANDS are those of each group, its own one among them. PROGRAM is proved and built where none is given.
set -euo pipefail

here=$(cd "$(dirname "$0")" && pwd)
declare -A options=([n]=lines [g]=groups [c]=commands [r]=runs)
lines=1000000 groups=16 commands=1 runs=3
. "$here/options.sh"
. "$here/timing.sh"

list_groups "$groups" >"$settings"
list_commands "$groups" "$commands" >>"$settings"
awk -v GROUPS="$groups" -v COMMANDS="$commands" -v LINES="$lines" -f "$here/load.awk" >"$work/load"

head -n $((lines / 10)) "$work/load" >"$work/tenth"

# Runs each command over the lines in turn, and prints of each the least seconds and the most kilobytes.
python3 - "$program" "$settings" "$work" "$runs" <<'END_OF_PYTHON'
import os
import select
import subprocess
import sys

program, settings, work, runs = sys.argv[1], sys.argv[2], sys.argv[3], int(sys.argv[4])
COMMANDS = ("run", "summary", "draw")


def seconds_of(command: str) -> float:
    """The processor time of one run."""
    with open(f"{work}/load") as lines, open(f"{work}/{command}", "w") as out:
        child = subprocess.Popen([program, command, settings], stdin=lines, stdout=out)
        _, status, usage = os.wait4(child.pid, 0)
    if status != 0:
        sys.exit(f"{command} ended with {status}")
    return usage.ru_utime + usage.ru_stime


def most_so_far(process: int) -> int:
    """The most kilobytes that a process had so far, which is none once it has ended."""
    with open(f"/proc/{process}/status") as status:
        return next((int(line.split()[1]) for line in status if line.startswith("VmHWM:")), 0)


def kilobytes_of(command: str, lines: str) -> int:
    """The most memory of one run, looked at each millisecond, and before each of the bytes is read that it writes."""
    most = 0
    with open(f"{work}/{lines}") as given:
        child = subprocess.Popen([program, command, settings], stdin=given, stdout=subprocess.PIPE)
    assert child.stdout is not None
    while True:
        ready, _, _ = select.select([child.stdout], [], [], 0.001)
        most = max(most, most_so_far(child.pid))
        if ready and not os.read(child.stdout.fileno(), 4096):
            break
    child.wait()
    return most


seconds = dict.fromkeys(COMMANDS, float("inf"))
for _ in range(runs):
    for command in COMMANDS:
        seconds[command] = min(seconds[command], seconds_of(command))
is_well = True
for command in COMMANDS:
    ratio = seconds[command] / seconds["run"]
    tenth, whole = kilobytes_of(command, "tenth"), kilobytes_of(command, "load")
    is_well = is_well and ratio <= 1.5 and whole <= 2 * tenth
    print(f"{command}: {seconds[command]:.3f} s, {ratio:.2f} times run, {tenth} KB for a tenth of the lines, {whole} KB for all")
with open(f"{work}/draw") as picture:
    text = picture.read()
sys.exit(not (is_well and text.startswith("<svg ") and text.endswith("</svg>\n")))
END_OF_PYTHON
