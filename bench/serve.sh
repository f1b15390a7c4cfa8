#!/bin/bash
# Prints how many calls a second `serve` answers over 1, 8 and 64 connections, with the median (p50) and the 99th
# percentile (p99) of the time that a call takes, and the context switches of the service for each call.
#
#   bench/serve.sh [-n CALLS] [-g GROUPS] [-r RUNS] [-s SETTINGS] [-o OTHER] [-p PORT] [PROGRAM]
#
# SETTINGS are lines of a settings file for all groups; where none are given, there are two tables: of built-in settings
# and of SEMAPHORE. OTHER is another build of the program, or that of `echo`, and is run beside it in turn. Each figure is
# that of the median run by calls a second. PROGRAM is proved and built where none is given.
set -euo pipefail

here=$(cd "$(dirname "$0")" && pwd)
declare -A options=([n]=calls [g]=groups [r]=runs [s]=settings [o]=other [p]=port)
calls=40000 groups=16 runs=3 settings= other= port=7412
. "$here/options.sh"
. "$here/service.sh"
cc -O2 -pthread -o "$work/client" "$here/serve_client.c"

# Prints the figures of one run of a program over so many connections.
run_once() {
    start_with_input "$1" --connections "$2"
    "$work/client" "$port" "$2" "$calls" "$groups" "$service"
    end_input
    await_end
}

run_this() {
    run_once "$program" "$1"
}

run_other() {
    run_once "$other" "$1"
}

# Prints the table of the settings, which are lines of a settings file for all groups.
print_settings() {
    list_settings "$groups" "$2" >"$work/settings.toml"
    print_table "$1" calls
}

if [ -n "$settings" ]; then
    print_settings "given settings" "$settings"
else
    print_settings "built-in settings" ""
    print_settings "SEMAPHORE" 'hystrix.command.default.execution.isolation.strategy = "SEMAPHORE"'
fi
