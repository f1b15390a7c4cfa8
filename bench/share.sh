#!/bin/bash
# Prints how many requests a second `share` decides over 1, 8 and 64 connections, by a port and by a socket, with the median
# (p50) and the 99th percentile (p99) of the time that a request takes, and the context switches of the service for each. A
# request is a submit, a finish and a collect under SEMAPHORE, each sent once the one before is answered. Then it prints how
# long ten permits stay taken whose client is killed (killed.py), and fails where that is over ten milliseconds.
#
#   bench/share.sh [-n REQUESTS] [-g GROUPS] [-r RUNS] [-k TIMES] [-o ECHO] [-p PORT] [PROGRAM]
#
# A client is killed so many TIMES. ECHO is the program of `echo`, which is run beside it in turn: the same lines, each
# answered by one. Each figure is that of the median run by requests a second. PROGRAM is proved and built where none is given.
set -euo pipefail

here=$(cd "$(dirname "$0")" && pwd)
calls=40000 groups=16 runs=3 times=100 other= port=7417
declare -A options=([n]=calls [g]=groups [r]=runs [k]=times [o]=other [p]=port)
. "$here/options.sh"
. "$here/service.sh"
cc -O2 -pthread -o "$work/client" "$here/serve_client.c"
list_settings "$groups" 'hystrix.command.default.execution.isolation.strategy = "SEMAPHORE"
hystrix.command.default.execution.isolation.semaphore.maxConcurrentRequests = 64' >"$work/settings.toml"

# Prints the figures of one run over so many connections to `place`, a port or a socket.
run_this() {
    verb=share
    start_with_input "$program" --connections "$1"
    "$work/client" "$place" "$1" "$calls" "$groups" "$service" shared
    end_input
    await_end
}

# The same of the echo, which ends with its connections.
run_other() {
    verb=serve
    start "$other" --connections "$1"
    "$work/client" "$place" "$1" "$calls" "$groups" "$service" echoed
    await_end
    rm -f "$work/socket"
}

place=$port
print_table "by a port" requests
place=$work/socket address=(--socket "$work/socket")
print_table "by a socket" requests

# Whose client is killed has failed, so that a circuit breaker would open.
list_settings 1 'hystrix.command.default.execution.isolation.strategy = "SEMAPHORE"
hystrix.command.default.circuitBreaker.enabled = false' >"$work/settings.toml"
verb=share
start_with_input "$program" --connections 2
python3 "$here/killed.py" "$work/socket" g0 "$times"
end_input
await_end
