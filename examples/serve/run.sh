#!/usr/bin/env bash
# A slow dependency is short-circuited while another group answers: starts the service on a port of this machine,
# talks to it over one connection, and shows each line that is sent (>) and the line that answers it (<).
#
#   examples/serve/run.sh [PROGRAM [PORT]]     PROGRAM is proved and built where none is given
set -euo pipefail

here=$(cd "$(dirname "$0")" && pwd)
program=${1:-$here/../../crates/bulkhead/out/bulkhead}
port=${2:-7411}
work=$(mktemp -d)
service=
trap 'kill $service 2>/dev/null || true; rm -r "$work"' EXIT

if [ $# -eq 0 ]; then
    (cd "$here/../../crates/bulkhead" && rt run -- --help >"$work/build" 2>&1) || { cat "$work/build"; exit 1; }
fi

"$program" serve "$here/settings.toml" --port "$port" >"$work/listening" &
service=$!
until grep -q listening "$work/listening"; do
    kill -0 "$service"
    sleep 0.05
done
exec 3<>"/dev/tcp/127.0.0.1/$port"

ask() {
    echo "> $1"
    echo "$1" >&3
    IFS= read -t 10 -r reply <&3
    echo "< $reply"
}

echo "# What groups there are"
ask '{"op":"groups"}'
echo "# Three calls of a dependency that takes longer than the group's 200 milliseconds: each is timed out"
for _ in 1 2 3; do
    ask '{"op":"call","group":"slow","arg":"sleep 400"}'
done
echo "# The circuit breaker opens: the next call is not run at all"
ask '{"op":"call","group":"slow","arg":"quick"}'
ask '{"op":"metrics","group":"slow"}'
echo "# The other group is as it was"
ask '{"op":"call","group":"steady","arg":"quick"}'
ask '{"op":"metrics","group":"steady"}'
echo "# After its sleep window the circuit breaker lets one call pass, and closes when it succeeds"
sleep 1.1
ask '{"op":"call","group":"slow","arg":"quick"}'
ask '{"op":"metrics","group":"slow"}'

exec 3>&-
status=0
wait "$service" || status=$?
service=
echo "# The connection has ended, and the service with it: status $status"
