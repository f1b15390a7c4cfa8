#!/bin/bash
# Refuses each allocation in turn, and fails where that ends in another way than it should: of each call of the
# libraries by the tests of `bh_refusals`, and of the whole program for several command lines.
#
#   bench/refused.sh [-p PORT] [PROGRAM TESTS..]
#
# PROGRAM is `bulkhead` and TESTS the built tests of that crate; both are proved and built where they are not given.
# Nothing here may take longer than twenty seconds, so that nothing hangs unseen.
set -euo pipefail

here=$(cd "$(dirname "$0")" && pwd)
crates=$here/../crates
declare -A options=([p]=port)
port=7413
. "$here/options.sh"
program=${1:-$crates/bulkhead/out/bulkhead}
built=("${@:2}")
work=$(mktemp -d)
trap 'rm -r "$work"' EXIT
failures=0

if [ $# -eq 0 ]; then
    (cd "$crates/bulkhead" && rt run -- --help >"$work/build" 2>&1) || { cat "$work/build"; exit 1; }
    (cd "$crates/bh_refusals" && rt test >"$work/build" 2>&1) || { cat "$work/build"; exit 1; }
    built=("$crates/bh_refusals/out/bh_refusals_tests")
fi
cc -O2 -shared -fPIC -o "$work/refuse.so" "$here/refuse.c" -ldl

# Says what was wrong with a run.
wrong() {
    echo "$*" >&2
    failures=$((failures + 1))
}

# Runs a command with its Nth allocation refused, to the files out and errors; `refused` is there where it was.
# Without N it is only said when to refuse by the command itself.
limited() {
    local nth=$1
    shift
    rm -f "$work/refused"
    timeout 20 env LD_PRELOAD="$work/refuse.so" REFUSE="$nth" REFUSED="$work/refused" "$@" \
        >"$work/out" 2>"$work/errors"
}

# Whether what was written is a front of the right text that ends with a whole line.
is_front() {
    head -c "$(stat -c %s "$work/out")" "$work/right" | cmp -s - "$work/out" &&
        { [ ! -s "$work/out" ] || [ -z "$(tail -c 1 "$work/out")" ]; }
}

# The lines of the errors, in one line.
errors() {
    tr '\n' '|' <"$work/errors"
}

# Whether the last run ended as it does with all memory: its status, and the right one.
is_right() {
    [ "$1" -eq "$2" ] && cmp -s "$work/out" "$work/right" && cmp -s "$work/errors" "$work/right_errors"
}

# Each allocation of a command line in turn: the name, the right status, how many refusals it passes over, the input, and
# the arguments. The list of the arguments is such a one, as it is made all the same by asking again; and so are the list of
# the further commands of a group, and the one that it lies in, as settings are shown all the same without them.
each_allocation() {
    local name=$1 right_status=$2 passed_over=$3 input=$4 status nth again=0
    shift 4
    status=0
    "$program" "$@" <"$input" >"$work/right" 2>"$work/right_errors" || status=$?
    [ "$status" -eq "$right_status" ] || wrong "$name: status $status with all memory"
    for ((nth = 1; ; nth++)); do
        status=0
        limited "$nth" "$program" "$@" <"$input" || status=$?
        [ -e "$work/refused" ] || break
        if is_right "$status" "$right_status"; then
            again=$((again + 1))
        elif [ "$status" -ne 3 ] || [ "$(errors)" != "fault: memory|" ] || ! is_front; then
            wrong "$name: allocation $nth: status $status, $(errors)"
        fi
    done
    is_right "$status" "$right_status" || wrong "$name: nothing refused: status $status, $(errors)"
    [ "$again" -eq "$passed_over" ] || wrong "$name: $again refusals are passed over, and not $passed_over"
    echo "$name: $((nth - 1)) allocations, $again passed over"
}

# Waits until the service listens or has ended, two seconds at most.
until_listening() {
    for _ in $(seq 200); do
        ! grep -qs listening "$work/out" || return 0
        kill -0 "$1" 2>/dev/null || return 0
        sleep 0.01
    done
}

# Makes a connection, asks for the groups and for an answer, and reads until the connection ends.
talk() {
    exec 3<>"/dev/tcp/127.0.0.1/$port" || return 0
    printf '{"op":"groups"}\n{"op":"call","group":"a","arg":"x"}\n' >&3
    head -n 2 <&3
    exec 3>&-
}

# Each allocation of a service with one connection: it ends as it should, or it serves. One refusal is passed over, that of
# the list of the arguments.
each_allocation_of_serve() {
    local status nth service ends="" served=0
    printf 'listening %s\n' "$port" >"$work/right"
    for ((nth = 1; ; nth++)); do
        rm -f "$work/out"
        limited "$nth" "$program" serve "$work/settings.toml" --port "$port" --connections 1 </dev/null &
        service=$!
        until_listening "$service"
        timeout 10 bash -c "$(declare -f talk); port=$port; talk" >"$work/talked" 2>/dev/null || true
        status=0
        wait "$service" || status=$?
        case $status,$(errors) in
        "3,fault: memory|" | "3,fault: thread|" | "0,fault: memory|") is_front || wrong "serve: allocation $nth: wrong output" ;;
        "0,") cmp -s "$work/talked" "$work/answers" || wrong "serve: allocation $nth: $(cat "$work/talked")" ;;
        *) wrong "serve: allocation $nth: status $status, $(errors)" ;;
        esac
        [ -e "$work/refused" ] || break
        [ "$status,$(errors)" != "0," ] || served=$((served + 1))
        ends+="$status,$(errors)"$'\n'
    done
    [ "$served" -eq 1 ] || wrong "serve: $served refusals are passed over, and not 1"
    echo "serve: $((nth - 1)) allocations, $served passed over"
    printf '%s' "$ends" | sort | uniq -c
}

cat >"$work/settings.toml" <<'END'
service.groups = ["a", "b"]
service.auditSteps = 1000
service.slots.b = 16
service.command.late.group = "b"
hystrix.command.default.execution.isolation.thread.timeoutInMilliseconds = 500
hystrix.command.b.execution.isolation.strategy = "SEMAPHORE"
hystrix.threadpool.a.coreSize = 2
END
cat >"$work/script" <<'END'
{"op":"submit","group":"a","now":0,"arg":"x","context":7,"key":"k"}
{"op":"submit","group":"a","now":0,"arg":"x","context":7,"key":"k"}
{"op":"start","group":"a","now":1}
{"op":"finish","group":"a","now":2,"ticket":1,"body":"r"}
{"op":"collect","group":"a","now":3,"ticket":1}
{"op":"close","group":"a","now":5,"context":7}
{"op":"read","group":"a","now":6}
{"op":"start","group":"b","now":6,"more":{"is read":["as",{"a":"tree"}]}}
{"op":"jump","group":"a","now":6}
END
printf '%s\n' '{"groups":["a","b"],"reply":"groups"}' '{"body":"x","reply":"value"}' >"$work/answers"

for tests in "${built[@]}"; do
    for test in $("$tests" --list | sed -n 's/: test$//p'); do
        limited 0 "$tests" "$test" </dev/null || wrong "$test: $(errors)"
    done
done
each_allocation run 0 1 "$work/script" run "$work/settings.toml"
each_allocation check 0 3 /dev/null check "$work/settings.toml"
each_allocation --help 0 1 /dev/null --help
each_allocation "run --help" 0 1 /dev/null run --help
each_allocation "no argument" 2 1 /dev/null
each_allocation "a wrong argument" 2 1 /dev/null serve "$work/settings.toml" --port 0
each_allocation "no file" 3 1 /dev/null run "$work/none.toml"
each_allocation_of_serve
[ "$failures" -eq 0 ] || { echo "$failures ends were wrong" >&2; exit 1; }
