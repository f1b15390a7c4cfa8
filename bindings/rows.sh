#!/bin/bash
# Gives scripts of lines to the program, to the program in C over the library (c/run.c) and to the one in Python
# (../python/examples/run.py), and compares what each writes, byte for byte, and its exit status: the scripts of examples/ and of
# crates/bulkhead/data, if any, a script of every operation, one of several commands, and inputs that end a script early.
# Runs the examples too, which fail where a step of theirs does not go as it should, those of a slow dependency with the
# output that docs/SLOW.md has, what is called on handles that are empty and from several threads (c/handles.c), and changes
# of properties by structs (c/tunes.c).
#
#   bindings/rows.sh [PROGRAM LIBRARY]     both are proved and built where none are given
set -euo pipefail

here=$(cd "$(dirname "$0")" && pwd)
top=$here/..
program=${1:-$top/crates/bulkhead/out/bulkhead}
if [ $# -eq 0 ]; then
    (cd "$top/crates/bulkhead" && rt run -- --help >/dev/null)
    "$here/build.sh"
else
    "$here/build.sh" "$2"
fi
export PYTHONPATH=$top/python/src BULKHEAD_LIBRARY=$here/out/libbulkhead.so
work=$(mktemp -d)
trap 'rm -r "$work"' EXIT
same=0 differ=0

# Runs the words by a program, and keeps output, errors and status.
keep() {
    local to=$1 status=0
    shift
    "$@" <"$work/input" >"$work/$to.out" 2>"$work/$to.err" || status=$?
    echo "$status" >"$work/$to.status"
}

# Compares the program's answers with those by the library: `compare NAME WORD SETTINGS`, with the input in $work/input.
compare() {
    local by kind
    keep program "$program" "$2" "$3"
    keep c "$here/out/run" "$2" "$3"
    keep python python3 "$top/python/examples/run.py" "$2" "$3"
    for by in c python; do
        for kind in out err status; do
            if cmp -s "$work/program.$kind" "$work/$by.$kind"; then
                same=$((same + 1))
            else
                differ=$((differ + 1))
                echo "$1: $kind of $by differs"
            fi
        done
    done
}

for settings in "$top"/examples/*/settings.toml; do
    name=$(basename "$(dirname "$settings")")
    : >"$work/input"
    compare "check of $name" check "$settings"
    for script in "$(dirname "$settings")"/*.jsonl; do
        [ -f "$script" ] || continue
        cp "$script" "$work/input"
        compare "$name" run "$settings"
    done
done

cat >"$work/settings.toml" <<'END'
service.groups = ["catalog", "payment"]
service.slots.payment = 2
hystrix.command.payment.execution.isolation.strategy = "SEMAPHORE"
END
cat >"$work/every" <<'END'
{"op":"submit","group":"catalog","now":0,"arg":"item 7","context":1,"key":"k"}
{"op":"submit","group":"catalog","now":1,"arg":"item 7","context":1,"key":"k"}
{"op":"start","group":"catalog","now":2}
{"op":"collect","group":"catalog","now":2,"ticket":1}
{"op":"finish","group":"catalog","now":3,"ticket":1,"body":"\u0001 \" \\ é"}
{"op":"collect","group":"catalog","now":4,"ticket":1}
{"op":"submit","group":"catalog","now":5,"arg":"x"}
{"op":"start","group":"catalog","now":5}
{"op":"fail","group":"catalog","now":6,"ticket":2,"bad":false}
{"op":"collect","group":"catalog","now":6,"ticket":2}
{"op":"fallback","group":"catalog","now":7,"ticket":2,"end":"success","body":"stock"}
{"op":"collect","group":"catalog","now":7,"ticket":2}
{"op":"submit","group":"payment","now":0,"arg":"a"}
{"op":"submit","group":"payment","now":0,"arg":"b"}
{"op":"submit","group":"payment","now":0,"arg":"c"}
{"op":"fail","group":"payment","now":1,"ticket":1,"bad":true}
{"op":"collect","group":"payment","now":1,"ticket":1}
{"op":"expire","group":"payment","now":5000}
{"op":"collect","group":"payment","now":5000,"ticket":2}
{"op":"fallback","group":"payment","now":5000,"ticket":2,"end":"missing"}
{"op":"collect","group":"payment","now":5000,"ticket":2}
{"op":"close","group":"catalog","now":9,"context":1}
{"op":"read","group":"catalog","now":10}
{"op":"tune","group":"catalog","now":10,"property":"circuitBreaker.forceOpen","value":true}
{"op":"submit","group":"catalog","now":11,"arg":"x"}
{"op":"tune","group":"catalog","now":12,"property":"coreSize","value":3}
{"op":"tune","group":"catalog","now":12,"property":"coreSize","value":65}
{"op":"tune","group":"catalog","now":12,"property":"maxQueueSize","value":5}
{"op":"tune","group":"catalog","now":12,"property":"coreSize","value":false}
{"op":"totals","group":"catalog","now":13}
{"op":"totals","group":"nobody","now":13}
{"op":"read","group":"nobody","now":10}
{"op":"none","group":"catalog","now":10}
{"op":"read","group":"catalog"}
nothing

END
cp "$work/every" "$work/input"
compare "every operation" run "$work/settings.toml"

cat >"$work/commands.toml" <<'END'
service.groups = ["catalog", "payment"]
service.command.search.group = "catalog"
service.command.offer.group = "catalog"
service.command.refund.group = "payment"
hystrix.threadpool.default.coreSize = 1
hystrix.command.search.circuitBreaker.requestVolumeThreshold = 1
hystrix.command.search.metrics.healthSnapshot.intervalInMilliseconds = 0
hystrix.command.refund.execution.isolation.strategy = "SEMAPHORE"
END
cat >"$work/input" <<'END'
{"op":"submit","group":"catalog","command":"search","now":0,"arg":"lamp"}
{"op":"start","group":"catalog","now":0}
{"op":"fail","group":"catalog","now":1,"ticket":1,"bad":false}
{"op":"submit","group":"catalog","command":"search","now":2,"arg":"lamp","context":1,"key":"k"}
{"op":"submit","group":"catalog","command":"offer","now":2,"arg":"lamp","context":1,"key":"k"}
{"op":"start","group":"catalog","now":3}
{"op":"submit","group":"catalog","command":"catalog","now":3,"arg":"lamp"}
{"op":"submit","group":"payment","command":"refund","now":3,"arg":"order 2"}
{"op":"submit","group":"payment","now":3,"arg":"order 3"}
{"op":"start","group":"payment","now":4}
{"op":"read","group":"catalog","command":"search","now":5}
{"op":"read","group":"catalog","command":"offer","now":5}
{"op":"read","group":"catalog","command":"catalog","now":5}
{"op":"read","group":"payment","command":"refund","now":5}
{"op":"read","group":"payment","command":"search","now":5}
{"op":"read","group":"payment","command":7,"now":5}
{"op":"read","group":"nobody","command":"search","now":5}
{"op":"submit","group":"catalog","command":"","now":5,"arg":"lamp"}
{"op":"start","group":"catalog","command":7,"now":5}
END
printf '{"op":"submit","group":"catalog","command":"nobody","now":6,"arg":"%065d"}\n' 0 >>"$work/input"
printf '{"op":"submit","group":"catalog","command":"offer","now":6,"arg":"%065d"}\n' 0 >>"$work/input"
compare "several commands" run "$work/commands.toml"
compare "check of several commands" check "$work/commands.toml"
sed 's/$/\r/' "$work/every" >"$work/input"
compare "carriage returns" run "$work/settings.toml"
printf '%s' "$(head -n 3 "$work/every")" >"$work/input"
compare "no line feed at the end" run "$work/settings.toml"
{ head -n 2 "$work/every"; printf '%1100s\n' x; head -n 2 "$work/every"; } >"$work/input"
compare "a line that is too long" run "$work/settings.toml"
{ head -n 2 "$work/every"; printf '\xff\n'; head -n 2 "$work/every"; } >"$work/input"
compare "a line that is not UTF-8" run "$work/settings.toml"
: >"$work/input"
compare "no line" run "$work/settings.toml"
compare "no file" run "$work/nowhere.toml"
for refused in '' 'service.groups = []' 'service.groups = ["a", "a"]' 'service.groups = ["a"]
service.slots.a = 5000' 'service.groups = ["a"]
service.command = "b"' 'service.groups = ["a"]
service.command.b.group = "b"' 'service.groups = ["a"]
service.command.b.group = "a"
hystrix.command.b.execution.isolation.strategy = "NONE"' '= ='; do
    printf '%s' "$refused" >"$work/refused.toml"
    compare "refused settings" run "$work/refused.toml"
    compare "refused settings, checked" check "$work/refused.toml"
done
printf '\xff' >"$work/refused.toml"
compare "settings that are not UTF-8" check "$work/refused.toml"

"$here/out/example" >"$work/example"
python3 "$top/python/examples/steps.py" >>"$work/example"
"$here/out/handles"
"$here/out/tunes"

# What docs/SLOW.md says that its examples print.
for words in "$here/out/slow" "python3 $top/python/examples/slow.py"; do
    if python3 -c 'import sys; sys.exit(sys.stdin.read() not in open(sys.argv[1]).read())' "$top/docs/SLOW.md" < <($words); then
        same=$((same + 1))
    else
        differ=$((differ + 1))
        echo "docs/SLOW.md: another output of $words"
    fi
done
echo "$same agree, $differ differ"
[ "$differ" -eq 0 ]
