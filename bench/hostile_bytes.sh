#!/bin/bash
# Gives the program bytes that nobody means well by, and fails where it is killed or answers other than it should:
# lines that are cut, padded and nested in unusual places, and settings files that nest deep, hold very many keys or are
# very long. Of each file it prints the status, the seconds and the memory at its peak.
#
#   bench/hostile_bytes.sh [PROGRAM]     PROGRAM is proved and built where none is given
set -euo pipefail

here=$(cd "$(dirname "$0")" && pwd)
runs=1
. "$here/timing.sh"
list_groups 1 | sed 's/group-1/a/' >"$settings"
# What differs is told here, too, since a function behind a pipe changes no variable.
: >"$work/failed"

# Prints so many copies of a text.
copies() { awk -v TIMES="$1" -v TEXT="$2" 'BEGIN { for (i = 0; i < TIMES; i++) printf("%s", TEXT) }'; }

# Runs standard input, and compares the output, the text on standard error and the status with what is wanted.
line() {
    local name=$1 output=$2 errors=$3 status=$4 told=0
    timeout 60 "$program" run "$settings" >"$work/output" 2>"$work/errors" || told=$?
    if [ "$(cat "$work/output"; echo .)" != "$(printf '%b' "$output"; echo .)" ] ||
        [ "$(cat "$work/errors"; echo .)" != "$(printf '%b' "$errors"; echo .)" ] || [ "$told" -ne "$status" ]; then
        echo "$name: status $told, $(head -c 200 "$work/output") $(head -c 200 "$work/errors")" | tee -a "$work/failed"
    fi
}

start='{"op":"start","group":"a","now":0}'
idle='{"reply":"idle"}\n'
syntax='{"error":"syntax"}\n'
field='{"error":"field"}\n'
echo | line "an empty line" "$syntax" "" 0
printf '\r' | line "one carriage return" "" "" 0
printf '%s\r\n' "$start" | line "a carriage return and a line feed" "$idle" "" 0
{ copies 1023 x; printf '\r\n'; } | line "1,023 letters and a carriage return" "$syntax" "" 0
{ copies 1024 x; printf '\r\n'; } | line "1,024 letters and a carriage return" "" "fault: line\n" 3
printf '%s\n\377\n' "$start" | line "a byte that is not UTF-8" "$idle" "fault: line\n" 3
{ copies 200 '['; copies 200 ']'; echo; } | line "200 brackets" "$syntax" "" 0
{ copies 100 '['; copies 100 ']'; echo; } | line "100 brackets" "$field" "" 0
for now in -1 '"0"' null; do
    echo "{\"op\":\"start\",\"group\":\"a\",\"now\":$now}" | line "the moment $now" "$field" "" 0
done
submit='{"op":"submit","group":"a","now":0,"arg":"x"}'
echo "${submit%\}},\"context\":1}" | line "a context without a key" "$field" "" 0
echo "{\"op\":\"submit\",\"group\":\"z\",\"now\":0,\"arg\":\"$(copies 65 x)\"}" |
    line "an unknown group and a long argument" '{"error":"group"}\n' "" 0
echo "{\"op\":\"submit\",\"group\":\"a\",\"now\":0,\"arg\":\"$(copies 22 €)\"}" |
    line "22 letters of three bytes" '{"error":"long"}\n' "" 0
for length in $(seq 0 $((${#submit} - 1))); do
    front=$([ "$length" -eq 0 ] || echo "$syntax")
    printf '%s' "${submit:0:$length}" | line "the first $length bytes of a line" "$front" "" 0
done
{ echo "$start"; copies 1025 x; echo; echo "$start"; } | line "1,025 letters behind a line" "$idle" "fault: line\n" 3
# The program stops reading in the middle of them.
{ echo "$start"; head -c 8388608 /dev/zero || true; } | line "eight million zeros in a line" "$idle" "fault: line\n" 3

# Checks the file, and compares the text on standard error and the status with what is wanted.
file() {
    local name=$1 errors=$2 status=$3 told=0
    /usr/bin/time -f '%e %M' -o "$work/cost" timeout 60 "$program" check "$work/file" >"$work/output" 2>"$work/errors" ||
        told=$?
    echo "$name: status $told, $(tail -1 "$work/cost" | awk '{ printf("%.2f s, %d MiB", $1, $2 / 1024) }')"
    if [ "$(cat "$work/errors"; echo .)" != "$(printf '%b' "$errors"; echo .)" ] || [ "$told" -ne "$status" ]; then
        echo "$name: $(head -c 200 "$work/errors")" | tee -a "$work/failed"
    fi
}

# Makes the file of the settings, a text, so many copies of another, and a third.
fill() { { cat "$settings"; printf '%s' "$1"; copies "$2" "$3"; printf '%s\n' "${4:-}"; } >"$work/file"; }

# The same of at most so many bytes.
fill_up_to() {
    local times=$((($1 - $(stat -c %s "$settings") - ${#2} - ${#4} - 1) / ${#3}))
    fill "$2" "$times" "$3" "$4"
}

# Makes the file of the settings and so many lines, each with its number between two texts.
number() {
    { cat "$settings"; awk -v TIMES="$1" -v BEFORE="$2" -v AFTER="$3" \
        'BEGIN { for (i = 0; i < TIMES; i++) printf("%s%d%s\n", BEFORE, i, AFTER) }'; } >"$work/file"
}

refused="settings refused: 1 syntax\n"
fill 'x = ' 3000 '[' "$(copies 3000 ']')"; file "arrays nested 3,000 deep" "$refused" 1
fill 'x = ' 3000 '{a=' "1$(copies 3000 '}')"; file "inline tables nested 3,000 deep" "$refused" 1
fill '' 3000 'a.' 'a = 1'; file "a dotted key of 3,000 parts" "$refused" 1
fill '[' 3000 'a.' 'a]'; file "a header of 3,000 parts" "$refused" 1
number 100000 k ' = 1'; file "100,000 keys" "" 0
number 100000 '[t' ']'; file "100,000 tables" "" 0
number 100000 'hystrix.command.g' '.a = 1'; file "100,000 groups that are not listed" "" 0

limit=$((4 << 20))
fill_up_to "$limit" '' '# comment ' ''; file "4 MiB of a comment" "" 0
fill_up_to "$limit" 'x = [' '1,' ']'; file "4 MiB of numbers" "" 0
fill_up_to "$limit" 'x = [' '{a=1},' ']'; file "4 MiB of tables" "" 0
fill_up_to "$limit" 'x = [' '{a.a.a.a=1},' ']'; file "4 MiB of tables within tables" "" 0
fill_up_to "$limit" '' $'[[x]]\n' ''; file "4 MiB of headers" "" 0
fill_up_to $((limit + 64)) '' '# comment ' ''; file "a little over 4 MiB" "fault: file\n" 3
fill_up_to $((64 << 20)) 'x = [' '{a=1},' ']'; file "64 MiB" "fault: file\n" 3
rm "$work/file"; ln -s /dev/zero "$work/file"; file "a file without an end" "fault: file\n" 3
[ ! -s "$work/failed" ]
