#!/bin/bash
# What the program tells its user: each refusal and fault with the fixed text, its status and, with --explain, the line that
# says more, and the same output without it; the forms of a lint; the pictures of the examples, and why there is none; a shared
# service from its first line to its end, and its record; and that the man page has the commands and options of --help, no
# more, no fewer, and says the same of each.
#
#   bindings/told.sh [PROGRAM]     PROGRAM is proved and built where none is given
set -euo pipefail

top=$(cd "$(dirname "$0")/.." && pwd)
program=$(realpath "${1:-$top/crates/bulkhead/out/bulkhead}")
if [ $# -eq 0 ]; then
    (cd "$top/crates/bulkhead" && rt run -- --help >/dev/null)
fi
work=$(mktemp -d)
busy=
trap 'kill $busy 2>/dev/null || true; chmod -R u+rwx "$work"; rm -r "$work"' EXIT
cd "$work"
same=0 differ=0

# Counts whether two texts agree: `agree WHAT FOUND WANTED`.
agree() {
    if [ "$2" = "$3" ]; then
        same=$((same + 1))
    else
        differ=$((differ + 1))
        printf '%s differs\n--- %s\n+++ %s\n' "$1" "$3" "$2"
    fi
}

# Runs the words over the input, with --explain and without: `tells STATUS FIXED MORE WORDS..`. MORE may be empty.
tells() {
    local wanted=$1 fixed=$2 more=$3 status=0
    shift 3
    "$program" "$@" <input >plain.out 2>plain.err || status=$?
    agree "the status of $*" "$status" "$wanted"
    agree "the errors of $*" "$(cat plain.err)" "$fixed"
    status=0
    "$program" "$@" --explain <input >more.out 2>more.err || status=$?
    agree "the status of $* --explain" "$status" "$wanted"
    agree "the errors of $* --explain" "$(cat more.err)" "$fixed${fixed:+${more:+$'\n'}}$more"
    agree "the output of $* --explain" "$(cat more.out)" "$(cat plain.out)"
}

# The same without --explain, for commands that do not have it: `says STATUS FIXED WORDS..`. The output is left in plain.out.
says() {
    local wanted=$1 fixed=$2 status=0
    shift 2
    "$program" "$@" <input >plain.out 2>plain.err || status=$?
    agree "the status of $*" "$status" "$wanted"
    agree "the errors of $*" "$(cat plain.err)" "$fixed"
}

# The same of a settings file, read from here: `refuses FIXED MORE`.
refuses() {
    cat >settings.toml
    tells 1 "settings refused: $1" "explain: $2" check settings.toml
    tells 1 "settings refused: $1" "explain: $2" run settings.toml
    tells 1 "settings refused: $1" "explain: $2" serve settings.toml --port 1
    tells 1 "settings refused: $1" "explain: $2" share settings.toml --port 1
    says 1 "settings refused: $1" draw settings.toml
    agree "the output of draw under refused settings" "$(cat plain.out)" ""
}

: >input
refuses "1 syntax" "line 4, column 1: invalid key, expected letters, numbers, \`-\`, \`_\` or a quoted key" <<'END'
service.groups = ["payment"]

[hystrix.threadpool.payment]
== 3
END
refuses "1 syntax" "line 2, column 1: duplicate key" <<'END'
service.groups = ["payment"]
service.groups = ["catalog"]
END
printf 'service.groups = ["a"]\n# \xff\n' | refuses "1 syntax" "line 2, column 3: a byte that is not UTF-8"
refuses "1 syntax" "line 2, column 39: number out of range" <<'END'
service.groups = ["payment"]
hystrix.threadpool.payment.coreSize = 12345678901234567890
END
refuses "7 out of range: payment coreSize" "hystrix.threadpool.payment.coreSize is 100; it has to be an integer from 1 to 64" <<'END'
service.groups = ["payment"]
hystrix.threadpool.payment.coreSize = 100
END
refuses "7 out of range: payment execution.isolation.strategy" "hystrix.command.default.execution.isolation.strategy is \"Thread\"; it has to be \"THREAD\" or \"SEMAPHORE\"" <<'END'
service.groups = ["payment"]
hystrix.command.default.execution.isolation.strategy = "Thread"
END

echo 'service.groups = ["payment"]' >settings.toml
tells 3 "fault: file" "explain: none.toml: No such file or directory (os error 2)" check none.toml
tells 3 "fault: file" "explain: $work: Is a directory (os error 21)" run "$work"
if [ "$(id -u)" -ne 0 ]; then
    cp settings.toml secret.toml
    chmod 000 secret.toml
    tells 3 "fault: file" "explain: secret.toml: Permission denied (os error 13)" serve secret.toml --port 1
fi

python3 -c 'import socket, time
taken = socket.create_server(("127.0.0.1", 0))
print(taken.getsockname()[1], flush=True)
time.sleep(600)' >port &
busy=$!
until [ -s port ]; do sleep 0.02; done
port=$(cat port)
tells 3 "fault: network" "explain: port $port of 127.0.0.1: Address already in use (os error 98)" serve settings.toml --port "$port"
kill "$busy"
busy=
if [ "$(id -u)" -ne 0 ] && [ "$(cat /proc/sys/net/ipv4/ip_unprivileged_port_start)" -gt 1 ]; then
    tells 3 "fault: network" "explain: port 1 of 127.0.0.1: Permission denied (os error 13)" serve settings.toml --port 1
fi

cat >input <<'END'
{"op":"submit","group":"payment","now":0,"arg":"order 3"}
{"op":"finish","group":"payment","now":1,"body":"paid"}
{"op":"start","group":"paymnt","now":1}
END
tells 0 "" "explain: line 2: ticket is missing; it has to be a whole number from 0 to 18446744073709551615
explain: line 3: there is no group \"paymnt\"" run settings.toml
printf '{"op":"start","group":"payment","now":1}\n%01025d\n' 0 >input
tells 3 "fault: line" "explain: line 2: more than 1024 bytes, the most that a line may have" run settings.toml

# A lint has colours on a terminal alone, and none where they are refused or it tells objects: `on_terminal WORDS..`.
on_terminal() {
    python3 -c 'import os, pty, sys
sys.exit(os.waitstatus_to_exitcode(pty.spawn(sys.argv[1:])))' "$@" </dev/null | tr -d '\r'
}
cat >settings.toml <<'END'
service.groups = ["payment"]
paymnt = 1
END
found='nothing looks up `paymnt` in the file'
object='{"column":1,"file":"settings.toml","line":2,"message":"'$found'","nearest":null,"range":null,"severity":"warning"}'
agree "a lint" "$("$program" lint settings.toml)" "settings.toml:2:1: warning: $found"
agree "a lint on a terminal" "$(on_terminal "$program" lint settings.toml)" $'\e[1msettings.toml:2:1: \e[33mwarning: \e[0m'"$found"
agree "a lint on a terminal without colours" "$(NO_COLOR=1 on_terminal "$program" lint settings.toml)" "settings.toml:2:1: warning: $found"
agree "the objects of a lint" "$("$program" lint --json settings.toml)" "$object"
agree "the objects of a lint on a terminal" "$(on_terminal "$program" lint --json settings.toml)" "$object"

# The pictures that lie beside their scripts.
for example in full-pool shared-pool come-and-go outage incident; do
    beside=$top/examples/$example
    agree "the picture of $example" "$("$program" draw "$beside/settings.toml" <"$beside/script.jsonl")" "$(cat "$beside/picture.svg")"
done

# Why there is no picture, or none of all lines.
draw=(draw settings.toml)
says 3 "fault: file" draw none.toml
says 2 "error: --to has to be a moment behind --from" "${draw[@]}" --from 7 --to 7
says 3 "fault: line" "${draw[@]}"
agree "the end of a picture that a line ended" "$(tail -n 1 plain.out)" "</svg>"
agree "what a picture says that a line ended" "$(grep -c 'A fault ended the run behind line 1' plain.out)" 1
head -n 1 input >first && mv first input
says 3 "fault: group paymnt" "${draw[@]}" --group payment --group paymnt
agree "the output of draw of a group that is not there" "$(cat plain.out)" ""
says 0 "" "${draw[@]}"
mv plain.out all.svg
says 0 "" "${draw[@]}" --group payment --from 0 --columns 80
agree "the picture of the only group" "$(cat plain.out)" "$(cat all.svg)"

# A service that connections share: why there is none, and one until its standard input ends.
agree "what share --help says beneath the options" "$("$program" share --help | sed -n '/^Clients/,$p')" \
    "Clients run their dependencies themselves, and ask for each decision. What a client has when its connection ends is
given back at once. A client beyond N waits unanswered until another one leaves.
To a port any user of this machine may connect and take permits, and with --tunable change properties; nothing is
authenticated. A socket only its owner may open, and whoever does may change properties."
cat >settings.toml <<'END'
service.groups = ["payment"]
hystrix.command.payment.execution.isolation.strategy = "SEMAPHORE"
END
share=(share settings.toml --socket)
long=$(printf '%097d' 0)
: >input
tells 3 "fault: file" "explain: none.toml: No such file or directory (os error 2)" share none.toml --socket s
tells 3 "fault: socket: the path has more than 96 bytes" "" "${share[@]}" "$long"
tells 3 "fault: socket: what is at settings.toml is no socket" "" "${share[@]}" settings.toml
tells 3 "fault: network" "explain: socket none/s: No such file or directory (os error 2)" "${share[@]}" none/s
tells 3 "fault: record" "explain: record none/record: No such file or directory (os error 2)" "${share[@]}" s --record none/record
mkfifo held
"$program" "${share[@]}" s --record record <held >shared.out 2>shared.err &
busy=$!
exec {hold}>held
until [ -s shared.out ]; do sleep 0.02; done
agree "the first line of share" "$(cat shared.out)" "listening s"
tells 3 "fault: socket: a service listens at s" "" "${share[@]}" s
cat >asked <<'END'
{"op":"submit","group":"payment","arg":"order 3"}
{"op":"finish","group":"payment","ticket":1,"body":"paid"}
{"op":"collect","group":"payment","ticket":1}
{"op":"tune","group":"payment","property":"fallback.enabled","value":false}
{"op":"totals","group":"payment"}
END
cat >wanted <<'END'
{"reply":"inline","ticket":1}
{"reply":"done"}
{"body":"paid","reply":"value"}
{"reply":"tuned"}
{"events":{"SUCCESS":1},"reply":"totals"}
END
answered=$(python3 -c 'import socket, sys
with socket.socket(socket.AF_UNIX) as connection:
    connection.connect("s")
    connection.sendall(sys.stdin.buffer.read())
    connection.shutdown(socket.SHUT_WR)
    sys.stdout.writelines(connection.makefile())' <asked)
agree "the answers of share" "$answered" "$(cat wanted)"
tells 3 "fault: socket: a service listens at s" "" "${share[@]}" s --record record
exec {hold}>&-
status=0
wait "$busy" || status=$?
busy=
agree "the status of share when standard input ends" "$status" 0
agree "the errors of share" "$(cat shared.err)" ""
agree "the socket of share at its end" "$(ls s 2>&1 >/dev/null | wc -l)" 1
"$program" run settings.toml <record >replies
agree "the answers to a record" "$(paste record replies | grep -v '"op":"\(expire\|read\)"' | cut -f 2)" "$(cat wanted)"
agree "the last line of a record" "$(tail -n 1 record | grep -c '"end":true')" 1

cp record before
echo wrong >wrong.toml
tells 1 "settings refused: 1 syntax" "explain: line 1, column 6: key with no value, expected \`=\`" share wrong.toml --socket s --record record
agree "a record behind a start that was refused" "$(cat record)" "$(cat before)"

# Who may read a new record, and that none is made through a link that leads nowhere.
agree "the mode of a new record" "$(stat -c %a record)" 600
ln -s nowhere link
tells 3 "fault: record" "explain: record link: File exists (os error 17)" "${share[@]}" s --record link
agree "the file that a link led to" "$(ls nowhere 2>/dev/null)" ""
agree "what is left of the making of records" "$(ls -d link.* record.* 2>/dev/null)" ""

# Standard streams that are closed: what the service says goes nowhere, and not into the record.
"$program" "${share[@]}" s --record closed <&- >&- 2>&-
agree "the record of a service without streams" "$(grep -c listening closed)" 0

# A limit on the size of files ends the record behind a whole line, and not the service.
mkfifo small.held
(ulimit -f 1; exec "$program" "${share[@]}" s --record small <small.held >small.out 2>small.err) &
busy=$!
exec {hold}>small.held
until [ -s small.out ]; do sleep 0.02; done
answered=$(python3 -c 'import socket
line = b"{\"op\":\"close\",\"group\":\"payment\",\"context\":1}\n"
with socket.socket(socket.AF_UNIX) as connection:
    connection.connect("s")
    answers = connection.makefile()
    for _ in range(60):
        connection.sendall(line)
        answers.readline()
    connection.shutdown(socket.SHUT_WR)
    print(answers.readline() == "", end="")')
agree "a service whose record has no room" "$answered" True
exec {hold}>&-
status=0
wait "$busy" || status=$?
busy=
agree "the status of a service whose record had no room" "$status" 0
agree "the errors of a service whose record had no room" "$(cat small.err)" \
    "record: it ends here, since its file cannot be written"
agree "the size of a record that had no room" "$(($(stat -c %s small) <= 1024))" 1
agree "the end of a record that had no room" "$(tail -n 1 small | grep -c '}$')" 1

# Whether a client may change a property over a port, of a service with these further words: `tunes WANTED WORDS..`.
tunes() {
    local wanted=$1 port answered
    shift
    port=$(python3 -c 'import socket; print(socket.create_server(("127.0.0.1", 0)).getsockname()[1])')
    rm -f port_held port.out
    mkfifo port_held
    "$program" share settings.toml --port "$port" "$@" <port_held >port.out &
    busy=$!
    exec {hold}>port_held
    until [ -s port.out ]; do sleep 0.02; done
    answered=$(head -n 4 asked | tail -n 1 | python3 -c 'import socket, sys
with socket.create_connection(("127.0.0.1", int(sys.argv[1]))) as connection:
    connection.sendall(sys.stdin.buffer.read())
    connection.shutdown(socket.SHUT_WR)
    sys.stdout.writelines(connection.makefile())' "$port")
    exec {hold}>&-
    wait "$busy" || true
    busy=
    agree "the answer to a change over a port $*" "$answered" "$wanted"
}
tunes '{"error":"tune"}'
tunes '{"reply":"tuned"}' --tunable

# What came in the stead of a service's socket stays at its end.
mkfifo again
"$program" "${share[@]}" s <again >again.out &
busy=$!
exec {hold}>again
until [ -s again.out ]; do sleep 0.02; done
rm s
echo another >s
exec {hold}>&-
wait "$busy" || true
busy=
agree "what came in the stead of a socket" "$(cat s)" another

# Help and the version, where they can't be printed.
for word in --help --version; do
    status=0
    "$program" "$word" >/dev/full 2>full.err || status=$?
    agree "the status of $word on a full device" "$status" 3
    agree "the errors of $word on a full device" "$(cat full.err)" "fault: write"
done

# Commands and options, one a line: of --help, of the program and of each command, and of the man page.
options() {
    grep -oE '(^|[ ,])--?[a-zA-Z][a-z-]*( <?[A-Z]+>?)?' | tr -d '<>,' | sed 's/^ *//' | sort -u
}
commands=$("$program" --help | sed -n '/^Commands:/,/^$/p' | awk '/^  / { print $1 }')
helped=$({ "$program" --help; for command in $commands; do [ "$command" = help ] || "$program" "$command" --help; done; } |
    sed -n '/^Options:/,/^$/p' | grep -oE '^ +(-[a-zA-Z], )?--[a-z-]+( <[A-Z]+>)?' | options)
page=$top/docs/bulkhead.1
paged=$(sed -n '/^\.SH OPTIONS/,/^\.SH EXIT/p' "$page" | grep -A 1 '^\.TP' | grep -E '^\.BI? |^\.BR ' | sed 's/^\.B[IR]* //; s/\\-/-/g; s/[",]/ /g; s/  */ /g' | options)
agree "the options of the man page" "$paged" "$helped"
agree "the commands of the man page" \
    "$(sed -n '/^\.SH COMMANDS/,/^\.SH OPTIONS/p' "$page" | sed -n 's/^\.B //p' | sort)" "$(sort <<<"$commands")"
# What --help says of each command and option stands in the man page, word for word; what clap says of its own is left out.
said=$({ "$program" --help; for command in $commands; do [ "$command" = help ] || "$program" "$command" --help; done; } |
    sed -nE 's/^ +(--[a-z-]+( <[A-Z]+>)?|[a-z]+)  +//p' | sed 's/ \[default: .*\]$//; /^Print /d')
plain=$(sed 's/\\f[BIPR]//g; s/\\-/-/g' "$page")
agree "what the man page lacks of --help" "$(while read -r text; do grep -qF -- "$text" <<<"$plain" || echo "$text"; done <<<"$said")" ""
agree "the version of the man page" "$(sed -n 's/^\.TH .*"\(bulkhead [0-9.]*\)".*/\1/p' "$page")" \
    "$("$program" --version | sed -n '1s/^[^ ]*/bulkhead/p')"

echo "$same agree, $differ differ"
[ "$differ" -eq 0 ]
