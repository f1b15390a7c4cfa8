# For the scripts that time `bulkhead serve`: what `program.sh` asks of them, and they set `port`. They may set the `verb`
# and the `address` by which a service is started.
. "$here/program.sh"
service= verb=serve address=(--port "$port")
trap 'end_service; rm -r "$work"' EXIT

end_service() {
    [ -z "$service" ] || kill "$service" 2>/dev/null || true
}

# Waits until the command succeeds, ten seconds at most.
within_ten_seconds() {
    for _ in $(seq 200); do
        ! "$@" || return 0
        sleep 0.05
    done
    return 1
}

has_ended() {
    ! kill -0 "$service" 2>/dev/null
}

# Prints a settings file of so many groups, with the lines given for all of them.
list_settings() {
    awk -v GROUPS="$1" 'BEGIN {
        printf("service.groups = [")
        for (group = 0; group < GROUPS; group++) {
            printf("\"g%d\",", group)
        }
        print("]")
    }'
    echo "$2"
}

# Starts a program as a service of those settings, with these further words, and waits until it listens.
start() {
    local started=$1
    shift
    : >"$work/listening"
    "$started" "$verb" "$work/settings.toml" "${address[@]}" "$@" <&0 >"$work/listening" &
    service=$!
    within_ten_seconds grep -qs listening "$work/listening" || { echo "the service does not listen" >&2; exit 1; }
}

# The same, with a standard input that lasts until `end_input`.
start_with_input() {
    [ -p "$work/input" ] || mkfifo "$work/input"
    exec 4<>"$work/input"
    start "$@" <"$work/input" 4>&-
    exec 5>"$work/input" 4>&-
}

end_input() {
    exec 5>&-
}

# Waits until the service has ended by itself.
await_end() {
    within_ten_seconds has_ended || { echo "the service does not end" >&2; exit 1; }
    wait "$service"
    service=
}

# Prints the median of the `runs` of a program, over so many connections, by what it does a second: the figures of
# `serve_client` that a file of that name has.
print_median() {
    sort -n "$work/$2" | sed -n "$(((runs + 1) / 2))p" | {
        read -r rate p50 p99 switches busy
        printf '%2d connections, %5s: %7.0f %s a second, p50 %.3f ms, p99 %.3f ms, %5.2f context switches each (client busy %.0f %%)\n' \
            "$1" "$2" "$rate" "$3" "$p50" "$p99" "$switches" "$busy"
    }
}

# Prints a heading, and below it a line of figures for each number of connections and each program, by what it does a second:
# those of the middle run of `run_this` and, where `other` is named, of `run_other`, in turn. Each runs its program once over so
# many connections.
print_table() {
    echo "$1"
    for connections in 1 8 64; do
        : >"$work/this"
        : >"$work/other"
        for _ in $(seq "$runs"); do
            run_this "$connections" >>"$work/this"
            [ -z "$other" ] || run_other "$connections" >>"$work/other"
        done
        print_median "$connections" this "$2"
        [ -z "$other" ] || print_median "$connections" other "$2"
    done
}
