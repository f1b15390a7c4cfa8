# For the scripts that time `bulkhead run`: what `program.sh` asks of them, and they set `runs`.
. "$here/program.sh"
settings=$work/settings.toml

# Prints the first line of a settings file, which lists so many groups.
list_groups() {
    awk -v GROUPS="$1" 'BEGIN {
        printf("service.groups = [")
        for (group = 1; group <= GROUPS; group++) {
            printf("\"group-%d\",", group)
        }
        print("]")
    }'
}

# Prints the further commands of so many groups, each of which has so many commands with its own one.
list_commands() {
    awk -v GROUPS="$1" -v COMMANDS="$2" 'BEGIN {
        for (group = 1; group <= GROUPS; group++) {
            for (command = 1; command < COMMANDS; command++) {
                printf("service.command.group-%d-%d.group = \"group-%d\"\n", group, command, group)
            }
        }
    }'
}

# The least milliseconds of processor time of the runs over the lines of a file, each of which has to be answered. A run
# has ten minutes.
best() {
    local TIMEFORMAT='%U %S' least= took
    for _ in $(seq "$runs"); do
        { time timeout 600 "$program" run "$settings" <"$1" >"$work/answers" 2>"$work/errors"; } 2>"$work/time" ||
            { cat "$work/errors" >&2; exit 1; }
        took=$(awk 'END { printf("%d", ($1 + $2) * 1000) }' "$work/time")
        if [ -z "$least" ] || [ "$took" -lt "$least" ]; then
            least=$took
        fi
    done
    if [ "$(wc -l <"$work/answers")" -ne "$(wc -l <"$1")" ]; then
        echo "not every line was answered" >&2
        exit 1
    fi
    echo "$least"
}
