# For bench/run -i: counts the instructions of a workload in both checkouts by valgrind's cachegrind, and the misses of the
# caches that it models, which are the same on every machine. It goes on by what bench/run sets: old, new, seed, work, launch.
#
# A workload is counted by a quarter of it, and its input alone once more (`quarter` and `input` behind its words), which is
# taken off. Where one of the checkouts does not know these words, all of the workload is counted, and nothing is taken off.

MOST=1.02
MODEL=(--cache-sim=yes --I1=32768,8,64 --D1=32768,8,64 --LL=1048576,16,64)
slower=() unparted=()
if ! valgrind=$(command -v valgrind); then
    echo "bench/run: -i wants valgrind" >&2
    exit 2
fi

# The instructions of a run, and its misses of the second cache, by instructions, reads and writes, of the file that
# cachegrind wrote: `events:` names the columns of `summary:`.
totals() {
    awk '
        $1 == "events:" { for (i = 2; i <= NF; i++) at[$i] = i }
        $1 == "summary:" { print $at["Ir"], $at["ILmr"] + $at["DLmr"] + $at["DLmw"] }' "$1"
}

# Counts a run of a workload in one checkout: `KIND.WHICH` gets the two numbers, and `WHICH.out` the output.
count() {
    local which=$1 kind=$2
    shift 2
    through=(env -i "$valgrind" --tool=cachegrind -q "${MODEL[@]}" --log-file="$work/$kind.$which.log"
        --cachegrind-out-file="$work/$kind.$which.counts")
    launch "${!which}" "$work/$which.out" "$@"
    totals "$work/$kind.$which.counts" >"$work/$kind.$which"
}

# The same in both, at the same time. The kind says which of the counts of the workload these are.
count_both() {
    local name=$1 kind=$2 first
    shift 2
    count old "$kind" "$@" &
    first=$!
    count new "$kind" "$@"
    wait "$first"
    same_output "$name"
}

# Whether a checkout knows the words: one that does not takes them for `small`.
knows_parts() {
    local which=$1
    shift
    through=()
    launch "${!which}" "$work/quarter.out" "$@" quarter 2>/dev/null || return
    launch "${!which}" "$work/small.out" "$@" small || return
    ! cmp -s "$work/quarter.out" "$work/small.out"
}

# Counts a workload in both checkouts, and prints its line.
count_workload() {
    local name=$1
    shift
    echo "0 0" | tee "$work/input.old" >"$work/input.new"
    if knows_parts old "$@" && knows_parts new "$@"; then
        count_both "$name" input "$@" input
        count_both "$name" job "$@" quarter
    else
        unparted+=("$name")
        count_both "$name" job "$@"
    fi
    paste -d ' ' "$work"/{job,input}.old "$work"/{job,input}.new | awk -v NAME="$name" -v MOST=$MOST '{
        old = $1 - $3; new = $5 - $7; missed = $2 - $4; misses = $6 - $8
        printf("%-14s %10.1f %10.1f %8.3f %10.1f %10.1f %8.3f\n", NAME, old / 1e6, new / 1e6, new / old, missed / 1e3, misses / 1e3, misses / missed)
        exit (new > MOST * old)
    }' || slower+=("$name")
}

# Says which workloads were counted with their input, and fails where one takes too many instructions.
judge() {
    if [ ${#unparted[@]} -gt 0 ]; then
        echo "counted whole, and with the making of the input, since one of the two knows no parts: ${unparted[*]}" >&2
    fi
    [ ${#slower[@]} -gt 0 ] || return 0
    echo "more than $MOST times the instructions: ${slower[*]}" >&2
    exit 1
}

printf '%-14s %30s %30s\n' "" "instructions in millions" "cache misses in thousands"
printf '%-14s %10s %10s %8s %10s %10s %8s\n' workload old new new/old old new new/old
