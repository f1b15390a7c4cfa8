#!/bin/bash
# Prints what a call of a command costs in Java, in microseconds, beside a bare call, a semaphore and a ThreadPoolExecutor
# with a timer task for each call: of each the least and the middle of its rounds, all by turns in one run. Of calls by four
# threads it prints the time of all over the number of calls.
#
#   bench/java.sh [ROUNDS]     25 where none are given; the jar is built by java/build where it is not there
set -euo pipefail

here=$(cd "$(dirname "$0")" && pwd)
compgen -G "$here/../java/out/bulkhead-hystrix-*[0-9].jar" >/dev/null || "$here/../java/build"
jar=$(ls "$here"/../java/out/bulkhead-hystrix-*[0-9].jar)
work=$(mktemp -d)
trap 'rm -r "$work"' EXIT
javac --release 11 -cp "$jar" -d "$work" "$here/../java/bench/Calls.java"
echo "load: $(cut -d ' ' -f 1-3 /proc/loadavg), $(nproc) processors, Java $(java -XshowSettings:properties -version 2>&1 | sed -n 's/^ *java.version = //p')"
java -cp "$jar:$work" Calls "$@"
