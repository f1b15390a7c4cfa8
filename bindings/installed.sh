#!/bin/bash
# Installs into a folder of its own, and uses what lies there as a stranger does: a program in C of twelve lines, compiled by
# what pkg-config says, with the shared object and with the archive alone; and the names that both show.
#
#   bindings/installed.sh [ROOT]     in the root of another system, which has a C compiler and pkg-config and no toolchain
#                                    (as debootstrap makes it); that wants leave to change the root
set -euo pipefail

top=$(cd "$(dirname "$0")/.." && pwd)
root=${1:-}
work=$(mktemp -d ${root:+"$root/tmp/installed.XXXXXX"})
trap 'rm -rf "$work"' EXIT
prefix=${work#"$root"}/prefix
make -s -C "$top" install PREFIX="$prefix" DESTDIR="$root" >"$work/log" 2>&1 || { cat "$work/log"; exit 1; }
same=0 differ=0

agree() {
    if [ "$2" = "$3" ]; then
        same=$((same + 1))
    else
        differ=$((differ + 1))
        printf '%s differs\n--- %s\n+++ %s\n' "$1" "$3" "$2"
    fi
}

# Runs a command of the shell where the installation is.
there() {
    if [ -n "$root" ]; then
        chroot "$root" /bin/sh -c "cd ${work#"$root"} && $1"
    else
        (cd "$work" && sh -c "$1")
    fi
}

cat >"$work/twelve.c" <<'END'
#include <bulkhead.h>
#include <stdio.h>
int main(void) {
    bulkhead_service service = {0};
    const char settings[] = "service.groups = [\"payment\"]";
    uint8_t why[256], answer[BULKHEAD_ANSWER_ROOM];
    size_t length = 0;
    const char line[] = "{\"op\":\"submit\",\"group\":\"payment\",\"now\":0,\"arg\":\"order 3\"}";
    if (bulkhead_open(&service, (const uint8_t *)settings, sizeof settings - 1, why, sizeof why, &length)) return 1;
    if (bulkhead_line(&service, (const uint8_t *)line, sizeof line - 1, answer, sizeof answer, &length)) return 1;
    return printf("%.*s", (int)length, (char *)answer) < 0 || bulkhead_close(&service);
}
END
found="PKG_CONFIG_PATH=$prefix/lib/pkgconfig pkg-config"
answer='{"reply":"queued","ticket":1}'
agree "with the shared object" \
    "$(there "cc -Wall -o shared twelve.c \$($found --cflags --libs bulkhead) && LD_LIBRARY_PATH=$prefix/lib ./shared" 2>&1)" "$answer"
agree "with the archive" \
    "$(there "cc -Wall -static -o alone twelve.c \$($found --cflags --libs --static bulkhead) && ./alone" 2>&1)" "$answer"
agree "the version" "$(there "$found --modversion bulkhead" 2>&1)" "$(sed -n 's/^Version: //p' "$root$prefix/lib/pkgconfig/bulkhead.pc")"
agree "the program" "$(there "echo '{\"op\":\"read\"}' | $prefix/bin/bulkhead run $prefix/share/bulkhead/examples/full-pool/settings.toml" 2>&1)" '{"error":"field"}'

declared=$(grep -oE '^uint32_t bulkhead_[a-z_]+' "$top/include/bulkhead.h" | cut -d ' ' -f 2 | sort)
object=$(readlink -f "$root$prefix/lib/libbulkhead.so")
agree "the names of the archive" "$(nm -g --defined-only "$root$prefix/lib/libbulkhead.a" | awk 'NF == 3 { print $3 }' | sort)" "$declared"
agree "the names of the shared object" "$(nm -D --defined-only "$object" | awk '{ print $3 }' | sort)" "$declared"
agree "the soname" "$(objdump -p "$object" | awk '$1 == "SONAME" { print $2 }')" "$(basename "$object")"

echo "$same agree, $differ differ"
[ "$differ" -eq 0 ]
