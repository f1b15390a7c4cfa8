#!/bin/bash
# Makes of the static library, with what it asks of the toolchain, one archive bindings/out/libbulkhead.a that links alone
# and the shared object bindings/out/libbulkhead.so.N, where N is the version of the interface in the header; and of the
# archive the programs in C beside them. Both show the names of the header and no others.
#
#   bindings/build.sh [LIBRARY]     LIBRARY is proved and built where none is given
set -euo pipefail

. "$(dirname "${BASH_SOURCE[0]}")/library.sh"
out=$bindings/out header=$bindings/../include/bulkhead.h
interface=$(sed -n 's/^#define BULKHEAD_VERSION \([0-9]*\)u$/\1/p' "$header")
mkdir -p "$out"
work=$(mktemp -d)
trap 'rm -r "$work"' EXIT

ld -r -o "$work/bulkhead.o" --whole-archive "$library" --no-whole-archive "${archives[@]}"
objcopy --wildcard --keep-global-symbol='bulkhead_*' "$work/bulkhead.o"
rm -f "$out"/libbulkhead.*
ar rcs "$out/libbulkhead.a" "$work/bulkhead.o"
cc -shared -Wl,-soname,"libbulkhead.so.$interface" -Wl,-z,defs -o "$out/libbulkhead.so.$interface" "$work/bulkhead.o"
ln -s "libbulkhead.so.$interface" "$out/libbulkhead.so"
for name in example handles run slow tunes; do
    cc -O2 -pthread -Wall -Wextra -I "$bindings/../include" -o "$out/$name" "$bindings/c/$name.c" "$out/libbulkhead.a"
done
