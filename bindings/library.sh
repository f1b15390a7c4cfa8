# For the scripts that build with the library: they set nothing, and have taken their options. What is left is the static
# library; where none is given, it is proved and built. `archives` is what the library asks of the toolchain beside it.
bindings=$(cd "$(dirname "${BASH_SOURCE[0]}")" && pwd)
library=${1:-$bindings/../crates/bh_c/out/libbh_c.a}
if [ $# -eq 0 ]; then
    (cd "$bindings/../crates/bh_c" && rt lib >&2)
fi
kit=$(dirname "$(dirname "$(readlink -f "$(command -v rt)")")")
archives=()
for name in os_c libc_c; do
    [ ! -f "$kit/c/lib$name.a" ] || archives+=("$kit/c/lib$name.a")
done
