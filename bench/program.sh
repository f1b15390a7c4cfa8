# For the scripts that run the program: they set `here`, this folder, and have taken their options. What is left is the
# program; where none is given, it is proved and built. `work` is a folder that goes when the script ends.
program=${1:-$here/../crates/bulkhead/out/bulkhead}
work=$(mktemp -d)
trap 'rm -r "$work"' EXIT

if [ $# -eq 0 ]; then
    (cd "$here/../crates/bulkhead" && rt run -- --help >"$work/build" 2>&1) || { cat "$work/build"; exit 1; }
fi
