# Read by the scripts beside it, which set `here`: builds lrlex_bench where that is needed, and sets `program`, its path,
# and `scratch`, a folder that goes at the end.

top=$(CDPATH='' cd -- "$here/.." && pwd) || exit 1
program=$top/crates/lrlex_bench/out/lrlex_bench

scratch=$(mktemp -d) || exit 1
trap 'rm -rf "$scratch"' EXIT
trap 'exit 1' HUP INT TERM

folders=$(awk -v top=lrlex_bench -f "$top/tools/below.awk" "$top/crates.txt" | sed "s,^,$top/crates/,") || exit 1
# shellcheck disable=SC2086
if [ ! -x "$program" ] ||
    [ -n "$(find $folders -path '*/out' -prune -o -name '*.rt' -newer "$program" -print)" ]; then
    "$top/dev" build lrlex_bench || exit 1
fi

# value NAME: what the program printed under this name, in the file `out`
value() {
    sed -n "s/^$1: //p" "$scratch/out"
}

# megabytes N: N kilobytes of 1024 bytes, in MB of 1024 * 1024 bytes, rounded up
megabytes() {
    echo $((($1 + 1023) / 1024))
}
