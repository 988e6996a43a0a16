# To be read by the scripts at the top: builds a program where it isn't built, or where its source has another content than it was
# built from, and leaves its path in $program. They set $top, the repository's folder, and $crate, the program's crate.
set -u

name=$(basename -- "$0")
program=$top/crates/$crate/out/$crate
built_from=$program.built_from
crates=$(awk -v top="$crate" -f "$top/tools/below.awk" "$top/crates.txt") && [ -n "$crates" ] || exit 1

# sources WORDS..: runs find with these words on the crates' files and folders, without what rt has made
sources() {
    # shellcheck disable=SC2086
    (cd "$top/crates" && find $crates -name out -prune -o \( -type d -o -name '*.rt' -o -name '*.antt' \) "$@")
}

# content: a sum of the names and the contents of all sources
content() {
    sources -type f -exec cksum {} + | LC_ALL=C sort | cksum
}

# Time stamps are looked at first, since that is quick. Where one is newer, the contents decide. The gate, rt ci, leaves the
# program that it has built, and no sum: such a one is taken where no source is newer.
stale=
if [ ! -x "$program" ]; then
    stale="isn't built"
elif [ ! -e "$built_from" ] && [ -z "$(sources -type f -newer "$program" -print)" ]; then
    { content && cksum <"$program"; } >"$built_from"
elif [ ! -f "$built_from" ] ||
    [ -n "$(sources -newer "$built_from" -print && find "$program" -newer "$built_from" -print)" ]; then
    if [ "$(content && cksum <"$program")" = "$(cat "$built_from" 2>/dev/null)" ]; then
        touch "$built_from"
    else
        stale="was built from other sources"
    fi
fi

if [ -n "$stale" ]; then
    for tool in rt python3; do
        if ! command -v "$tool" >/dev/null 2>&1; then
            echo "$name: the program $stale, and building it takes the Rattle kit and python3: $tool isn't on PATH" >&2
            exit 1
        fi
    done
    if [ ! -x "$program" ]; then
        echo "$name: building; the first build proves every function, which takes 15 minutes or more on four processors" >&2
    else
        echo "$name: building; what changed is proved again" >&2
    fi
    before=$(content)
    python3 "$top/tools/build.py" "$crate" </dev/null || exit 1
    # What changed during the build is built the next time.
    rm -f "$built_from"
    [ "$(content)" = "$before" ] && { printf '%s\n' "$before" && cksum <"$program"; } >"$built_from"
fi
