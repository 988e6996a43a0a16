#!/bin/sh
# Times lexing: bench/run.sh [K]. Makes texts of about 1 MB from this machine's own files, lexes each K times (11 without
# the word) by the rule files of rules/, and prints two tables. bench/README.md says how to read them.
# Builds the program lrlex_bench first where it isn't built, or where its source is newer.
set -u
LC_ALL=C
export LC_ALL

here=$(CDPATH='' cd -- "$(dirname -- "$0")" && pwd) || exit 1
. "$here/program.sh"
times=${1:-11}
limit=1000000

# The UTF-8 files that standard input lists, a path a line, one after another: up to the limit, and cut at a line's end.
joined() {
    total=0
    while IFS= read -r file; do
        [ -r "$file" ] && iconv -f UTF-8 -t UTF-8 "$file" >/dev/null 2>&1 || continue
        cat "$file"
        total=$((total + $(wc -c <"$file")))
        [ "$total" -lt "$limit" ] || break
    done | head -c "$limit" | sed '$d'
}

c_files() {
    find /usr/include -maxdepth 1 -type f -name '*.h' | sort
    find /usr/include -mindepth 2 -type f -name '*.h' | sort
}

json_files() {
    find /usr -type f -name '*.json' -size -400 2>/dev/null | sort
}

# The modules of the standard library of python3, or whatever Python there is.
py_files() {
    library=$(python3 -c 'import os; print(os.path.dirname(os.__file__))' 2>/dev/null)
    if [ -n "$library" ]; then
        find "$library" -maxdepth 1 -type f -name '*.py' | sort
    fi
    find /usr -type f -name '*.py' 2>/dev/null | sort
}

conf_files() {
    find /etc /usr -type f \( -name '*.conf' -o -name '*.ini' \) 2>/dev/null | sort
}

echo "making the texts" >&2
c_files | joined >"$scratch/c"
json_files | joined >"$scratch/json"
py_files | joined >"$scratch/py"
conf_files | joined >"$scratch/conf"

# measure RULES TEXT [--edits]: what the program prints goes to the file `out`
measure() {
    rules=$top/rules/$1.l
    [ -f "$rules" ] || rules=$here/$1.l
    text=$scratch/$2
    shift 2
    "$program" "$rules" "$text" "$times" "$@" >"$scratch/out"
}

# How far the text was lexed: `yes`, or the place in bytes where lexing stopped.
to_end() {
    if [ "$(value 'bytes lexed')" = "$(value bytes)" ]; then
        echo yes
    else
        value 'bytes lexed'
    fi
}

row='%-9s %8s %5s %6s %7s %7s %9s %5s %7s %7s %7s %7s %8s %6s %6s\n'
printf "$row" rules bytes rules states lexemes tiles asked end ns/ask run best worst lexer lines MB
for pair in c:c json:json py:py py_suffix:py conf:conf; do
    measure "${pair%:*}" "${pair#*:}" || exit 1
    printf "$row" "${pair%:*}" "$(value bytes)" "$(value rules)" "$(value states)" "$(value lexemes)" "$(value tiles)" \
        "$(value 'matches asked')" "$(to_end)" "$(value 'ns per match asked')" "$(value 'run median ns per byte')" \
        "$(value 'run best ns per byte')" "$(value 'run worst ns per byte')" "$(value 'lexer median ns per byte')" \
        "$(value 'lines median ns per byte')" "$(megabytes "$(value 'peak kB')")"
done

echo
row='%-9s %-7s %8s %10s %10s %10s %12s\n'
printf "$row" rules edit asked median best worst 'run/relex'
for pair in c:c json:json py:py py_suffix:py conf:conf; do
    measure "${pair%:*}" "${pair#*:}" --edits || exit 1
    for edit in front middle end; do
        printf "$row" "${pair%:*}" "$edit" "$(value "$edit matches asked")" "$(value "$edit median ns")" \
            "$(value "$edit best ns")" "$(value "$edit worst ns")" "$(value "$edit times faster than run")"
    done
done
