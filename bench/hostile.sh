#!/bin/sh
# Builds definitions of hostile rule texts: bench/hostile.sh. Prints for each what its tables are, how long the build took
# (the quickest of three) and the most memory that it had, and behind that the same without tables. Not part of the gate. A
# run that needs more than 4 GB or two minutes is ended.
set -u
LC_ALL=C
export LC_ALL

here=$(CDPATH='' cd -- "$(dirname -- "$0")" && pwd) || exit 1
. "$here/program.sh"
ulimit -v 4194304

# lines N PATTERN: N rules, each with this pattern, in which WORD or NUMBER stands for the rule's own. The pattern is cut
# once: mawk keeps each text that `gsub` has put in.
lines() {
    PATTERN=$2 awk -v n="$1" '
        function word(i, w) {
            w = ""
            do { w = w sprintf("%c", 97 + i % 26); i = int(i / 26) } while (i > 0)
            return w
        }
        BEGIN {
            by_word = index(ENVIRON["PATTERN"], "WORD")
            parts = split(ENVIRON["PATTERN"], part, /WORD|NUMBER/)
            for (i = 0; i < n; i++) {
                own = by_word ? word(i) : i
                line = part[1]
                for (j = 2; j <= parts; j++) line = line own part[j]
                print line " \047R" i "\047"
            }
        }'
}

# rules N PATTERN: a rule text of N rules
rules() {
    echo '%%'
    lines "$1" "$2"
}

# states N KIND PATTERN: N states of a kind (x or s), and as many rules
states() {
    awk -v n="$1" -v kind="$2" '
        BEGIN {
            line = "%" kind
            for (i = 0; i < n; i++) line = line " s" i
            print line
            print "%%"
        }'
    lines "$1" "$3"
}

# one PIECE BYTES: a rule text of one rule, whose pattern is so many bytes of the piece; then a letter
one() {
    echo '%%'
    yes "$1" | tr -d '\n' | head -c "$2"
    echo "b 'R0'"
}

echo "making the rule texts" >&2
rules 1000 '(a|b)*a(a|b){12}WORD' >"$scratch/blow_ups.l"
rules 1000 '[ab]*a[ab]{NUMBER}' >"$scratch/rising.l"
rules 100 '(a|b|WORD)*a(a|b){9}' >"$scratch/stars.l"
rules 100000 'WORD' >"$scratch/words.l"
rules 1000 '[a-z]*WORD' >"$scratch/suffixes.l"
rules 500 '\p{L}+WORD' >"$scratch/letters.l"
rules 500 '[\p{L}\p{N}]{1,3}\p{Greek}WORD' >"$scratch/classes.l"
rules 500 '(?i)(\p{L}|\p{M})*\p{Lu}WORD' >"$scratch/stars_of_letters.l"
rules 1000 'WORD$' >"$scratch/asked.l"
one a 10000000 >"$scratch/literal_10MB.l"
one 'ab|' 10000000 >"$scratch/choice_10MB.l"
one a 100000 >"$scratch/literal_100kB.l"
one 'ab|' 100000 >"$scratch/choice_100kB.l"
one 'a?' 20000 >"$scratch/optional_20kB.l"
states 4000 x '<sNUMBER>a+NUMBER' >"$scratch/exclusive_4000.l"
states 4000 s '<sNUMBER>a+NUMBER' >"$scratch/inclusive_4000.l"
states 4000 s 'aNUMBER' >"$scratch/everywhere_4000.l"
states 400 s '<sNUMBER,INITIAL>(a|b)*a(a|b){8}NUMBER' >"$scratch/state_blow_ups.l"
{ states 100000 x a | head -n 2; echo "a 'R0'"; } >"$scratch/exclusive_100000.l"
echo "ab" >"$scratch/text"

# measure NAME [WORD]: the quickest of three builds, by this word too; its figures go to the file `out`. False where there is
# none.
measure() {
    best=
    for _ in 1 2 3; do
        if ! timeout 120 "$program" "$scratch/$1.l" "$scratch/text" 1 ${2:+"$2"} >"$scratch/out" 2>"$scratch/err"; then
            return 1
        fi
        ms=$(value 'build ms')
        if [ -z "$best" ] || [ "${ms%.*}" -lt "${best%.*}" ]; then
            best=$ms
        fi
    done
}

row='%-17s %9s %7s %7s %6s %7s %9s %6s   %9s %6s\n'
printf "$row" text bytes rules tables rows asked 'build ms' MB 'untabled' MB
for file in "$scratch"/*.l; do
    name=$(basename "$file" .l)
    bytes=$(($(wc -c <"$file")))
    if measure "$name"; then
        set -- "$(value rules)" "$(value tables)" "$(value 'rows of tables')" "$(value 'rules without a table')" \
            "$best" "$(megabytes "$(value 'peak kB before lexing')")"
    else
        set -- "$(cat "$scratch/err")" - - - - -
    fi
    if measure "$name" --no-tables; then
        set -- "$@" "$best" "$(megabytes "$(value 'peak kB before lexing')")"
    else
        set -- "$@" - -
    fi
    printf "$row" "$name" "$bytes" "$@"
done
