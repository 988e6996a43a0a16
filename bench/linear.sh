#!/bin/sh
# Shows how time and memory grow with a text: bench/linear.sh [K]. Each text is lexed at half its size too, K times each
# (3 without the word). Not part of the gate. A run that needs more than 6 GB is ended with `Out of memory`.
set -u
LC_ALL=C
export LC_ALL

here=$(CDPATH='' cd -- "$(dirname -- "$0")" && pwd) || exit 1
. "$here/program.sh"
times=${1:-3}
ulimit -v 6291456

# A push for each byte: each time of the other of two states, or each time of the same.
cat >"$scratch/alternating.l" <<'RULES'
%x A B
%%
x <+A>'FIRST'
<A>x <+B>'TO_B'
<B>x <+A>'TO_A'
RULES
cat >"$scratch/one_state.l" <<'RULES'
%x A
%%
x <+A>'FIRST'
<A>x <+A>'NEXT'
RULES
# A tile for each byte.
cat >"$scratch/tiles.l" <<'RULES'
%%
x 'X'
RULES

row='%-12s %9s %9s %9s %9s %7s %7s %7s %6s\n'
printf "$row" text bytes tiles asked peak run worst lexer MB
for pair in alternating:500000 alternating:1000000 \
    one_state:500000 one_state:1000000 tiles:10000000 tiles:20000000; do
    name=${pair%:*}
    bytes=${pair#*:}
    head -c "$bytes" /dev/zero | tr '\0' x >"$scratch/text"
    if "$program" "$scratch/$name.l" "$scratch/text" "$times" >"$scratch/out" 2>"$scratch/err"; then
        printf "$row" "$name" "$bytes" "$(value tiles)" "$(value 'matches asked')" "$(value 'peak entries')" \
            "$(value 'run median ns per byte')" "$(value 'run worst ns per byte')" "$(value 'lexer median ns per byte')" \
            "$(megabytes "$(value 'peak kB')")"
    else
        printf '%-12s %9s %s\n' "$name" "$bytes" "$(cat "$scratch/err")"
    fi
done
