#!/usr/bin/env bash
# Proves and builds spell, and runs it on every case of examples/spell/cases, and on inputs that are long or arrive in pieces. Its last line counts.
set -euo pipefail
cd "$(dirname "$0")/.."
. tests/common.sh spell
most=32768
too_long="spell: input too long: more than $most bytes"

# What is expected of $room/input, a line that is refused at a place: the line again, its bytes where they are given, a caret and a sentence.
due() { # COLUMN SENTENCE [BYTES]
    cat "$room/input"
    printf '\n'
    [ $# -lt 3 ] || printf '%s\n' "$3"
    run_of "$1" ' '
    printf '^\n%s\n' "$2"
}

prove run spell

for folder in examples/spell/cases/*/; do
    cp "$folder/input" "$room/input"
    as_stored "$(basename "$folder")" "$folder/expected" "$folder/said"
done

# a byte at a time
cp examples/spell/cases/example/input "$room/input"
cp examples/spell/cases/example/expected "$room/expected"
in_pieces

# 32,768 bytes are taken, whatever it is that fills them; one byte more is too long
longest() { # NAME
    writes "longest $1"
    printf '\n' >>"$room/input"
    refuses "$1 too long" "$too_long"
}
{ run_of $((most - 1)) ' ' && printf 1; } >"$room/input"
printf '10 01\n1\n' >"$room/expected"
longest blanks
run_of "$most" '(' >"$room/input"
due 16 'refused 15: more than 16 brackets are open' >"$room/expected"
longest brackets
{ run_of $((most - 1)) - && printf 1; } >"$room/input"
due 48 'refused 5: an operand stands deeper than 16' "$(run_of 17 '11 ').." >"$room/expected"
longest denials
{ run_of $((most / 2 - 1)) '1&' && printf 10; } >"$room/input"
due 48 'refused 5: an operand stands deeper than 16' "$(run_of 17 '12 ').." >"$room/expected"
longest chain
run_of "$most" 9 >"$room/input"
due 3 'refused 2: this byte is no symbol of 1 to 200' '10 ff' >"$room/expected"
longest number
{ run_of $((most - 1)) 0 && printf 7; } >"$room/input"
printf '10 07\n7\n' >"$room/expected"
longest zeros
run_of "$most" ' ' >"$room/input"
due "$most" 'refused 15: the text ends too soon' >"$room/expected"
longest emptiness
run_of $((most / 2)) $'1\n' >"$room/input"
{ printf '10 01\n1\n' && run_of $((most / 2 - 1)) $'\n10 01\n1\n'; } >"$room/expected"
longest lines
run_of "$most" $'\n' >"$room/input"
{ printf '\n^\nrefused 15: the text ends too soon\n' && run_of $((most - 1)) $'\n\n^\nrefused 15: the text ends too soon\n'; } >"$room/expected"
longest feeds
run_of $((3 * most)) 1 >"$room/input"
refuses three-times-too-long "$too_long"

# the largest formula of symbols and joins, 24,575 bytes: two halves joined, each of two, 13 times; good, and at fault in its first and in its last
# symbol
text=1 bytes='10 01'
for ((k = 1; k <= 12; k++)); do text="($text&$text)" bytes="12 $bytes $bytes"; done
printf '%s' "$text&$text" >"$room/input"
printf '12 %s %s\n1\n' "$bytes" "$bytes" >"$room/expected"
writes largest
printf '%s' "${text/1/0}&$text" >"$room/input"
due 42 'refused 2: this byte is no symbol of 1 to 200' "$(run_of 13 '12 ')10 00 .." >"$room/expected"
writes largest-front
printf '%s' "$text&${text%1*}0${text##*1}" >"$room/input"
due $((3 * 24574)) 'refused 2: this byte is no symbol of 1 to 200' "12 $bytes ${bytes%1}0" >"$room/expected"
writes largest-end

counted
