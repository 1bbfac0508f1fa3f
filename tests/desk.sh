#!/usr/bin/env bash
# Proves and builds desk, and runs it on every case of examples/desk/cases, on the March night and on inputs that are long or arrive in pieces. Its
# last line counts.
set -euo pipefail
cd "$(dirname "$0")/.."
. tests/common.sh desk
not_kept='  the text of a rule above 2048 is not kept'

# Runs desk on standard input for a minute at most. Where it does not end well a line more says so.
run_program() {
    timeout 60 crates/desk/out/desk >"$room/wrote" 2>"$room/told" || echo "desk: it ended with $?" >>"$room/wrote"
}

# Runs desk on a stored file, and expects what another has.
stored() { # NAME INPUT EXPECTED
    cp "$2" "$room/input"
    cp "$3" "$room/expected"
    writes "$1"
}

prove run desk

for folder in examples/desk/cases/*/; do
    stored "$(basename "$folder")" "$folder/input" "$folder/expected"
done
stored march examples/desk/march.txt examples/desk/march.expected

# a byte at a time
cp examples/desk/cases/short/input "$room/input"
cp examples/desk/cases/short/expected "$room/expected"
in_pieces

# help has every line's first word, and the limits
printf 'help\n' | run_program
missing=
for word in open name rule valve pairs furnace hold drop push pop ask why ground marks blame least sets rows cnf echo help 500 24 '2,\{0,1\}048'; do
    grep -qw -e "$word" "$room/wrote" || missing+=" $word"
done
[ "$(tail -1 "$room/wrote")" = '1 lines read' ] || missing+=" (its last line: $(tail -1 "$room/wrote"))"
if [ -z "$missing" ]; then good; else bad help "it does not name:$missing"; fi

# an input that cannot be read
echo 'stopped reading after 0 lines: the input cannot be read' >"$room/expected"
run_program <examples
sed -i '/^desk: it ended with/d' "$room/wrote" # with which number is left to it
: >"$room/told"
held unreadable

# a megabyte without a line feed, then a line that is taken
{ printf 'open 1\n' && run_of 1000000 x && printf '\nhold 1\n' && run_of 1000000 ' '; } >"$room/input"
printf '%s\n' '  board of 1 symbols' '  not taken: line 2 has more than 500 bytes' '  1 is held' \
    '  not taken: line 4 has more than 500 bytes' '4 lines read' >"$room/expected"
writes long-lines

# the text of 2,048 rules is kept, a pair table's that goes beyond for a part of its rules; 32,767 rules are taken, and none more
{
    printf 'open 9\n' && run_of 2045 $'rule 1|-1\n'
    printf '%s\n' 'rule 1 > 2' 'pairs 3 2 5 2 10 01' 'rule 2 > 7' 'valve 8 2'
    printf '%s\n' 'hold 1' 'hold 3' 'hold 6' 'hold 8' 'why 2' 'why 5' 'why 4' 'why 7' 'why 9'
    run_of 30713 $'rule 1|-1\n'
    printf '%s\n' 'pairs 3 2 5 2 11 11' 'rule 9' 'rule 9' 'rule 1|-1' 'valve 8 2' 'rule 9 & -9' 'why 2'
} >"$room/input"
{
    echo '  board of 9 symbols'
    seq 2045 | sed 's/.*/  rule &: no row, always true/'
    printf '%s\n' '  rule 2046: 1 row' '  rules 2047 to 2050: 4 rows' "$not_kept" '  rule 2051: 1 row' "$not_kept" '  rule 2052: 2 rows' "$not_kept"
    printf '%s\n' '  1 is held' '  3 is held' '  6 is held' '  8 is held'
    printf '%s\n' '  2 stands, rank 1: rule 2046, 1 > 2' '    1 is held'
    printf '%s\n' '  5 stands, rank 1: rule 2047, pairs 3 2 5 2 10 01' '    3 is held'
    printf '%s\n' '  4 stands, rank 1: rule 2050' '    6 is held'
    printf '%s\n' '  7 stands, rank 2: rule 2051' '    2 stands, rank 1: rule 2046, 1 > 2' '      1 is held'
    printf '%s\n' '  9 is ruled out, rank 1: rule 2052' '    8 is held'
    seq 2053 32765 | sed "s/.*/  rule &: no row, always true\\n$not_kept/"
    printf '%s\n' '  refused 9: no room for its rows' '  rule 32766: 1 row' "$not_kept" '  rule 32767: 1 row' "$not_kept"
    printf '%s\n' '  refused 9: no room for its rows' '  refused 9: no room for its rows' '  refused 8: nothing satisfies it'
    printf '%s\n' '  2 stands, rank 1: rule 2046, 1 > 2' '    1 is held' "$(wc -l <"$room/input") lines read"
} >"$room/expected"
writes rules-32767

# a hundred thousand questions at the end of the March night, each answer looked at
printf '%s\n' \
    'ask crown_hot|crown_hot is ruled out' 'ask -crown_hot|-crown_hot stands' \
    'ask add_gas|add_gas stands' 'ask 5|TC9_low stands' \
    'ask TC7_high|TC7_high is open' 'ask -left_choked|-left_choked is open' \
    'ask boost_on|boost_on is ruled out' 'ask burn_off_due|burn_off_due stands' \
    'ask -flame_reducing|-flame_reducing stands' 'ask 25|refused 2: no symbol of the board has this number' >"$room/asks"
{
    sed 's/^echo on$/echo off/' examples/desk/march.txt
    run_of 10000 "$(cut -d '|' -f 1 <"$room/asks")"$'\n'
} >"$room/input"
began=$(date +%s%N)
run_program <"$room/input"
took=$(($(date +%s%N) - began))
tail -n 100001 "$room/wrote" >"$room/last" && mv "$room/last" "$room/wrote"
{
    run_of 10000 "$(cut -d '|' -f 2 <"$room/asks" | sed 's/^/  /')"$'\n'
    echo "$(wc -l <"$room/input") lines read"
} >"$room/expected"
held questions
echo "desk: 100000 lines of ask in $(awk -v took="$took" 'BEGIN { printf "%.1f", took / 1e9 }') s"

counted
