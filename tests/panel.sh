#!/usr/bin/env bash
# Proves and builds the C boundary, and runs what stands on it: the trend demo, the valves, the tries, the independent second program, and the
# journals, texts, scripts and noise that the second program writes. SEED and COUNT choose the second program's sequences.
set -euo pipefail
cd "$(dirname "$0")/.."
. tests/common.sh
if [ "${TUP_WITHOUT_C:-}" = 1 ] && [ -z "$(c_compiler)" ]; then
    say "no C compiler, and TUP_WITHOUT_C=1: the demo and the second program are not run"
    exit 0
fi
need_c
make -s target/trend target/valves target/tries target/second

# the demo's text is stored; its picture is written and looked at for what both furnaces have to show, what a mark needs, and what a conflict leaves
# and asks for
target/trend "$room/trend.svg" >"$room/trend.txt"
diff "$room/trend.txt" examples/trend.expected
grep -q 'TC-3 struck off 03:10' "$room/trend.svg"
grep -q 'TC-3 of furnace 1 struck off: nothing moves here' "$room/trend.svg"
grep -q 'trim gas needs one of' "$room/trend.svg"
grep -q '00:42 to 00:51: 3 in conflict, 13 standing' "$room/trend.svg"
grep -q 'stands on a reading to blame' "$room/trend.svg"
grep -q 'least to withdraw: TC-3 high and damper shut' "$room/trend.svg"
[ "$(grep -c 'class="on-blame"' "$room/trend.svg")" -eq 7 ] # under three marks of each furnace, and in the legend
echo "demo: it printed what examples/trend.expected has, and drew the shift"

# the valves check each answer by removing positions without the board, the tries by deriving and by keeping premises and stacks beside it; what they
# print is stored
for story in valves tries; do
    "target/$story" >"$room/$story.txt" || {
        tail -1 "$room/$story.txt"
        exit 1
    }
    diff "$room/$story.txt" "examples/$story.expected"
    echo "$story: they printed what examples/$story.expected has, with $(tail -1 "$room/$story.txt" | cut -d ' ' -f 1) checks of their own"
done

target/second "${SEED:-1}" "${COUNT:-20000}"

# Has the second program write so many inputs, and a proved program run on them; what it writes and says has to be just what the second program
# expects. An input has so many of what is counted.
by_second() { # PROGRAM SECOND'S-WORD INPUTS OF-EACH WHAT
    program=$1
    prove run "$program"
    mkdir "$room/$2"
    target/second "$2" "$room/$2" "${SEED:-1}" "$3"
    ran=0
    for input in "$room/$2"/*.in; do
        due=${input%.in}
        run_program <"$input"
        [ -e "$due.err" ] || : >"$due.err"
        alike "the second program's $(basename "$input")" "$due.out" "$due.err" || exit 1
        ran=$((ran + $4))
    done
    echo "$program: $ran $5 of the second program, all as it expects"
}

by_second journal journals 300 1 journals
by_second cnf texts 120 1 texts
by_second desk desk 100 100 scripts

# its lines of noise, to whose end desk has to come
target/second noise "${SEED:-1}" 100000 >"$room/noise"
timeout 300 crates/desk/out/desk <"$room/noise" >"$room/wrote"
[ "$(tail -1 "$room/wrote")" = '100000 lines read' ] || {
    echo "desk: of 100000 lines of noise its last line is: $(tail -1 "$room/wrote" | cut -c 1-160)"
    exit 1
}
echo "desk: 100000 lines of noise, to their end"
