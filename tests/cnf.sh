#!/usr/bin/env bash
# Proves and builds cnf, and runs it on every case of examples/cnf/cases, on inputs that are long, full or arrive in pieces, and on the texts that
# examples/cnf/make writes. What it writes of those a solver reads too, where one is installed. Its last lines count.
set -euo pipefail
cd "$(dirname "$0")/.."
. tests/common.sh cnf
most=262144
form="cnf: refused 15: the text breaks the form, has not the header's number of clauses, or has a literal beyond its variables"
too_long="cnf: input too long: more than $most bytes"

# So many lines of the same words.
lines() { # COUNT WORDS
    run_of "$1" "$2\n"
}

# What cnf has to write of a good text: each clause's literals once, by rising symbols; no clause with a literal and its opposite.
due() { # <text
    awk '
        header { for (i = 1; i <= NF; i++) if ($i + 0 != 0) has[$i + 0]; else end_clause() }
        /^p/ && !header { header = 1; variables = $3 + 0 }
        function end_clause(   v, text, always) {
            for (v = 1; v <= variables; v++) {
                if ((v in has) && (-v in has)) always = 1
                if (v in has) text = text v " "
                if (-v in has) text = text (-v) " "
            }
            if (!always) row[++rows] = text "0"
            split("", has)
        }
        END { print "p cnf " variables " " rows + 0; for (r = 1; r <= rows; r++) print row[r] }'
}

prove run cnf

for folder in examples/cnf/cases/*/; do
    cp "$folder/input.cnf" "$room/input"
    as_stored "$(basename "$folder")" "$folder/expected" "$folder/refused"
done

# a byte at a time
cp examples/cnf/cases/loose/input.cnf "$room/input"
cp examples/cnf/cases/loose/expected "$room/expected"
in_pieces

# 2,048 rows are taken, also with clauses that are always true after them; one row more is not
{ echo 'p cnf 200 2048' && lines 2048 '-200 1 0'; } >"$room/input"
{ echo 'p cnf 200 2048' && lines 2048 '1 -200 0'; } >"$room/expected"
writes full
{ echo 'p cnf 200 2051' && lines 2 '7 -7 0' && lines 2048 '-200 1 0' && echo '3 -3 0'; } >"$room/input"
writes full-and-always-true
{ echo 'p cnf 200 2049' && lines 2049 '-200 1 0'; } >"$room/input"
refuses row-2049 'cnf: refused 9: clause 2049 needs a row more than the 2048 there are'
{ echo 'p cnf 200 2052' && lines 2 '7 -7 0' && lines 2049 '-200 1 0' && echo 0; } >"$room/input"
refuses row-2049-later 'cnf: refused 9: clause 2051 needs a row more than the 2048 there are'
{ echo 'p cnf 200 2050' && lines 2048 '-200 1 0' && echo 0 && echo '1 0'; } >"$room/input"
refuses full-and-empty 'cnf: refused 8: clause 2049 has no literal'
{ echo 'p cnf 200 32767' && lines 32767 '1 -1 0'; } >"$room/input"
echo 'p cnf 200 0' >"$room/expected"
writes clauses-32767

# the longest text that can be written
{ echo 'p cnf 200 2048' && lines 2048 '-200 -199 -198 -197 -196 -195 -194 -193 0'; } >"$room/input"
{ echo 'p cnf 200 2048' && lines 2048 '-193 -194 -195 -196 -197 -198 -199 -200 0'; } >"$room/expected"
writes longest-text
cp "$room/wrote" "$room/input"
writes longest-text-again

# 262,144 bytes are taken, whatever it is that fills them; one byte more is too long
filled() { # NAME FRONT FILL END: the byte FILL again and again between the two
    printf '%b' "$2" >"$room/input"
    run_of $((most - $(printf '%b' "$2$4" | wc -c))) "$3" >>"$room/input"
    printf '%b' "$4" >>"$room/input"
    printf 'p cnf 2 1\n2 0\n' >"$room/expected"
    writes "longest $1"
    printf '\n' >>"$room/input"
    refuses "$1 too long" "$too_long"
}
filled comment c c '\np cnf 2 1\n2 0'
filled header 'p cnf 2 1' ' ' '\n2 0'
filled line 'p cnf 2 1\n2' ' ' ' 0'
filled gap 'p cnf 2 1\n' '\n' '2 0'
filled number 'p cnf 2 1\n' 0 '2 0'
filled zero 'p cnf 2 1\n2 ' 0 ''
{ printf 'p cnf 2 1\n' && run_of $((most - 12)) '1' | sed 's/11/1 /g' && printf ' 0'; } >"$room/input"
printf 'p cnf 2 1\n1 0\n' >"$room/expected"
writes longest-clause
run_of "$most" ' ' >"$room/input"
refuses most-blanks "$form"
run_of "$most" c >"$room/input"
refuses comment-without-end "$form"
run_of $((most + 1)) c >"$room/input"
refuses too-long-and-broken "$too_long"
run_of $((3 * most)) '\n' >"$room/input"
refuses three-times-too-long "$too_long"

# a thousand digits; a byte 0
{ printf 'p cnf ' && run_of 1000 0 && printf '2 ' && run_of 1000 0 && printf '1\n-' && run_of 1000 0 && printf '2 ' && run_of 1000 0; } >"$room/input"
printf 'p cnf 2 1\n-2 0\n' >"$room/expected"
writes thousand-zeros
{ printf 'p cnf 2 1\n1' && run_of 1000 0 && printf ' 0\n'; } >"$room/input"
refuses thousand-digits "$form"
printf 'p cnf 2 1\n2 0\n\0' >"$room/input"
refuses byte-0 "$form"

# what other programs write, read, written and read again
solver=
for name in minisat picosat cadical kissat glucose; do
    if command -v "$name" >/dev/null; then
        solver=$name
        break
    fi
done

# Whether the solver finds a text satisfiable; by its exit status, 10 or 20.
verdict() { # FILE
    status=0
    "$solver" "$1" >/dev/null 2>&1 || status=$?
    case $status in
    10) echo satisfiable ;;
    20) echo unsatisfiable ;;
    *) echo "no verdict, exit status $status" ;;
    esac
}

# Holds the solver's verdict on what cnf wrote to the one on the text itself, and both to what is known.
solved() { # FILE
    known=$(sed -n 's/^c known: //p' "$1") original=$(verdict "$1") written=$(verdict "$room/wrote")
    if [ "$known" = "$original" ] && [ "$known" = "$written" ]; then
        verdicts=$((verdicts + 1))
    else
        failed=$((failed + 1))
        echo "cnf: $(basename "$1") is $known; by $solver it is $original, and what cnf wrote of it is $written"
    fi
}

files=0 verdicts=0
examples/cnf/make "$room/made"
for file in "$room"/made/*.cnf; do
    cp "$file" "$room/input"
    due <"$file" >"$room/expected"
    writes "$(basename "$file")"
    [ -z "$solver" ] || solved "$file"
    cp "$room/wrote" "$room/input"
    writes "$(basename "$file"), read again"
    files=$((files + 1))
done
if [ -n "$solver" ]; then
    echo "cnf: $files texts of other kinds; $solver gives $verdicts of them and of what cnf writes the verdict that is known"
else
    echo "cnf: $files texts of other kinds; no solver is installed (minisat, picosat, cadical, kissat or glucose), so none has read them"
fi

counted
