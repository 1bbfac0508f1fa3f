#!/usr/bin/env bash
# Holds the README and the documents to the repository: their examples are stored output, and what they name is there.
set -euo pipefail
cd "$(dirname "$0")/.."

# the worked example: hex, words and printed line, two or more spaces apart
example=$(awk -F '  +' '/^    0[1-6] / {print $2 "\t" $4}' README.md)
diff <(cut -f 1 <<<"$example" | tr -s ' \n' '\n') <(sed 's/#.*//' examples/cases/printed/input.hex | tr -s ' \n' '\n' | sed '/^$/d')
diff <(cut -f 2 <<<"$example") examples/cases/printed/expected

# the lines of the desk, without the line that turns its echo on and the count of its lines
diff <(sed -n '/^    open 40$/,/^$/s/^    //p' README.md) <(sed -e 1d -e '$d' crates/desk/stdout)

# the text that cnf is given, and what it prints; and the lines of spell, where an empty line stands between two answers
answers=docs/ANSWERS.md
shown() { # PROGRAM: what it is given, as printf has it
    sed -n "s,^    \$ printf '\(.*\)' | ./run $1\$,\1,p" $answers
}
diff <(printf "$(shown cnf)") crates/cnf/stdin
diff <(sed -n '/| .\/run cnf$/,/^$/s/^    \([^$].*\)/\1/p' $answers) crates/cnf/stdout
diff <(printf "$(shown spell)") crates/spell/stdin
diff <(sed -n '/| .\/run spell$/,/^[^ ]/p' $answers | sed -e 1d -e '$d' -e 's/^    //' | sed '$d') crates/spell/stdout

# the lines of the demo
lines=$(sed -n 's/^    \([0-9][0-9]:[0-9][0-9] .*\)/\1/p' $answers)
[ "$(wc -l <<<"$lines")" -eq 7 ] && ! grep -vxFf examples/trend.expected <<<"$lines" || {
    echo "$answers: examples/trend.expected does not have its seven lines of the demo"
    exit 1
}

# those of the valves and of the tries
lines=$(sed -n 's/^    \( *furnace [12], .*\)/\1/p' $answers)
[ "$(wc -l <<<"$lines")" -eq 6 ] && [ "$(grep -cxFf examples/valves.expected <<<"$lines")" -eq 3 ] &&
    [ "$(grep -cxFf examples/tries.expected <<<"$lines")" -eq 3 ] || {
    echo "$answers: examples/valves.expected and examples/tries.expected do not have three of its lines each"
    exit 1
}

for target in $(grep -oh '\(^    \|`\)make [a-z]\+' README.md docs/ANSWERS.md docs/GUIDE.md | sed 's/.*make //' | sort -u); do
    grep -q "^$target:" Makefile || {
        echo "the documents name 'make $target', which is no target of the Makefile"
        exit 1
    }
done

# links: a file, from the folder of the one that has it, and with # one of its headings, in small letters with - for blanks
for page in README.md docs/*.md examples/README.md; do
    for link in $(grep -o '](\([^) ]*\))' "$page" | sed 's/](\(.*\))/\1/'); do
        file=$(dirname "$page")/${link%%#*}
        [ -e "$file" ] && { [[ $link != *'#'* ]] ||
            sed -n 's/^##* //p' "$file" | tr 'A-Z ' 'a-z-' | tr -cd 'a-z0-9\n-' | grep -qx -- "${link#*#}"; } || {
            echo "$page: there is no $link"
            exit 1
        }
    done
done
for crate in crates/*/; do
    grep -q "^|[^|]*\`$(basename "$crate")\`[^|]*|" docs/HOUSE.md || {
        echo "docs/HOUSE.md: the house has no row for $(basename "$crate")"
        exit 1
    }
done

# the guide: a row for each refusal, the one that is out of use too, and the bytes of stack for each call
for number in $(seq 21); do
    grep -q "^| $number |" docs/GUIDE.md || {
        echo "docs/GUIDE.md: there is no row for refusal $number"
        exit 1
    }
done
for call in $(grep -o '\btup_[a-z_]*(' include/tupahineka.h | tr -d '(' | sort -u); do
    grep -q "| \`$call\` | [0-9,]* |" docs/GUIDE.md || {
        echo "docs/GUIDE.md: it does not say what stack $call takes"
        exit 1
    }
done

# what the documents name: a word of the crates, of the header or of a file's name, and files of the crates. (LANDINGS.md, PORT.md and DESIGN-PASS.md tell of names
# and files as they stood when a landing or the port moved them, so they may be other ones now)
for word in $(grep -oh --exclude={LANDINGS,PORT,DESIGN-PASS}.md '`[A-Za-z][A-Za-z0-9_-]*`' README.md docs/*.md | tr -d '`' | sort -u); do
    grep -rqw -- "$word" crates crates.txt include Makefile || [ -n "$(find crates -name "$word.*")" ] || {
        echo "the documents name '$word', and nothing here has that name"
        exit 1
    }
done
for path in $(grep -oh --exclude={LANDINGS,PORT,DESIGN-PASS}.md '`[a-z_]*/\(src\|specs\|proofs\)/[A-Za-z_.]*`' README.md docs/*.md | tr -d '`' | sort -u); do
    [ -e "crates/$path" ] || [ -e "crates/$path.antt" ] || {
        echo "the documents name crates/$path, and there is no such file"
        exit 1
    }
done
echo "readme: its examples, commands and links, the crates of the house, the calls of the guide, and what the documents name are there"
