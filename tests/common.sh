# Sourced by the tests of programs (bash, with pipefail), from the repository's folder: `. tests/common.sh PROGRAM`. A test puts what goes in and
# what is due into files in $room: input, expected (standard output) and said (standard error).
. tools/kit.sh
program=${1:-}
room=$(mktemp -d)
trap 'rm -rf "$room"' EXIT
: >"$room/said"
passed=0 failed=0

# Runs the program on standard input. $room/wrote is its standard output, $room/told its standard error.
run_program() {
    "crates/$program/out/$program" >"$room/wrote" 2>"$room/told"
}

# Counts what gives what is due, and what does not.
good() { passed=$((passed + 1)); }
bad() { # NAME WHAT
    failed=$((failed + 1))
    echo "$program: $1: $2"
}

# True if the program wrote and told what these files have. Where it did not, shows how they differ, after a line that names the input.
alike() { # NAME EXPECTED SAID
    if cmp -s "$room/wrote" "$2" && cmp -s "$room/told" "$3"; then return; fi
    echo "$program: $1: it wrote or said something else:"
    diff -a "$room/wrote" "$2" | cut -c 1-160 | head -10 || true
    diff -a "$room/told" "$3" | cut -c 1-160 | head -10 || true
    return 1
}

# Holds what the program wrote and told to $room/expected and $room/said, and counts it.
held() { # NAME
    if alike "$1" "$room/expected" "$room/said"; then good; else failed=$((failed + 1)); fi
}

# Runs the program on $room/input, and expects what $room/expected has, and nothing on standard error.
writes() { # NAME
    : >"$room/said"
    run_program <"$room/input"
    held "$1"
}

# Runs the program on $room/input, and expects this line on standard error and nothing else.
refuses() { # NAME LINE
    : >"$room/expected"
    printf '%s\n' "$2" >"$room/said"
    run_program <"$room/input"
    held "$1"
}

# Runs the program on $room/input, and expects what a stored case has: one of these two files, where the other is not there and nothing is due.
as_stored() { # NAME EXPECTED SAID
    if [ -e "$2" ]; then cp "$2" "$room/expected"; else : >"$room/expected"; fi
    if [ -e "$3" ]; then cp "$3" "$room/said"; else : >"$room/said"; fi
    run_program <"$room/input"
    held "$1"
}

# Runs the program on $room/input, which it gets a byte at a time, and expects what $room/expected has, and nothing on standard error.
in_pieces() {
    local k
    : >"$room/said"
    for ((k = 1; k <= $(wc -c <"$room/input"); k++)); do
        tail -c "+$k" "$room/input" | head -c 1
        sleep 0.01
    done | run_program
    held pieces
}

# So many times the same words; a backslash in them is awk's.
run_of() { # COUNT WORDS
    awk -v count="$1" -v words="$2" 'BEGIN { for (i = 0; i < count; i++) printf "%s", words }'
}

# The last line, which counts; false if something failed.
counted() {
    echo "$program: $passed inputs give what is due, $failed do not"
    [ "$failed" -eq 0 ]
}
