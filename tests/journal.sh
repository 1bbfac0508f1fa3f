#!/usr/bin/env bash
# Proves and builds the journal, and runs it on every case of examples/cases and on inputs that are long or arrive in pieces. Its last line
# counts them.
set -euo pipefail
cd "$(dirname "$0")/.."
. tests/common.sh journal

# The lines `1 TEXT` to `N TEXT`.
numbered() { # N TEXT
    seq "$1" | sed "s/\$/ $2/"
}

prove run journal

for folder in examples/cases/*/; do
    examples/hex "$folder/input.hex" >"$room/input"
    cp "$folder/expected" "$room/expected"
    writes "$(basename "$folder")"
done

# the printed case, a byte at a time
examples/hex examples/cases/printed/input.hex >"$room/input"
cp examples/cases/printed/expected "$room/expected"
in_pieces

# 32,768 bytes are taken, one more is too long
for ((k = 0; k < 16384; k++)); do printf '\x01\x04'; done >"$room/input"
numbered 16384 'open ok' >"$room/expected"
writes longest-input

printf '\x01' >>"$room/input"
echo 'input too long' >"$room/expected"
writes input-too-long

# ten thousand commands
{
    printf '\x01\xC8'
    for ((k = 0; k < 10000; k++)); do printf '\x05\x01\x00'; done
} >"$room/input"
{
    echo '1 open ok'
    seq 2 10001 | sed 's/$/ ask open/'
} >"$room/expected"
writes ten-thousand-commands

# a formula of 24,575 bytes: 8,192 times symbol 1 or 2, joined in pairs by `or` and `and` at thirteen levels
first='\x10\x01' second='\x10\x02'
for ((level = 0; level < 13; level++)); do
    pair=$first$second
    first='\x12'$pair second='\x13'$pair
done
printf '%b' "\\x01\\x02\\x02$first\\x05\\x01\\x00\\x06\\x02\\x00" >"$room/input"
printf '%s\n' '1 open ok' '2 rule rows 0 2' '3 ask stands' '4 why rank 1 row 1: 2' >"$room/expected"
writes long-formula

# the same formula without its last byte, at the end of the input
printf '%b' "\\x01\\x02\\x02${first%\\x*}" >"$room/input"
printf '%s\n' '1 open ok' '2 rule no 3 at 24574' >"$room/expected"
writes long-formula-cut

counted
