#!/usr/bin/env bash
# Holds the promises to their proofs. Each type promised in a specs/ folder has a law of that very type, under its name in small letters (with _lem
# where a definition has that name), and a place in docs/PROMISES.md; each public function of a crate that has proofs/Unique stands in it, but
# `read_full` of `input`. What a proof is worth, the checker says.
set -euo pipefail
cd "$(dirname "$0")/.."

promises=0
for file in crates/*/specs/{Promises,Demands}.antt; do
    for promise in $(sed -n 's/^abbrev pub \([A-Z][A-Za-z]*\) : Type 0$/\1/p' "$file"); do
        law=$(sed 's/\([A-Z]\)/_\L\1/g; s/^_//' <<<"$promise")
        grep -rqx "pub $law\(_lem\)\? : $promise" "${file%/specs/*}/proofs" --include='*.antt' || {
            echo "$file: nothing proves $promise: there is no 'pub $law : $promise'"
            exit 1
        }
        grep -q "\`$promise\`" docs/PROMISES.md || {
            echo "docs/PROMISES.md: it has no row for $promise of $file"
            exit 1
        }
        promises=$((promises + 1))
    done
done

functions=0
for unique in crates/*/proofs/Unique.antt; do
    src=${unique%/proofs/*}/src
    for file in "$src/lib.rt" $(sed -n "s,^pub mod \(.*\);,$src/\1.rt,p" "$src/lib.rt"); do
        for name in $(sed -n 's/^pub \(extern "C" \)\?fn \([a-z_]*\).*/\2/p' "$file"); do
            # what a read leaves is not one answer, and docs/CONTRACTS.md has it among the exceptions
            [ "$unique $name" != 'crates/input/proofs/Unique.antt read_full' ] || continue
            grep -q "[.«]$name»\?\.ended" "$unique" || {
                echo "$unique: it has no line for $name of $file"
                exit 1
            }
            functions=$((functions + 1))
        done
    done
done
echo "promises: $promises, each with its law and its row; $functions public functions, each with its line in proofs/Unique"
