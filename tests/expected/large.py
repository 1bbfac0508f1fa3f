#!/usr/bin/env python3
"""The boards of crates/large, worked out from documents 01 and 02 alone, here and in model.py."""
from model import Derived, symbol_order

def sound(S, row):
    return 1 <= len(row) <= 8 and all(1 <= abs(l) <= S for l in row) and all(abs(a) < abs(b) for a, b in zip(row, row[1:]))

def fill():
    """Row r is -a, b, c with a = 1 + 11r mod 186, b = a + 1 + r mod 11, c = b + 1 + r mod 3; each third b and each fifth c negative."""
    rows = []
    for r in range(2048):
        a = 1 + (11 * r) % 186
        b = a + 1 + r % 11
        c = b + 1 + r % 3
        row = [-a, -b if r % 3 == 0 else b, -c if r % 5 == 0 else c]
        assert sound(200, row)
        rows.append(row)
    return rows

def table_row(row, rule):
    """Nine numbers, straight from 02's Ticket 8: eight places, the literals and then zeros, and the number of the row's rule."""
    return row + [0] * (8 - len(row)) + [rule]

def numbers(row):
    return "[" + "".join(f" {n}" for n in row) + " ]"

def board(rows, held):
    """The board as it is printed: each row is from a rule of its own, so as many rules are counted; the premises of furnace 1, and of furnace 2,
    which holds none here."""
    return f"S 200 rows {rows} rules {rows} held {numbers(sorted(held, key=symbol_order))} and {numbers([])}"

def on(rows, held):
    """2,049 rows of nine numbers are there; 2,048 of them are lent."""
    return f"on {board(rows, held)} lent {2049 * 9}"

def line(rows, held, ask):
    derived = Derived(rows, held)
    ranks = list(derived.rank.values())
    by_rank = [ranks.count(k) for k in range(max(ranks) + 1)]
    labels = [(s in derived) + 2 * (-s in derived) for s in range(1, 201)]
    by_label = [labels.count(v) for v in range(4)]
    words = [*by_label, "sums", sum(ranks), sum(derived.support.values()), "by rank", *by_rank]
    r = derived.support[ask]
    text = on(len(rows), held) + "; settle 200 400 400 for 1 labels " + " ".join(str(w) for w in words)
    text += f"; why {ask} for 1 ok rank {derived.rank[ask]} row {r} rule {r + 1} {numbers(rows[r])}"
    text += f"; ground {ask} in 400 for 1 marked {len(derived.ground(ask))}; blame in 400 for 1 "
    print(text + (f"marked {len(derived.to_blame())}" if derived.in_conflict() else "no 12, as given"))

if __name__ == "__main__":
    held = [1, 2, 3, 4]
    line([[-i, i + 1] for i in range(1, 200)], [1], 200)
    rows = fill()
    line(rows, held, 193)
    rule = "; rule 14 10 01 10 c8"
    print(on(2048, held) + rule + " no 9, as given")
    print(on(2049, held) + rule + " no 1, as given")
    old, new = table_row(rows[2047], 2048), table_row([-1, 200], 2048)          # 1 implies 200, the rule after 2,047
    changed = sum(1 for x, y in zip(old, new) if x != y)
    print(on(2047, held) + rule + f" rows 2047 1 {numbers(new)}, changed {changed} {board(2048, held)}")
    rows[2047] = [-1, 200]
    line(rows, held, 200)
