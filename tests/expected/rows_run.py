#!/usr/bin/env python3
"""Works out by brute force what rows_run must print: reads its calls, finds the prime implicates of each rule from the definition."""
import re

from model import prime_implicates

src = open("crates/rows_run/src/main.rt", encoding="utf-8").read()

def show(symbols, truth, used, rules, lent):
    rows = prime_implicates(symbols, lambda assignment: truth([assignment[s] for s in symbols]))
    if rows is None:
        print("no assignment"); return
    # 9 also where the count of accepted rules is 32,767, rules with no rows counted (02, Ticket 8)
    if used + len(rows) > lent or rules == 32767:
        print("no room"); return
    print(f"{len(rows)} rows")
    for i, r in enumerate(rows):
        if i < 4 or len(rows) - i <= 4:
            print("".join(f" {'-' if l < 0 else '+'}{abs(l)}" for l in r) + f" of rule {rules + 1}")

calls = re.sub(r"\s+", " ", src[src.index("fn show_small"):])
for line in re.findall(r"show_text\([^)]*\)|show_parity\(rt\)", calls):
    if line.startswith("show_parity"):
        show(list(range(1, 9)), lambda a: sum(a) % 2 == 1, 0, 0, 128)
        continue
    m = re.match(r'show_text\( ?rt, b"([^"]*)", b"([01]*)", (\d+), (\d+), (\d+),? ?\)', line)
    symbols = [int(h, 16) for h in re.findall(r"\\x(..)", m.group(1))]
    text = m.group(2)
    def truth(a, text=text):
        k = 0
        for b in a:
            k = 2 * k + b
        return text[k] == "1"
    show(symbols, truth, *(int(m.group(k)) for k in (3, 4, 5)))
