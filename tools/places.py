#!/usr/bin/env python3
"""Counts, and lists with --show, the places in src/ that could be written otherwise: see docs/DESIGN-PASS.md.

usage: tools/places.py [--show] [COMMIT]      at the top of the repository; without COMMIT of the files as they lie there
"""

import collections
import re
import subprocess
import sys


def sources(commit):
    if commit:
        names = subprocess.run(["git", "ls-tree", "-r", "--name-only", commit, "crates"], capture_output=True, text=True, check=True).stdout.split()
        read = lambda name: subprocess.run(["git", "show", f"{commit}:{name}"], capture_output=True, text=True, check=True).stdout
    else:
        names = subprocess.run(["git", "ls-files", "crates"], capture_output=True, text=True, check=True).stdout.split()
        read = lambda name: open(name, encoding="utf-8").read()
    return names, {name: read(name) for name in names if re.fullmatch(r"crates/\w+/src/\w+\.rt", name)}


def functions(text):
    """Each function: its line, its name, its head (signature and clauses) and its body."""
    lines = text.split("\n")
    for at, line in enumerate(lines):
        m = re.match(r"(?:    )?(?:pub )?fn (\w+)", line)
        if not m:
            continue
        indent = len(line) - len(line.lstrip())
        end = next((k for k in range(at, len(lines)) if lines[k] == " " * indent + "}"), len(lines) - 1)
        open_ = next((k for k in range(at, end) if lines[k].rstrip().endswith("{") and (k == at or lines[k].strip() == "{")), at)
        yield at + 1, m.group(1), "\n".join(lines[at : open_ + 1]), lines[open_ + 1 : end]


def items(text, word):
    for m in re.finditer(r"^(?:pub )?%s (\w+)[^;{\n]*\{\n(.*?)^\}" % word, text, re.M | re.S):
        yield text[: m.start()].count("\n") + 1, m.group(1), [row.strip() for row in m.group(2).split("\n") if row.strip()]


def option_like(files):
    """1a: enums of two or more variants of which one is nothing but a refusal, a fault or nothing, and another holds a value."""
    for name, text in files.items():
        for line, enum, rows in items(text, "enum"):
            rows = [row.rstrip(",") for row in rows if not row.startswith(("//", "#"))]
            told = [row for row in rows if re.search(r"\((Refusal|Slip)\b", row)]
            holding = [row for row in rows if "(" in row and row not in told]
            bare = [row for row in rows if "(" not in row]
            if (told and enum not in ("Reply", "Fault")) or (len(rows) in (2, 3) and len(holding) == 1 and len(bare) == len(rows) - 1):
                yield name, line, enum


def flagged(files):
    """1b: structs in which an outcome or a flag stands beside values."""
    for name, text in files.items():
        for line, struct, rows in items(text, "struct"):
            fields = [row for row in rows if re.match(r"(pub )?\w+:", row)]
            if len(fields) > 1 and any(re.match(r"(pub )?(outcome|refusal|reply|fits|keeps|full|stops)\b", row) for row in fields):
                yield name, line, struct


def codes(files):
    """1c: constants that stand for a kind, or for no value."""
    for name, text in files.items():
        for m in re.finditer(r"^\s*(?:pub )?const (NONE|NO_\w+|GOES_ON|STOPS|LISTED|HOLD|DROP|PUSH|BEYOND): \w+ = .*$", text, re.M):
            yield name, text[: m.start()].count("\n") + 1, m.group(1)
        for m in re.finditer(r"\bjoin: u8", text):
            yield name, text[: m.start()].count("\n") + 1, "join, 0 for none"


def shape(body):
    """A body with its names and numbers worn off."""
    seen = {}
    keep = r"(if|else|while|for|in|match|let|mut|return|loop|break|continue|true|false|as|usize|bool|len|Ok|Err|Some|None)"
    out = []
    for line in body:
        line = line.split("//")[0].strip()
        if line:
            line = re.sub(r"\b%s\b" % keep, lambda m: "\0" + m.group(1) + "\0", line)
            out.append(re.sub(r"(?<!\0)\b\w+(?:::\w+)*\b(?!\0)", lambda m: "$%d" % seen.setdefault(m.group(0), len(seen)), line))
    return "\n".join(out)


def twins(files):
    """2: functions of five lines or more whose bodies have one shape."""
    groups = collections.defaultdict(list)
    for name, text in files.items():
        for line, fn, _, body in functions(text):
            rows = [row.split("//")[0].strip() for row in body if row.split("//")[0].strip(" }{")]
            # a list of calls, one a line, is no twin of another list
            if len(rows) >= 5 and not all(re.fullmatch(r"[\w:]+\([^()]*\)\??;?", row) for row in rows):
                groups[shape(body)].append((name, line, fn))
    for group in groups.values():
        if len(group) > 1:
            for place in group:
                yield place


def loops(files, counting):
    """3: `while` and `loop`; those that count an index, where the test's own variable goes up or down by a number."""
    for name, text in files.items():
        lines = text.split("\n")
        for at, line in enumerate(lines):
            m = re.match(r"( *)(?:'\w+: )?(while|loop)\b(.*)\{$", line)
            if not m:
                continue
            end = next(k for k in range(at, len(lines)) if lines[k] == m.group(1) + "}")
            names = set(re.findall(r"\b[a-z_]\w*\b", m.group(3)))
            counts = any(re.match(r" *(\w+) [+-]= 1;", row) and row.split()[0] in names for row in lines[at + 1 : end])
            if counts or not counting:
                yield name, at + 1, line.strip()


def conversions(files):
    """4: functions that do nothing but tell one constant of another, and comparisons of wholes by hand."""
    for name, text in files.items():
        for line, fn, head, body in functions(text):
            if fn == "from":
                continue
            rows = [row.split("//")[0].strip() for row in body if row.split("//")[0].strip()]
            arms = [row for row in rows if "=>" in row]
            if rows and rows[0].startswith("match ") and len(arms) > 2 and len(arms) == len(rows) - 2 and all(re.search(r"=> (b?'.'|0x\w+|\d+|\w+::\w+(?:\(\w+::\w+\))?),$", row) for row in arms):
                yield name, line, fn
            if re.match(r"same_", fn) or fn in ("changed", "fits", "begins"):
                yield name, line, fn


def repeated_clauses(files):
    """5: clauses that stand word for word in three functions or more, each counted once."""
    heads = collections.Counter()
    for text in files.values():
        for _, _, head, _ in functions(text):
            for clause in set(re.findall(r"requires (?:\w+ )?\{ (.*?) \}\n", head)):
                heads[clause] += 1
    for clause, count in heads.items():
        if count > 2:
            yield "", count, clause


def travelling(files):
    """5: groups of three parameters or more that stand together in three functions or more."""
    groups = collections.Counter()
    for text in files.values():
        for _, _, head, _ in functions(text):
            params = re.findall(r"\b(\w+): (&?(?:mut )?\[?\w+\]?)", head.split(")")[0])
            for size in range(len(params), 2, -1):
                for at in range(len(params) - size + 1):
                    groups[", ".join("%s: %s" % p for p in params[at : at + size])] += 1
    kept = {g: n for g, n in groups.items() if n > 2}
    for g, n in kept.items():
        if not any(g in other and g != other and kept[other] == n for other in kept):
            yield "", n, g


def lengths(files):
    """6: a buffer or an array with the count of what it holds beside it, in a struct or among a function's parameters."""
    for name, text in files.items():
        for line, struct, rows in items(text, "struct"):
            if any(re.search(r": \[", row) for row in rows) and any(re.search(r"\bcount: ", row) for row in rows):
                yield name, line, struct
        for line, fn, head, _ in functions(text):
            first = head.split(")")[0]
            if re.search(r"&mut \[\w+\]", first) and re.search(r"\b(at|end|next|known): usize", first):
                yield name, line, fn


def steps(files):
    """7: functions picked by a number or handed about in tables."""
    for name, text in files.items():
        for m in re.finditer(r"\bwhich: u8|\bdyn |: fn\(", text):
            yield name, text[: m.start()].count("\n") + 1, m.group(0)


def proofs(names):
    """8: proofs written out whole."""
    for name in names:
        if re.fullmatch(r"crates/\w+/proofs/.*Proof\.antt", name):
            yield name, 1, ""


def main():
    show = "--show" in sys.argv
    commit = next((arg for arg in sys.argv[1:] if not arg.startswith("--")), None)
    names, files = sources(commit)
    rows = [
        ("1 enums of Option's or Result's shape", option_like(files)),
        ("1 an outcome or a flag beside values", flagged(files)),
        ("1 numbers for kinds and for none", codes(files)),
        ("2 functions of one shape", twins(files)),
        ("3 while and loop", loops(files, False)),
        ("3 of these, counting an index", loops(files, True)),
        ("4 conversions and comparisons by hand", conversions(files)),
        ("5 clauses in three contracts or more", repeated_clauses(files)),
        ("5 parameters that travel together", travelling(files)),
        ("6 buffers with a count beside", lengths(files)),
        ("7 steps picked by a number", steps(files)),
        ("8 proofs written out whole", proofs(names)),
    ]
    for title, places in rows:
        places = list(places)
        print(f"{len(places):4} {title}")
        if show:
            for name, line, what in places:
                print(f"       {name}:{line} {what}" if name else f"       {line} times: {what}")


main()
