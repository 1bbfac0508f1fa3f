#!/usr/bin/env python3
"""Brings the names of this repository's definitions and lemmas to the spelling of today's Rattle: words in snake case.

usage: tools/respell.py [--show]      at the top of the repository, after the kit's own scripts; --show lists the names and changes nothing

A definition `rowsSound` becomes `rows_sound`, a lemma `rows-of-rule` becomes `rows_of_rule`; types and modules keep their capitals. Where a lemma
would fall together with another name, it gets `_lem`. Names that the checker makes, names of the kit, strings, and functions of src/ stay.
"""

import collections
import os
import re
import sys

WORD = re.compile(r"[^\s(){}\[\];,.\"`]+")
NAME = re.compile(r"^\+?[A-Za-z0-9_'ᴰ₂₀·-]+$")
HEAD = re.compile(r"^(\s*)((?:(?:abbrev|unfoldable|opaque|pub|private)\s+)*)([^\s(){};,.\"]+)((?:\s+[({].*?)?)\s+:(?:\s|$)")
FIELD = re.compile(r"^\s+(?:pub )?([^\s(){};,.\"]+) :(?:\s|$)")
ALIAS = re.compile(r"\bas ([^\s(){};,.\"]+)")


# names that stand beside another in one declaration, and locals
BESIDE = {"asksWhole": "asks_whole", "each_aRule": "each_a_rule"}
# our names for some of the kit's
CHOSEN = {
    "Bool·beq": "bool_beq",
    "List·getD-append": "list_get_or_append",
    "List·getD-eq-default": "list_get_or_eq_default",
    "List·getD-map": "list_get_or_map",
    "Memᴰ·append-left": "in_append_left",
    "Memᴰ·append-right": "in_append_right",
    "Memᴰ·map": "in_map",
    "Memᴰ·of-map": "in_of_map",
}


def files(root, ends, below=("crates",)):
    for top in below:
        for folder, dirs, names in os.walk(os.path.join(root, top)):
            dirs[:] = sorted(d for d in dirs if d not in ("out", "target", ".git"))
            for n in sorted(names):
                if n.endswith(ends):
                    yield os.path.join(folder, n)


def snake(name):
    s = re.sub(r"(?<=[a-z0-9])([A-Z])", lambda m: "_" + m.group(1).lower(), name)
    return s.replace("-", "_").replace("·", "_")


def is_camel(name):
    return name[:1].islower() and re.search(r"[a-z0-9][A-Z]", name) is not None


def declared(path):
    """The names that a file declares: at its margin or in a record, a data type or a where, and aliases."""
    with open(path, encoding="utf-8") as f:
        for line in f:
            code = line.split("--")[0] if line.lstrip().startswith("--") else line
            if code.lstrip().startswith(("--", "use ", "pub use ")):
                if not code.lstrip().startswith("--"):
                    for m in ALIAS.finditer(code):
                        yield m.group(1)
                continue
            m = HEAD.match(code) or FIELD.match(code)
            if m:
                yield m.group(3) if m.re is HEAD else m.group(1)


def fields_of(path):
    """The fields of a file's records."""
    found, deep = set(), None
    with open(path, encoding="utf-8") as f:
        for line in f:
            indent = len(line) - len(line.lstrip())
            if re.match(r"\s*(pub )?record\s.*\bwhere\s*$", line):
                deep = indent
            elif line.strip() and deep is not None and indent <= deep:
                deep = None
            m = FIELD.match(line)
            if m and deep is not None:
                found.add(m.group(1))
    return found


def is_hand(path):
    return os.path.basename(path) == "Proof.antt"


def kit_names(root):
    """What the files import from the kit, without an alias of ours."""
    kit = set()
    for p in files(root, (".antt", ".rt")):
        with open(p, encoding="utf-8") as f:
            for line in f:
                m = re.match(r"\s*(?:pub |ghost )*use (\S+?)\.\{(.*)\}", line)
                if m and not re.match(r"Rattle\.(?!std|core)", m.group(1)):
                    for part in m.group(2).split(","):
                        kit.add(part.split(" as ")[0].strip())
    return kit


def plan(root):
    """Each name with its new spelling. Definitions of specs/ come first, and what would fall together with one gives way."""
    specs, shared, local = set(), set(), collections.defaultdict(set)
    fields = set()
    for p in files(root, ".antt"):
        within = fields_of(p)
        fields |= within
        for n in declared(p):
            if is_hand(p):
                local[p].add(n)
            elif n not in within:
                shared.add(n)
                if "/specs/" in p:
                    specs.add(n)
    kit = kit_names(root)
    wanted = {}
    used = set(kit) | {snake(k) for k in kit}

    def odd(n):
        return NAME.match(n) is not None and n not in kit and (is_camel(n) or "-" in n or "·" in n)

    def take(n, to):
        while to in used:
            to += "_lem"
        used.add(to)
        if to != n:
            wanted[n] = to

    for group in (specs, shared - specs):
        plain = {n for n in group if not odd(n)}
        if group is specs:
            used |= plain
        else:
            for n in sorted(plain - kit):
                take(n, n)
        for n in sorted((n for n in group if odd(n)), key=lambda n: (not is_camel(n), n)):
            take(n, CHOSEN.get(n, snake(n)))
    # a field stands in its record, so it falls together with nothing
    for n in fields - shared:
        if odd(n):
            wanted[n] = snake(n)
    wanted.update(BESIDE)
    return wanted, local, kit


def turned(text, names, prose, dotted):
    """The text with its words turned. In prose a name with dashes counts only between backticks."""

    def word(m):
        w, at = m.group(0), m.start()
        if w not in names:
            return w
        if at and text[at - 1] == "." and not dotted(text, at, w):
            return w
        if prose and not is_camel(w) and not (text[at - 1 : at] == "`" and text[m.end() : m.end() + 1] == "`"):
            return w
        return names[w]

    return WORD.sub(word, text)


def split(line):
    """A line's code and its comment."""
    m = re.search(r"(?:^|\s)--(?:\s|$)", line)
    return (line, "") if not m else (line[: m.start()], line[m.start() :])


def main(argv):
    root = os.getcwd()
    wanted, local, kit = plan(root)
    if "--show" in argv:
        for n, to in sorted(wanted.items()):
            print(n, to)
        return 0
    fields = set()
    for p in files(root, ".antt"):
        if not is_hand(p):
            fields |= fields_of(p)

    def module_or_field(text, at, w):
        before = re.search(r"([A-Za-z0-9_'.+-]+)\.$", text[:at])
        path = before.group(1) if before else ""
        if path.split(".")[0] in ("tie", "goal"):
            return False
        if path.startswith("Rattle.") or re.match(r"[A-Z]", path.split(".")[-1] or "a"):
            return True
        return w in fields

    for p in files(root, ".antt"):
        names = dict(wanted)
        if is_hand(p):
            for n in local[p]:
                if n not in names and n not in kit and NAME.match(n) and (is_camel(n) or "-" in n):
                    names[n] = snake(n)
        with open(p, encoding="utf-8") as f:
            lines = f.readlines()
        out = []
        for line in lines:
            code, comment = split(line)
            out.append(turned(code, names, False, module_or_field) + turned(comment, names, True, lambda t, a, w: False))
        if out != lines:
            with open(p, "w", encoding="utf-8") as f:
                f.write("".join(out))
    camels = {n: to for n, to in wanted.items() if is_camel(n)}
    for p in files(root, (".rt", ".edit")):
        with open(p, encoding="utf-8") as f:
            text = f.read()
        new = turned(text, wanted if p.endswith(".edit") else camels, p.endswith(".rt"), lambda t, a, w: True)
        if new != text:
            with open(p, "w", encoding="utf-8") as f:
                f.write(new)
    return 0


if __name__ == "__main__":
    raise SystemExit(main(sys.argv[1:]))
