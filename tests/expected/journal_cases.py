#!/usr/bin/env python3
"""Writes examples/cases/NAME/{input.hex,expected}: journal inputs and what document 01, with Ticket 1 of document 02, says they print.
Run from anywhere: python3 tests/expected/journal_cases.py.

The expected lines come from a small model of these documents, written from their text alone, here and in model.py.
"""
import os
import sys

from model import Derived, Refused, rows_of

ROWS_LENT = 2048


# ---- the model


def read(data, at, symbols, depth):
    """One formula from place `at`: (tree, place after it), or a refusal with the place where the data break."""
    if depth > 16:
        raise Refused(5, place=at)
    if at >= len(data):
        raise Refused(3, place=len(data))
    kind = data[at]
    if kind == 0x10:
        number = at + 1
        if number >= len(data):
            raise Refused(3, place=len(data))
        s = data[number]
        if s == 0 or s > symbols:
            raise Refused(2, place=number)
        return ("symbol", s), at + 2
    if kind == 0x11:
        f, at = read(data, at + 1, symbols, depth + 1)
        return ("-", f), at
    if kind in (0x12, 0x13, 0x14, 0x15):
        f, at = read(data, at + 1, symbols, depth + 1)
        g, at = read(data, at, symbols, depth + 1)
        return ({0x12: "&", 0x13: "|", 0x14: ">", 0x15: "="}[kind], f, g), at
    raise Refused(4, place=at)


class Board:
    """The calls give what the journal says where they are done."""

    def __init__(self):
        self.symbols = 0
        self.rows = []
        self.held = set()

    def open(self, symbols):
        """A refused open leaves a board with S = 0."""
        self.__init__()
        if not 1 <= symbols <= 200:
            raise Refused(2)
        self.symbols = symbols
        return "ok"

    def test(self):
        if not 1 <= self.symbols <= 200 or len(self.rows) > ROWS_LENT:
            raise Refused(1)

    def rule(self, formula):
        before, added = len(self.rows), rows_of(formula)
        if before + len(added) > ROWS_LENT:
            raise Refused(9)
        self.rows += added
        return "rows %d %d" % (before, len(added))

    def hold(self, literal):
        if literal in self.held:
            raise Refused(10)
        self.held.add(literal)
        return "ok"

    def drop(self, literal):
        if literal not in self.held:
            raise Refused(11)
        self.held.remove(literal)
        return "ok"

    def ask(self, literal):
        derived = Derived(self.rows, self.held)
        said = {(True, True): "conflict", (True, False): "stands", (False, True): "out", (False, False): "open"}
        return said[literal in derived, -literal in derived]

    def why(self, literal):
        derived = Derived(self.rows, self.held)
        if literal not in derived or literal in self.held:
            raise Refused(12)
        row = derived.support[literal]
        return "rank %d row %d: %s" % (derived.rank[literal], row, " ".join(map(str, self.rows[row])))


WORDS = {1: "open", 2: "rule", 3: "hold", 4: "drop", 5: "ask", 6: "why"}
BODIES = {1: 1, 2: 0, 3: 2, 4: 2, 5: 2, 6: 2}


class Journal:
    def __init__(self, data):
        self.data = data
        self.at = 0
        self.board = Board()

    def command(self):
        """Obeys the next command, and gives what is said of it where it is done."""
        kind = self.data[self.at]
        if kind not in WORDS:
            raise Refused(4)
        body = self.data[self.at + 1:self.at + 1 + BODIES[kind]]
        if len(body) < BODIES[kind]:
            raise Refused(3)
        self.at += 1 + BODIES[kind]
        if kind == 1:
            return self.board.open(body[0])
        self.board.test()
        if kind == 2:
            return self.board.rule(self.formula())
        literal = int.from_bytes(bytes(body), "little", signed=True)
        if not 1 <= abs(literal) <= self.board.symbols:
            raise Refused(2)
        return getattr(self.board, WORDS[kind])(literal)

    def formula(self):
        """Places are counted from its first byte."""
        first = self.at
        try:
            formula, self.at = read(self.data, first, self.board.symbols, 1)
        except Refused as refusal:
            raise Refused(refusal.number, place=refusal.place - first)
        return formula


def journal(data):
    """Everything the program prints. It stops where it cannot know the next command, and at refusal 1."""
    if len(data) > 32768:
        return "input too long\n"
    run = Journal(data)
    out = []
    while run.at < len(data):
        line = "%d %s " % (len(out) + 1, WORDS.get(data[run.at], "kind"))
        try:
            out.append(line + run.command())
        except Refused as refusal:
            out.append(line + "no %d" % refusal.number + ("" if refusal.place is None else " at %d" % refusal.place))
            if refusal.number in (1, 3, 4) or refusal.place is not None:
                break
    return "".join(line + "\n" for line in out)


# ---- writing commands down

def lit(l):
    return "%02X %02X" % (l & 255, (l >> 8) & 255)


def opens(s):
    return "01 %02X" % s, "open with %d symbols" % s


def hold(l):
    return "03 " + lit(l), "hold %d" % l


def drop(l):
    return "04 " + lit(l), "withdraw %d" % l


def ask(l):
    return "05 " + lit(l), "ask %d" % l


def why(l):
    return "06 " + lit(l), "explain %d" % l


def raw(text, note):
    return text, note


def spell(f):
    if isinstance(f, int):
        return "10 %02X" % f if f > 0 else "11 10 %02X" % -f
    return {"not": "11", "and": "12", "or": "13", "imp": "14", "same": "15"}[f[0]] + "".join(" " + spell(g) for g in f[1:])


def show(f):
    if isinstance(f, int):
        return str(f) if f > 0 else "not %d" % -f
    if f[0] == "not":
        return "not " + show(f[1])
    return "(" + show(f[1]) + {"and": " and ", "or": " or ", "imp": " implies ", "same": " same "}[f[0]] + show(f[2]) + ")"


def rule(f, note=None):
    return "02 " + spell(f), note or "rule: " + show(f)


def fold(kind, symbols):
    f = symbols[-1]
    for s in reversed(symbols[:-1]):
        f = (kind, s, f)
    return f


def full(level, symbols):
    """Symbols in turn, joined by `and` in pairs at so many levels."""
    return symbols[0] if level == 0 else ("and", full(level - 1, symbols), full(level - 1, symbols[1:] + symbols[:1]))


def nots(count, f):
    for _ in range(count):
        f = ("not", f)
    return f


CASES = {}


def case(name, about, *commands):
    CASES[name] = (about, commands)


case("printed", "The case that document 01 prints, with line 11 as 02's Ticket 11 has it.",
     opens(4), rule(("imp", 1, 2)), rule(("imp", ("and", 2, 3), 4)), hold(1), hold(3), ask(4), why(4), drop(1), ask(4), hold(-3), ask(4))

case("nothing", "Empty input: nothing is printed.")

case("open-range", "S 200 opens, 0 and 201 don't. A refused open leaves a board with S = 0, so that the next call stops with 1.",
     opens(200), ask(200), ask(201), opens(0), opens(201), opens(255), opens(1), hold(1), opens(201), hold(1), opens(4))

case("not-opened-hold", "Before any open the board has S = 0: refusal 1, and the program stops.", hold(1), opens(4))
case("not-opened-drop", "The same for withdraw.", drop(1), opens(4))
case("not-opened-ask", "The same for ask.", ask(1), opens(4))
case("not-opened-why", "The same for explain.", why(1), opens(4))
case("not-opened-rule", "The same for a rule, ahead of its formula's faults.",
     raw("02 16", "rule: no such kind, and refusal 1 comes first"), opens(4))

case("open-again", "A good open touches no row; rows in use and premises start empty.",
     opens(4), rule(("imp", 1, 2)), hold(1), ask(2), opens(3), ask(2), ask(1), rule(("or", 2, 3)), hold(-2), why(3), ask(4))

for n, byte in enumerate(("00", "07", "10", "FF")):
    case("kind-" + byte.lower(), "An unknown command: the program stops.", opens(4), hold(1), raw(byte, "no such command"), ask(1))

for kind, name in ((1, "open"), (3, "hold"), (4, "drop"), (5, "ask"), (6, "why")):
    case("cut-" + name, "A body cut short is refusal 3, ahead of every other test: here the board was never opened.",
         raw("%02X" % kind, name + ", no body"))
    if kind != 1:
        case("cut-" + name + "-half", "One byte of two is cut short too.", opens(4), raw("%02X 01" % kind, name + ", half a body"))

case("formula-symbol-0", "Refusal 2 in a formula: the program stops.", opens(4), raw("02 10 00", "rule: symbol 0"), ask(1))
case("formula-symbol-beyond", "Refusal 2 in a formula: a symbol beyond S.", opens(4), raw("02 13 10 04 10 05", "rule: 4 or 5"), ask(1))
case("formula-cut-kind", "Refusal 3 in a formula: it ends where a kind is due.", opens(4), raw("02 13 10 01", "rule: 1 or"))
case("formula-cut-body", "Refusal 3 in a formula: it ends where a body is due.", opens(4), raw("02 11 10", "rule: not"))
case("formula-none", "Refusal 3 in a formula: there is none.", opens(4), raw("02", "rule"))
case("formula-kind", "Refusal 4 in a formula.", opens(4), raw("02 13 10 01 16", "rule: 1 or something unknown"), ask(1))
case("formula-deep", "Sixteen nots and no more: 5, not 3.", opens(4), raw("02 " + " ".join(["11"] * 16), "rule: sixteen nots"))
case("formula-deep-more", "Sixteen nots and a symbol: 5.", opens(4), raw("02 " + " ".join(["11"] * 16) + " 10 01", "rule: sixteen nots, 1"), ask(1))
case("formula-first-fault", "The first fault met is the answer: 2 at the first operand, though the second is unknown.",
     opens(4), raw("02 12 10 09 17", "rule: 9 and something unknown"))
case("fifteen-nots", "Fifteen nots then a symbol: accepted.", opens(2), rule(nots(15, 2), "rule: fifteen nots, 2"), ask(2), why(-2))

# document 02, Ticket 1: where the formula breaks
LONG = spell(("same", ("imp", ("or", 1, 2), ("and", 3, -4)), ("not", ("or", 3, ("and", 1, -2)))))
FAR = spell(full(10, [1, 2, 3, 4])) + " " + spell(full(9, [1, 2, 3, 4]))

case("place-symbol-nested", "The place of 2 is that of the symbol's number, here in the first operand of a first operand.",
     opens(4), raw("02 14 12 10 05 10 01 10 02", "rule: (5 and 1) implies 2"), ask(1))
case("place-symbol-second", "The place of 2 in a second operand counts the first one.",
     opens(4), raw("02 14 12 10 01 10 02 10 00", "rule: (1 and 2) implies symbol 0"), ask(1))
case("place-symbol-second-of-second", "2 in the second operand of a second operand, behind a long first one.",
     opens(4), raw("02 13 10 01 12 " + LONG + " 11 10 05", "rule: 1 or (a long formula and not 5)"), ask(1))
case("place-cut-kind-nested", "The place of 3 is that of the missing byte, here the kind of a first operand's first operand.",
     opens(4), raw("02 14 12", "rule: an implication of an and, and no more"))
case("place-cut-kind-second", "3 for the kind of a second operand.",
     opens(4), raw("02 14 12 10 01 10 02", "rule: (1 and 2) implies"))
case("place-cut-kind-second-of-second", "3 for the kind of a second operand's second operand, behind a long first one.",
     opens(4), raw("02 13 10 01 12 " + LONG, "rule: 1 or (a long formula and"))
case("place-cut-body-nested", "3 for the number of a symbol in the first operand of a first operand.",
     opens(4), raw("02 15 13 10", "rule: a same of an or of a symbol without its number"))
case("place-cut-body-second", "3 for the number of a symbol in a second operand.",
     opens(4), raw("02 14 12 10 01 10 02 10", "rule: (1 and 2) implies a symbol without its number"))
case("place-cut-body-second-of-second", "3 for the number of a symbol in a second operand's second operand, behind a long first one.",
     opens(4), raw("02 13 10 01 12 " + LONG + " 10", "rule: 1 or (a long formula and a symbol without its number"))
case("place-kind-nested", "The place of 4 is where the operand was due, here the first operand of a first operand.",
     opens(4), raw("02 12 11 0F 10 01", "rule: not something unknown, and 1"), ask(1))
case("place-kind-second", "4 in a second operand.",
     opens(4), raw("02 15 11 10 01 99", "rule: not 1 same something unknown"), ask(1))
case("place-kind-second-of-second", "4 in the second operand of a second operand, behind a long first one.",
     opens(4), raw("02 13 10 01 12 " + LONG + " FF", "rule: 1 or (a long formula and something unknown)"), ask(1))
case("place-kind-first", "4 at the formula's first byte, whose place is 0; a command's kind is no formula's.",
     opens(4), rule(1), raw("02 01 04", "rule: something unknown, which would be an open"), ask(1))
case("place-deep-nested", "The place of 5 is where the operand was due: sixteen two-operand kinds, and the first operand of the last.",
     opens(4), raw("02 " + " ".join(["12", "13", "14", "15"] * 4) + " 10 01", "rule: sixteen kinds of two operands, 1"), ask(1))
case("place-deep-second", "5 by way of second operands, each behind a first one; no byte is left, and still 5, not 3.",
     opens(4), raw("02" + " 13 10 04" * 15 + " 11", "rule: 4 or (4 or ( ... fifteen times, not"))
case("place-deep-second-of-second", "5 in the second operand of a second operand, behind a long first one.",
     opens(4), raw("02 13 10 01 12 " + LONG + " 11" * 14 + " 10 01", "rule: 1 or (a long formula and fourteen nots, 1)"), ask(1))
case("place-own-rule", "Places count from the rule's own first byte, whatever came before it; bytes of commands after it don't matter.",
     opens(4), hold(1), rule(("imp", 1, 2)), ask(2), raw("02 13 10 01 10 05", "rule: 1 or 5"), hold(3), ask(3))
case("place-first-fault", "Two faults in one formula: the place is that of the first one met.",
     opens(4), raw("02 12 13 10 01 10 09 13 10 00 99", "rule: (1 or 9) and (symbol 0 or something unknown)"), ask(1))
case("place-four-digits", "A formula of 4,607 bytes, its last symbol beyond S.",
     opens(4), raw("02 12 " + FAR[:-2] + "05", "rule: 1,024 symbols joined by and, 511 more and 5"), ask(1))
case("place-four-digits-cut", "The same formula without its last byte.",
     opens(4), raw("02 12 " + FAR[:-3], "rule: 1,024 symbols joined by and, 511 more and one without its number"))
case("place-none", "Refusals 7 and 8 of a rule and 2 of the other commands have no place; the first that has one ends it.",
     opens(9), rule(fold("or", list(range(1, 10)))), rule(("and", 1, -1)), hold(10), drop(0), ask(-10), why(10), opens(201), opens(2),
     raw("02 11 10 03", "rule: not 3"), ask(1))

case("literals", "Literals 0, beyond S, -32768 and 32767: refusal 2, and the program goes on.",
     opens(3), ask(0), hold(0), hold(4), hold(-4), ask(-32768), hold(-32768), drop(-32768), why(-32768), ask(32767), hold(32767),
     ask(256), ask(-256), ask(3), ask(-3), hold(-3), ask(-3))

case("premises", "Refusals 10 and 11; holding both literals of a symbol is a conflict.",
     opens(3), hold(3), hold(3), drop(-3), drop(3), drop(3), hold(3), hold(-3), ask(1), ask(3), drop(3), ask(3), ask(-3))

case("explain", "Refusal 12: not derived, or held. The lowest row that gave the rank is shown.",
     opens(5), rule(("imp", 1, 2)), rule(("imp", 3, 2)), rule(("imp", 2, 4)), why(2), hold(3), why(3), why(2), hold(1), why(2), why(4), why(-4),
     hold(2), why(2), why(4), drop(2), why(5))

case("answers", "stands, out, open and conflict.",
     opens(4), rule(("imp", 1, 2)), ask(2), hold(1), ask(2), ask(-2), ask(3), hold(-2), ask(2), ask(3), drop(1), ask(1), ask(-1))

case("by-symbol", "In a conflict, of every literal: conflict only for the symbols of which both literals are derived, here 3 and then 1 and 2 too.",
     opens(5), rule(("imp", 1, 2)), rule(("imp", 2, -4)), hold(1), hold(3), hold(-3), *[ask(l) for s in range(1, 6) for l in (s, -s)],
     hold(-2), *[ask(l) for s in range(1, 6) for l in (s, -s)], drop(-3), drop(-2), *[ask(l) for s in range(1, 6) for l in (s, -s)])

case("rules-boards", "The boards to try, one after the other on one table.",
     opens(9), rule(("and", 1, -1)), rule(("or", 1, -1)), rule(("and", ("imp", 1, 2), ("or", 1, 2))), rule(("same", 1, 2)),
     rule(("and", ("or", 1, 2), ("or", -1, 3))), rule(("or", 1, ("and", 1, 2))), rule(fold("or", list(range(1, 9)))),
     rule(fold("or", list(range(1, 10)))), ask(1), why(1), why(2), why(3))

case("weak-rules", "1 implies 2, not 1 implies 2, nothing held: 2 is open. Both in one rule: 2 stands, rank 1.",
     opens(2), rule(("imp", 1, 2)), rule(("imp", -1, 2)), ask(2), rule(("and", ("imp", 1, 2), ("imp", -1, 2))), ask(2), why(2))

case("circle", "1 implies 2 and 2 implies 1: withdrawing 1 brings both down.",
     opens(2), rule(("imp", 1, 2)), rule(("imp", 2, 1)), hold(1), ask(2), why(2), drop(1), ask(1), ask(2))

case("eight-symbols", "Eight symbols pass, nine give 7; a refused rule leaves the board, and the next command follows its formula.",
     opens(9), rule(fold("and", list(range(1, 9)))), rule(fold("and", list(range(1, 10)))), rule(fold("same", list(range(1, 9)))),
     rule(fold("or", [1, 2, 3, 4, 5, 6, 7, 8, 1, 2])), ask(8))

case("chain", "200 symbols, each implied by the one before: ranks up to 199.",
     opens(200), *[rule(("imp", s, s + 1)) for s in range(1, 200)], hold(1), ask(200), why(200), why(2), why(101), hold(-200), ask(1), drop(1),
     ask(-1), why(-1), why(-199))

case("chain-and-back", "The same chain from a rule of one literal, and 200 denied at its end: the opposites follow back along it, to rank 399.",
     opens(200), rule(1), *[rule(("imp", s, s + 1)) for s in range(1, 200)], rule(("imp", 199, -200)), why(1), why(200), why(-200), why(-199),
     why(-1), ask(1))

case("ground-enough", "A mark keeps rank and row where a reading outside its ground is dropped, in conflict too; "
     "not where one of its ground is, nor where one is held or a rule is added.",
     opens(4), rule(("imp", 1, 3)), rule(("imp", 2, 4)), rule(("imp", 4, 3)), hold(1), hold(2), why(3), why(4), drop(2), why(3), ask(4), hold(2),
     drop(1), why(3), hold(1), why(3), hold(-3), why(3), ask(3), drop(2), why(3), ask(3), drop(-3), why(3), ask(3), drop(1), ask(3), hold(2),
     why(3), rule(("imp", 2, 3)), why(3))

case("full-table", "A rule that fits the last free row passes; with one row fewer, 9. A rule that adds no row always passes.",
     opens(8), *[rule(fold("same", list(range(1, 9)))) for _ in range(15)],
     *[rule(fold("same", list(range(1, n + 1)))) for n in (7, 6, 5, 4, 3, 2)],
     rule(3), rule(("same", 1, 2)), rule(("or", 1, -1)), rule(4), rule(5), rule(("or", 1, -1)), rule(("and", 1, -1)), ask(3), why(3), why(4),
     hold(1), ask(2), opens(1), rule(1))

case("full-table-fits", "A rule of many rows that fills the table to its last row.",
     opens(8), *[rule(fold("same", list(range(1, 9)))) for _ in range(16)], rule(1), ask(1))

case("order-of-rows", "Fewer literals first, then the smaller symbol, then + before -.",
     opens(6), rule(("and", ("or", 3, ("or", 5, 6)), ("and", ("or", -2, 4), ("or", 2, 4)))), hold(-3), hold(-5), why(6), why(4),
     rule(("same", 1, ("same", 2, 3))), hold(1), hold(2), ask(3), ask(-3))


def line(command, note):
    """A command with its note; a long one has its note ahead of it, and 48 bytes a line."""
    if len(command) <= 120:
        return "%-40s # %s\n" % (command, note)
    parts = [command[i:i + 144].strip() for i in range(0, len(command), 144)]
    return "# %s\n" % note + "".join(part + "\n" for part in parts)


def main(root):
    for name, (about, commands) in CASES.items():
        text = "# " + about + "\n" + "".join(line(c, note) for c, note in commands)
        data = bytes(int(b, 16) for c, _ in commands for b in c.split())
        folder = os.path.join(root, "examples", "cases", name)
        os.makedirs(folder, exist_ok=True)
        with open(os.path.join(folder, "input.hex"), "w") as f:
            f.write(text)
        with open(os.path.join(folder, "expected"), "w") as f:
            f.write(journal(data))


if __name__ == "__main__":
    main(sys.argv[1] if len(sys.argv) > 1 else os.path.join(os.path.dirname(os.path.abspath(__file__)), "..", ".."))
