#!/usr/bin/env python3
"""Writes examples/desk/cases/NAME/expected for the `input` that stands beside it, and examples/desk/march.expected for march.txt: what
docs/DESK.md, with documents 01 and 02, says that `desk` prints.
Run from anywhere: python3 tests/expected/desk_cases.py. With --check it writes nothing; it prints each file that is not as it is worked out,
then how many are and are not, and ends with status 1 if one is not.

The expected lines come from a small model of these documents, written from their text alone, here and in model.py.
"""
import os
import re
import sys

from model import Derived, Refused, prime_implicates, rows_of, symbol_order

SYMBOLS_AT_MOST = 200
ROWS_LENT = 2048
RULES_AT_MOST = 32767
TEXTS_KEPT = 2048
LINE_AT_MOST = 500
DEEPEST = 16
BRACKETS_AT_MOST = 16
CANDIDATES_AT_MOST = 12

NUMBER = re.compile(r"[0-9]+")
NAME = re.compile(r"[A-Za-z][A-Za-z0-9_]{2,23}")

NO_SUCH_SYMBOL = "no symbol of the board has this number"
NO_SUCH_NAME = "no symbol has this name"

# the sentences of the refusals that have one only; the others are given where they come up
SENTENCES = {
    1: "no board is open",
    2: NO_SUCH_SYMBOL,
    5: "an operand stands deeper than 16",
    7: "more than 8 different symbols",
    8: "nothing satisfies it",
    9: "no room for its rows",
    10: "it is held already",
    16: "the furnaces are 1 and 2",
    17: "at most 12 readings, each once",
    18: "the conflict stays without all of these",
    19: "a valve has 2 to 7 positions, and shares none",
    20: "nothing is on trial",
    21: "it is on trial: pop takes it back",
}


class NotTaken(Exception):
    """A line that is no call as it stands, with the place of the word at fault."""

    def __init__(self, place, sentence):
        self.place = place
        self.sentence = sentence


def natural(digits):
    """DESK: "whatever is above 32,767 counts as 32,767, which is no symbol of any board"."""
    return min(int(digits), 32767)


# ---- the model: a formula in text (02, Ticket 5)


class FormulaText:
    """Reads the text form into a tree: ("symbol", number, place), ("-", operand) or (mark, first, second) with the mark &, |, > or =."""

    def __init__(self, text):
        self.text = text
        self.at = 0

    def broken(self):
        """01: "15 carries the place of the first byte that no text of the form can have there, or the length of a text cut short"."""
        if self.at == len(self.text):
            sentence = "the formula ends too soon"
        elif re.match("[A-Za-z]", self.text[self.at]):
            sentence = NO_SUCH_NAME
        elif self.text[self.at] == "(":
            sentence = "no bracket may open here"
        else:
            sentence = "no formula goes on like this"
        return Refused(15, sentence, self.at)

    def next_byte(self):
        """The next byte that is no blank, or nothing at the end. 02: "Spaces may stand round any mark"."""
        while self.text[self.at:self.at + 1] == " ":
            self.at += 1
        return self.text[self.at:self.at + 1]

    def unit(self, opened):
        """02: "a unit is a decimal symbol number, `-` and a unit, or a chain in round brackets"."""
        byte = self.next_byte()
        digits = NUMBER.match(self.text, self.at)
        if digits:
            self.at = digits.end()
            return ("symbol", natural(digits.group()), digits.start())
        if byte == "-":
            self.at += 1
            return ("-", self.unit(opened))
        if byte == "(" and opened < BRACKETS_AT_MOST:
            self.at += 1
            tree = self.chain(opened + 1)
            self.at += 1
            return tree
        raise self.broken()

    def chain(self, opened):
        """02: "a chain is a unit alone, units joined by `&` only or by `|` only, grouped from the left, or two units joined by `>` (implies)
        or by `=` (same)". A chain in brackets ends before its closing bracket, the whole text's where the text does."""
        tree = self.unit(opened)
        joined_by = None
        while True:
            byte = self.next_byte()
            if byte == (")" if opened else ""):
                return tree
            may_follow = {None: "&|>=", "&": "&", "|": "|", ">": "", "=": ""}[joined_by]
            if byte == "" or byte not in may_follow:
                raise self.broken()
            joined_by = byte
            self.at += 1
            tree = (joined_by, tree, self.unit(opened))

    def whole(self):
        """02: "The whole text is a chain"."""
        return self.chain(0)


def test_operands(tree, depth, symbols):
    """02: "whichever of 2 and 5 the resulting byte formula meets first"; its bytes stand in prefix order."""
    if depth > DEEPEST:
        raise Refused(5)
    if tree[0] == "symbol":
        _, symbol, place = tree
        if not 1 <= symbol <= symbols:
            raise Refused(2, place=place)
        return
    for operand in tree[1:]:
        test_operands(operand, depth + 1, symbols)


# ---- the model: the board


def sets_by_size(candidates):
    """Each set of candidates with its number, "whose bit i stands for candidate i", "by size, then by number" (02, Ticket 10)."""
    numbers = sorted(range(1 << len(candidates)), key=lambda number: (bin(number).count("1"), number))
    for number in numbers:
        yield number, [candidate for i, candidate in enumerate(candidates) if number >> i & 1]


class Board:
    def __init__(self, symbols):
        self.symbols = symbols
        self.rows = []
        self.rules = 0
        self.texts = {}
        self.names = {}
        self.held = {1: set(), 2: set()}
        self.trials = {1: [], 2: []}

    def test(self, *literals):
        """01: 2 where "a literal or symbol is 0 or beyond S"."""
        for literal in literals:
            if not 1 <= abs(literal) <= self.symbols:
                raise Refused(2)

    def test_valve(self, first, count):
        """02, Ticket 13: "2 also for a last symbol beyond S"."""
        self.test(first)
        if count >= 1:
            self.test(first + count - 1)

    def add_rules(self, rules, text):
        """Rules, each as its clauses, "wholly or not at all". 9 where the rows don't fit, "also when the rule count would pass 32,767"."""
        added = sum(len(clauses) for clauses in rules)
        if len(self.rows) + added > ROWS_LENT or self.rules + len(rules) > RULES_AT_MOST:
            raise Refused(9)
        for clauses in rules:
            self.rules += 1
            self.rows += [(clause, self.rules) for clause in clauses]
            if self.rules <= TEXTS_KEPT:
                self.texts[self.rules] = text
        return added

    def derived(self, premises):
        return Derived([clause for clause, _ in self.rows], premises)

    def named(self, name):
        """The symbol of this name, or None."""
        for symbol, known in self.names.items():
            if known == name:
                return symbol
        return None


def is_valve_count(count):
    return 2 <= count <= 7


# ---- the model: the words of a line


class Line:
    """A line's words, "looked at from the front"; each is taken once, and one that is not as it is due is a fault at its place, "or the line's
    end, behind its blanks, where a word is missing"."""

    def __init__(self, text, symbol_named):
        self.text = text
        self.symbol_named = symbol_named
        self.words = [(found.start(), found.group()) for found in re.finditer("[^ ]+", text)]
        self.taken = 0

    def is_silent(self):
        """DESK: "A line without a word and a line whose first word begins with `#` are taken, and nothing is answered"."""
        return not self.words or self.words[0][1].startswith("#")

    def text_from_first_word(self):
        return self.text[self.words[0][0]:]

    def more(self):
        return self.taken < len(self.words)

    def word(self):
        """The next word with its place; no word at the line's end."""
        if not self.more():
            return len(self.text), ""
        self.taken += 1
        return self.words[self.taken - 1]

    def number(self):
        place, word = self.word()
        if not NUMBER.fullmatch(word):
            raise NotTaken(place, "a number is due here")
        return natural(word)

    def name(self):
        place, word = self.word()
        if not NAME.fullmatch(word):
            raise NotTaken(place, "a name is due here: 3 to 24 letters, digits and _, a letter first")
        return place, word

    def symbol_in(self, place, word):
        """DESK: "A symbol is a number, or the name of a symbol"."""
        if NUMBER.fullmatch(word):
            return natural(word)
        if not NAME.fullmatch(word):
            raise NotTaken(place, "a symbol is due here, by its number or its name")
        symbol = self.symbol_named(word)
        if symbol is None:
            raise NotTaken(place, NO_SUCH_NAME)
        return symbol

    def symbol(self):
        return self.symbol_in(*self.word())

    def literal(self):
        """DESK: "A literal is a symbol, or `-` and a symbol without a blank between"."""
        place, word = self.word()
        if word.startswith("-"):
            return -self.symbol_in(place, word[1:])
        return self.symbol_in(place, word)

    def literals(self):
        found = []
        while self.more():
            found.append(self.literal())
        return found

    def marks(self, first_count, second_count):
        """The rest of a pair table's line: a word for each position of the first valve, in it a mark for each of the second."""
        place = self.words[self.taken][0] if self.more() else len(self.text)
        words = [word for _, word in self.words[self.taken:]]
        fits = len(words) == first_count and all(re.fullmatch("[01]{%d}" % second_count, word) for word in words)
        if not fits:
            raise NotTaken(place, "marks are due here, 0 or 1: a word for each position of the first valve, a mark for each of the second")
        return words

    def on_or_off(self):
        place, word = self.word()
        if word not in ("on", "off"):
            raise NotTaken(place, "on or off is due here")
        return word

    def end(self):
        if self.more():
            raise NotTaken(self.words[self.taken][0], "nothing more is due here")


# ---- the model: the desk


def shown(text):
    """DESK: "each byte that does not print as `?`"."""
    return "".join(byte if " " <= byte <= "~" else "?" for byte in text)


class Desk:
    def __init__(self):
        """DESK: "The desk begins with no board, working furnace 1, without `echo`"."""
        self.board_open = None
        self.furnace = 1
        self.echo = False
        self.printed = []

    # -- lines in, lines out

    def run(self, data):
        """Everything the program prints. A byte is a letter of the text here, so that places are the same."""
        lines = data.decode("latin-1").split("\n")
        if lines[-1] == "":
            lines.pop()
        for number, text in enumerate(lines, 1):
            if text.endswith("\r"):
                text = text[:-1]
            if len(text) > LINE_AT_MOST:
                self.answer("not taken: line %d has more than 500 bytes" % number)
            else:
                self.take(text)
        self.put("%d lines read" % len(lines))
        return "".join(self.printed).encode("ascii")

    def put(self, text):
        self.printed.append(text + "\n")

    def answer(self, text):
        """DESK: "An answer's lines begin with two blanks"."""
        self.put("  " + text)

    def take(self, text):
        echoed = self.echo
        if echoed:
            self.put(shown(text))
        try:
            self.obey(Line(text, self.symbol_named))
        except NotTaken as fault:
            self.answer_at(text, echoed, fault.place, "not taken: " + fault.sentence)
        except Refused as refusal:
            said = "refused %d: %s" % (refusal.number, refusal.sentence or SENTENCES[refusal.number])
            if refusal.place is None:
                self.answer(said)
            else:
                self.answer_at(text, echoed, refusal.place, said)

    def answer_at(self, text, echoed, place, said):
        """DESK: "the line again (where `echo` is on it stands there already)"; "under it `^` in the column of the place, a blank", and what
        is said, "not indented"."""
        if not echoed:
            self.put(shown(text))
        self.put(" " * place + "^ " + said)

    def obey(self, line):
        if line.is_silent():
            return
        place, word = line.word()
        if word not in ORDERS:
            raise NotTaken(place, "no line begins with this word; help lists those that do")
        ORDERS[word](self, line)

    # -- the board, its names and the furnace

    def board(self):
        """The board, or 1: it is asked for once the words are tested, ahead of every other refusal."""
        if self.board_open is None:
            raise Refused(1)
        return self.board_open

    def symbol_named(self, name):
        return self.board_open.named(name) if self.board_open else None

    def held(self):
        return self.board().held[self.furnace]

    def trials(self):
        return self.board().trials[self.furnace]

    def derived(self):
        return self.board().derived(self.held())

    # -- how things are shown

    def symbol(self, symbol):
        """DESK: "by its name, or by its number where it has none"."""
        return self.board().names.get(symbol, str(symbol))

    def literal(self, literal):
        return ("-" if literal < 0 else "") + self.symbol(abs(literal))

    def literals(self, literals, where_none):
        return ", ".join(self.literal(literal) for literal in literals) or where_none

    def standing(self, literal):
        return self.symbol(abs(literal)) + (" stands" if literal > 0 else " is ruled out")

    def answer_rules(self, said, last_rule):
        self.answer(said)
        if last_rule > TEXTS_KEPT:
            self.answer("the text of a rule above 2048 is not kept")

    def answer_rule(self, added):
        rule = self.board().rules
        rows = {0: "no row, always true", 1: "1 row"}.get(added, "%d rows" % added)
        self.answer_rules("rule %d: %s" % (rule, rows), rule)

    # -- boards, names and rules

    def open(self, line):
        symbols = line.number()
        line.end()
        if not 1 <= symbols <= SYMBOLS_AT_MOST:
            raise Refused(2, "a board has 1 to 200 symbols")
        self.board_open = Board(symbols)
        self.furnace = 1
        self.answer("board of %d symbols" % symbols)

    def name(self, line):
        """DESK: "the words are tested for their form, then that there is no word too many, then 1 and 2, then whether the name is another
        symbol's"."""
        symbol = line.symbol()
        place, name = line.name()
        line.end()
        self.board().test(symbol)
        if self.board().named(name) not in (None, symbol):
            raise NotTaken(place, "another symbol has this name")
        self.board().names[symbol] = name
        self.answer("%s is symbol %d" % (name, symbol))

    def with_numbers(self, text):
        """DESK: "Each run of letters, digits and `_` in the text that is a name of a symbol is replaced by the symbol's number with zeros
        before it, as many digits as the name has bytes; every other byte stays"."""
        def replaced(run):
            symbol = self.symbol_named(run.group())
            return run.group() if symbol is None else str(symbol).zfill(len(run.group()))
        return re.sub("[A-Za-z0-9_]+", replaced, text)

    def rule(self, line):
        """02, Ticket 5: 1, then 15, then 2 or 5, "then 7 to 9". Blanks stand for the line's first word, so that a place in what is read is a
        place in the line."""
        board = self.board()
        start = line.words[0][0] + len("rule")
        typed = line.text[start:]
        tree = FormulaText(" " * start + self.with_numbers(typed)).whole()
        test_operands(tree, 1, board.symbols)
        self.answer_rule(board.add_rules([rows_of(tree)], typed.lstrip(" ")))

    def valve(self, line):
        """02, Ticket 13: "2 to 7 consecutive symbols, exactly one true, given by first symbol and count, entered as one rule"."""
        first = line.symbol()
        count = line.number()
        line.end()
        board = self.board()
        board.test_valve(first, count)
        if not is_valve_count(count):
            raise Refused(19)
        clauses = prime_implicates(range(first, first + count), lambda assignment: sum(assignment.values()) == 1)
        self.answer_rule(board.add_rules([clauses], line.text_from_first_word()))

    def pairs(self, line):
        """DESK: "the marks are tested last of the words, ahead of the call's refusals; where a number of positions is outside 2 to 7 they are
        not looked at"."""
        first, first_count = line.symbol(), line.number()
        second, second_count = line.symbol(), line.number()
        are_valves = is_valve_count(first_count) and is_valve_count(second_count)
        marks = line.marks(first_count, second_count) if are_valves else []
        board = self.board()
        board.test_valve(first, first_count)
        board.test_valve(second, second_count)
        first_symbols, second_symbols = range(first, first + first_count), range(second, second + second_count)
        if not are_valves or set(first_symbols) & set(second_symbols):
            raise Refused(19)
        allowed = {(s, t) for s, word in zip(first_symbols, marks) for t, mark in zip(second_symbols, word) if mark == "1"}
        if not allowed:
            raise Refused(8)

        # 02: "For each position, the first variable's before the second's, add the clause that it is false or some allowed position of the
        # other is true"; "each such clause counts as one rule"
        clauses = [[-s] + [t for t in second_symbols if (s, t) in allowed] for s in first_symbols]
        clauses += [[-t] + [s for s in first_symbols if (s, t) in allowed] for t in second_symbols]
        rules = [[tuple(sorted(clause, key=symbol_order))] for clause in clauses]
        before = board.rules
        added = board.add_rules(rules, line.text_from_first_word())
        self.answer_rules("rules %d to %d: %d rows" % (before + 1, board.rules, added), board.rules)

    # -- premises

    def work_furnace(self, line):
        number = line.number()
        line.end()
        if number not in (1, 2):
            raise Refused(16)
        self.furnace = number
        self.answer("furnace %d" % number)

    def one_literal(self, line):
        """The literal of a line that has one and no more, tested for 1 and 2."""
        literal = line.literal()
        line.end()
        self.board().test(literal)
        return literal

    def hold_new(self, literal):
        if literal in self.held():
            raise Refused(10)
        self.held().add(literal)

    def hold(self, line):
        literal = self.one_literal(line)
        self.hold_new(literal)
        self.answer(self.literal(literal) + " is held")

    def push(self, line):
        """02, Ticket 14: "push holds a literal and puts it on top"; its refusals: "push as hold"."""
        literal = self.one_literal(line)
        self.hold_new(literal)
        self.trials().append(literal)
        self.answer(self.literal(literal) + " is held on trial")

    def drop(self, line):
        """02, Ticket 14: "21 for withdrawing a stacked premise, after 11"."""
        literal = self.one_literal(line)
        if literal not in self.held():
            raise Refused(11, "it is not held")
        if literal in self.trials():
            raise Refused(21)
        self.held().remove(literal)
        self.answer(self.literal(literal) + " is dropped")

    def pop(self, line):
        """02, Ticket 14: "pop withdraws the top"."""
        line.end()
        if not self.trials():
            raise Refused(20)
        literal = self.trials().pop()
        self.held().remove(literal)
        self.answer(self.literal(literal) + " is taken back")

    # -- questions

    def ask(self, line):
        """02, Ticket 11: "conflict only where the literal and its opposite are both derived; otherwise stands, ruled out or open"."""
        literal = self.one_literal(line)
        derived = self.derived()
        said = {(True, True): "is in conflict", (True, False): "stands", (False, True): "is ruled out", (False, False): "is open"}
        self.answer(self.literal(literal) + " " + said[literal in derived, -literal in derived])

    def why(self, line):
        """DESK: "`why L` is about L where L is derived, else about its opposite where that is, else it is refused with 12"."""
        literal = self.one_literal(line)
        derived = self.derived()
        for about in (literal, -literal):
            if about in derived:
                self.answer_tree(derived, about, "", set())
                return
        raise Refused(12, "neither it nor its opposite is derived")

    def answer_tree(self, derived, literal, indent, shown_before):
        if literal in self.held():
            self.answer(indent + self.literal(literal) + (" is held on trial" if literal in self.trials() else " is held"))
            return
        head = "%s%s, rank %d: " % (indent, self.standing(literal), derived.rank[literal])
        if literal in shown_before:
            self.answer(head + "as above")
            return
        shown_before.add(literal)
        _, rule = self.board().rows[derived.support[literal]]
        text = ", " + self.board().texts[rule] if rule in self.board().texts else ""
        self.answer("%srule %d%s" % (head, rule, text))
        for below in derived.below(literal):
            self.answer_tree(derived, below, indent + "  ", shown_before)

    def ground(self, line):
        literal = self.one_literal(line)
        derived = self.derived()
        if literal not in derived:
            raise Refused(12, "it is not derived")
        self.answer(self.literal(literal) + " stands on " + self.literals(derived.ground(literal), "the rules alone"))

    def marks(self, line):
        """DESK: "`, held on trial` where it is on the furnace's stack, `, held` where it is held otherwise, `, rank K` where it is not held;
        then `, in conflict` where its opposite is derived too"."""
        line.end()
        derived = self.derived()
        if not derived.rank:
            self.answer("nothing stands, nothing is ruled out")
        for literal in sorted(derived.rank, key=symbol_order):
            if literal in self.trials():
                by = ", held on trial"
            elif literal in self.held():
                by = ", held"
            else:
                by = ", rank %d" % derived.rank[literal]
            self.answer(self.standing(literal) + by + (", in conflict" if -literal in derived else ""))

    def blame(self, line):
        line.end()
        derived = self.derived()
        if not derived.in_conflict():
            raise Refused(12, "there is no conflict")
        self.answer("to blame: " + self.literals(derived.to_blame(), "the rules alone"))

    def test_candidates(self, candidates):
        """02, Ticket 10: "17 for more than 12 candidates or a repeated one"."""
        if len(candidates) > CANDIDATES_AT_MOST or len(set(candidates)) < len(candidates):
            raise Refused(17)

    def least(self, line):
        """02, Ticket 12: "the smallest set of them whose withdrawal ends the conflict; of equal size, the one with the smallest number in the
        spelling of Ticket 10; the empty set if there is no conflict". DESK: "with no literal, of all that the furnace holds"."""
        candidates = line.literals()
        board = self.board()
        board.test(*candidates)
        candidates = candidates or sorted(self.held(), key=symbol_order)
        self.test_candidates(candidates)
        if not set(candidates) <= self.held():
            raise Refused(11, "not all of these are held")
        for _, dropped in sets_by_size(candidates):
            if not board.derived(self.held() - set(dropped)).in_conflict():
                self.answer("to drop: " + self.literals(dropped, "nothing, there is no conflict"))
                return
        raise Refused(18)

    def sets(self, line):
        """02, Ticket 10: "each set of candidates that, held alone under the table's rules, derives the literal without conflict, while no
        smaller set inside it derives the literal"."""
        literal = line.literal()
        candidates = line.literals()
        board = self.board()
        board.test(literal, *candidates)
        self.test_candidates(candidates)
        deriving = []
        listed = []
        for number, chosen in sets_by_size(candidates):
            derived = board.derived(chosen)
            if literal in derived:
                if not derived.in_conflict() and not any(smaller & number == smaller for smaller in deriving):
                    listed.append(chosen)
                deriving.append(number)
        for chosen in listed:
            self.answer(self.literal(literal) + " by " + self.literals(chosen, "the rules alone"))
        if not listed:
            self.answer(self.literal(literal) + " by no set of these")

    # -- the table, and the desk itself

    def rows(self, line):
        line.end()
        for number, (clause, rule) in enumerate(self.board().rows):
            self.answer("row %d, rule %d: %s" % (number, rule, " | ".join(self.literal(literal) for literal in clause)))
        if not self.board().rows:
            self.answer("no row")

    def cnf(self, line):
        """02, Ticket 2: "the header with S and the count of rows, then one line a row in row order, single blanks, 0 last"."""
        line.end()
        board = self.board()
        self.put("p cnf %d %d" % (board.symbols, len(board.rows)))
        for clause, _ in board.rows:
            self.put(" ".join(str(literal) for literal in clause + (0,)))

    def set_echo(self, line):
        word = line.on_or_off()
        line.end()
        self.echo = word == "on"
        self.answer("echo " + word)

    def help(self, line):
        line.end()
        raise NotImplementedError("DESK.md does not spell out what help prints, so no case may ask for it")


ORDERS = {
    "open": Desk.open,
    "name": Desk.name,
    "rule": Desk.rule,
    "valve": Desk.valve,
    "pairs": Desk.pairs,
    "furnace": Desk.work_furnace,
    "hold": Desk.hold,
    "drop": Desk.drop,
    "push": Desk.push,
    "pop": Desk.pop,
    "ask": Desk.ask,
    "why": Desk.why,
    "ground": Desk.ground,
    "marks": Desk.marks,
    "blame": Desk.blame,
    "least": Desk.least,
    "sets": Desk.sets,
    "rows": Desk.rows,
    "cnf": Desk.cnf,
    "echo": Desk.set_echo,
    "help": Desk.help,
}


# ---- writing the files, or checking them


def scripts(root):
    """Each stored script with the file of what it prints."""
    desk = os.path.join(root, "examples", "desk")
    cases = os.path.join(desk, "cases")
    for name in sorted(os.listdir(cases)):
        yield os.path.join(cases, name, "input"), os.path.join(cases, name, "expected")
    yield os.path.join(desk, "march.txt"), os.path.join(desk, "march.expected")


def contents(path):
    with open(path, "rb") as file:
        return file.read()


def write(root):
    for script, expected in scripts(root):
        printed = Desk().run(contents(script))
        with open(expected, "wb") as file:
            file.write(printed)


def check(root):
    """How many files are not as they are worked out; a missing one is not."""
    good = bad = 0
    for script, expected in scripts(root):
        if os.path.exists(expected) and contents(expected) == Desk().run(contents(script)):
            good += 1
        else:
            bad += 1
            print("not as it is worked out:", os.path.relpath(expected, root))
    print("%d cases as they are worked out, %d not" % (good, bad))
    return bad


def main(arguments):
    root = os.path.join(os.path.dirname(os.path.abspath(__file__)), "..", "..")
    if arguments == ["--check"]:
        sys.exit(1 if check(root) else 0)
    if arguments:
        sys.exit("usage: desk_cases.py [--check]")
    write(root)


if __name__ == "__main__":
    main(sys.argv[1:])
