"""What the other files here share, written from the text of documents 01 and 02 alone: the value of a formula, from a rule to rows, and rounds
of propagation. It tries every clause and every assignment, and propagates round by round over sets, so that it shares nothing with the programs.
"""
import itertools


class Refused(Exception):
    """A call's refusal; with a sentence where its number has more than one, and with the place where the input breaks."""

    def __init__(self, number, sentence=None, place=None):
        self.number = number
        self.sentence = sentence
        self.place = place


def symbol_order(literal):
    """01: "the smaller symbol first, and for the same symbol + before −"."""
    return abs(literal), literal < 0


# ---- formulae: ("symbol", number, ..), ("-", operand) or (mark, first, second) with the mark &, |, > or =


def symbols_of(tree):
    if tree[0] == "symbol":
        return {tree[1]}
    return set().union(*[symbols_of(operand) for operand in tree[1:]])


def value(tree, assignment):
    if tree[0] == "symbol":
        return assignment[tree[1]]
    if tree[0] == "-":
        return not value(tree[1], assignment)
    first, second = value(tree[1], assignment), value(tree[2], assignment)
    return {"&": first and second, "|": first or second, ">": not first or second, "=": first == second}[tree[0]]


# ---- from a rule to rows (01)


def clause_order(clause):
    """01: "fewer literals first; of equal length, at the first place that differs the smaller symbol first, and for the same symbol +
    before −"."""
    return len(clause), [symbol_order(literal) for literal in clause]


def implicates(symbols, is_satisfied):
    """Every clause that "is true in every assignment that satisfies the rule", or None where there is no such assignment. A set of
    assignments is a number here, with a bit for each."""
    satisfying = 0
    true_in = {literal: 0 for symbol in symbols for literal in (symbol, -symbol)}
    for number, values in enumerate(itertools.product((False, True), repeat=len(symbols))):
        assignment = dict(zip(symbols, values))
        if is_satisfied(assignment):
            satisfying |= 1 << number
        for symbol in symbols:
            true_in[symbol if assignment[symbol] else -symbol] |= 1 << number
    if not satisfying:
        return None

    found = set()
    for signs in itertools.product((0, 1, -1), repeat=len(symbols)):
        clause = tuple(sign * symbol for symbol, sign in zip(symbols, signs) if sign)
        covered = 0
        for literal in clause:
            covered |= true_in[literal]
        if satisfying & ~covered == 0:
            found.add(clause)
    return found


def prime_implicates(symbols, is_satisfied):
    """01: "prime if no clause made by leaving out some of its literals is an implicate"; None where nothing satisfies the rule."""
    found = implicates(sorted(symbols), is_satisfied)
    if found is None:
        return None

    def is_prime(clause):
        parts = (part for kept in range(len(clause)) for part in itertools.combinations(clause, kept))
        return not any(part in found for part in parts)

    return sorted(filter(is_prime, found), key=clause_order)


def rows_of(tree):
    """The rows of a rule. 01: 7 for "more than 8 different symbols", 8 where "no assignment satisfies the rule"."""
    symbols = symbols_of(tree)
    if len(symbols) > 8:
        raise Refused(7)
    rows = prime_implicates(symbols, lambda assignment: value(tree, assignment))
    if rows is None:
        raise Refused(8)
    return rows


# ---- rounds of propagation (01)


class Derived:
    """The ranks and supports that a set of premises gives, under rows."""

    def __init__(self, rows, premises):
        """01: "literal L is given rank k if it has no smaller rank and some row in use contains L and the opposite of each other literal of
        that row has a rank below k"; the support is "the lowest-numbered row that gave it its rank by that rule"."""
        self.rows = rows
        self.premises = set(premises)
        self.rank = {literal: 0 for literal in premises}
        self.support = {}
        for round_number in itertools.count(1):
            given = {}
            for row_number, clause in enumerate(rows):
                for literal in clause:
                    if literal not in self.rank and all(-other in self.rank for other in clause if other != literal):
                        given.setdefault(literal, row_number)
            if not given:
                return
            self.rank.update((literal, round_number) for literal in given)
            self.support.update(given)

    def __contains__(self, literal):
        return literal in self.rank

    def in_conflict(self):
        """01: "if some literal and its opposite are both derived"."""
        return any(-literal in self for literal in self.rank)

    def below(self, literal):
        """The opposites of the other literals of its support, in the row's order."""
        return [-other for other in self.rows[self.support[literal]] if other != literal]

    def ground(self, *literals):
        """01: "a held premise reaches itself; another derived literal reaches what the opposites of its support's other literals reach"."""
        reached = set()
        due = list(literals)
        while due:
            literal = due.pop()
            if literal not in reached:
                reached.add(literal)
                if literal not in self.premises:
                    due.extend(self.below(literal))
        return sorted(reached & self.premises, key=symbol_order)

    def to_blame(self):
        """The premises to blame in a conflict. 02, Ticket 4: "among symbols with label 3, the one whose larger rank of its two literals is
        smallest, and of equals the lowest symbol"."""
        clashing = [literal for literal in self.rank if literal > 0 and -literal in self]
        symbol = min(clashing, key=lambda s: (max(self.rank[s], self.rank[-s]), s))
        return self.ground(symbol, -symbol)
