"""Unit propagation over numbered clauses."""

from collections import defaultdict


class Propagation:
    """Clauses by number, and for each literal the clauses that hold it."""

    def __init__(self, clauses):
        self.clauses = clauses
        self.holding = defaultdict(list)
        self.units = []
        for number, clause in clauses.items():
            if len(clause) == 1:
                self.units.append(number)
            for literal in clause:
                self.holding[literal].append(number)

    def refute(self, assumed, before, preferred):
        """Takes `assumed` as true and propagates clauses numbered below `before`.

        Answers the clauses that became unit, in order, and last the one that
        became empty; None where none does. Clauses for which `preferred` holds
        go first, so that a proof rests on what it needs anyway.
        """
        search = _Search(self, before, preferred)
        for literal in assumed:
            search.make_true(literal, None)
        search.run(self.units)
        return search.chain() if search.empty else None


class _Search:
    def __init__(self, propagation, before, preferred):
        self.clauses = propagation.clauses
        self.holding = propagation.holding
        self.before = before
        self.preferred = preferred
        self.trail = []  # true literals in the order they became so
        self.reasons = {}  # true literal to the clause that made it so
        self.empty = None  # the clause found empty

    def make_true(self, literal, reason):
        self.trail.append(literal)
        self.reasons[literal] = reason

    def run(self, units):
        """Tries preferred clauses to the end before each other clause."""
        others = self.others(units)
        self.visit(units, True)
        done = 0
        while not self.empty:
            if done < len(self.trail):
                self.visit(self.holding[-self.trail[done]], True)
                done += 1
            else:
                number = next(others, None)
                if number is None:
                    return
                self.try_clause(number)

    def others(self, units):
        """The clauses that are not preferred, as the trail comes to touch them."""
        yield from self.allowed(units, False)
        for literal in self.trail:  # it grows while it is walked
            yield from self.allowed(self.holding[-literal], False)

    def allowed(self, numbers, eager):
        return (number for number in numbers if number < self.before
                and self.preferred(number) is eager)

    def visit(self, numbers, eager):
        for number in self.allowed(numbers, eager):
            self.try_clause(number)
            if self.empty:
                return

    def try_clause(self, number):
        """Makes the clause's one open literal true, or finds the clause empty."""
        open_literal = None
        for literal in self.clauses[number]:
            if literal in self.reasons:
                return
            if -literal not in self.reasons:
                if open_literal is not None:
                    return
                open_literal = literal
        if open_literal is None:
            self.empty = number
        else:
            self.make_true(open_literal, number)

    def chain(self):
        """The reasons that the empty clause rests on, in their order."""
        needed = {-literal for literal in self.clauses[self.empty]}
        chain = [self.empty]
        for literal in reversed(self.trail):
            reason = self.reasons[literal]
            if literal in needed and reason is not None:
                chain.append(reason)
                needed |= {-other for other in self.clauses[reason]
                           if other != literal}
        return chain[::-1]
