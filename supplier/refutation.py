"""Clauses of one refutation, and the STEPs that derive the later ones."""

WIDTH = 24  # literals in a derived clause
STEPS = 512  # steps in one refutation


class Refutation:
    """Clauses by number, from 1: the set's in their order, then derived ones."""

    def __init__(self, clauses):
        self.clauses = dict(enumerate(map(frozenset, clauses), 1))
        self.numbers = {}
        for number, clause in self.clauses.items():
            self.numbers.setdefault(clause, number)
        self.given = len(self.clauses)
        self.steps = []

    def resolve(self, number, partner, literal):
        """The clause `number` without `literal`, which `partner` holds negated."""
        derived = resolvent(self.clauses[number], self.clauses[partner], literal)
        if derived not in self.numbers:
            # The first clause of a STEP holds the pivot plain.
            first, second = (number, partner) if literal > 0 else (partner, number)
            self.steps.append((first, second, abs(literal)))
            self.numbers[derived] = self.given + len(self.steps)
            self.clauses[self.numbers[derived]] = derived
        return self.numbers[derived]

    def needed_steps(self):
        """The STEPs that the empty clause rests on, numbered anew.

        It can come earlier than the proof says, and nothing may come after it.
        """
        needed = {self.numbers[frozenset()]}
        for place in range(len(self.steps), 0, -1):
            if self.given + place in needed:
                needed.update(self.steps[place - 1][:2])
        anew = {number: number for number in range(1, self.given + 1)}
        kept = []
        for place, (first, second, pivot) in enumerate(self.steps, 1):
            if self.given + place in needed:
                kept.append((anew[first], anew[second], pivot))
                anew[self.given + place] = self.given + len(kept)
        return kept


def resolvent(clause, partner, literal):
    return (clause - {literal}) | (partner - {-literal})


def width(clauses, steps):
    """The size of the widest clause that the steps derive."""
    known = [None, *map(frozenset, clauses)]
    for first, second, pivot in steps:
        known.append(resolvent(known[first], known[second], pivot))
    return max(map(len, known[len(clauses) + 1:]), default=0)
