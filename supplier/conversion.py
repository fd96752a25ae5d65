"""Derives hinted lemmas by chains of STEPs."""

from collections import Counter

from supplier.fault import Fault
from supplier.refutation import WIDTH, Refutation, resolvent

NARROW = 3  # no clause of a set is wider


class Conversion:
    """One way of deriving a proof's lemmas.

    A literal that holds without a lemma's own assumptions is *fixed*. Fixed
    literals in `once` are derived as unit clauses, once and forwards; all
    others are resolved away in each chain that meets them.
    """

    def __init__(self, clauses, once):
        self.refutation = Refutation(clauses)
        self.once = once
        self.numbers = {number: number for number in self.refutation.clauses}
        self.units = {}
        self.met = Counter()  # fixed literals, by how many lemmas rest on them
        self.wide = set()  # fixed literals of clauses that came out too wide

    def derive(self, lemma, label):
        """Derives the lemma, or a clause within it."""
        reasons, empty = self._follow(lemma, label)
        fixed = self._fixed(reasons) & self._rests_on(empty, reasons)
        self.met.update(fixed)
        for literal in reasons:
            if literal in fixed & self.once and literal not in self.units:
                self.units[literal] = self._chain(reasons[literal], reasons, fixed)
        self.numbers[lemma.number] = self._chain(empty, reasons, fixed)

    def _clause(self, number):
        return self.refutation.clauses[number]

    def _follow(self, lemma, label):
        """True literals with their reasons in order, and the clause left empty."""
        reasons = {-literal: None for literal in sorted(lemma.literals)}
        for hint in lemma.hints:
            number = self.numbers[hint]
            clause = self._clause(number)
            if any(literal in reasons for literal in clause):
                continue
            left = [literal for literal in clause if -literal not in reasons]
            if not left:
                return reasons, number
            if len(left) > 1:
                raise Fault(f"{label}: a hint of proof line {lemma.line} "
                            "leaves more than one literal open")
            reasons[left[0]] = number
        raise Fault(f"{label}: the hints of proof line {lemma.line} "
                    "do not come to an empty clause")

    def _fixed(self, reasons):
        fixed = set()
        for literal, reason in reasons.items():
            if reason is not None and all(
                    -other in fixed for other in self._clause(reason)
                    if other != literal):
                fixed.add(literal)
        return fixed

    def _rests_on(self, empty, reasons):
        rests = {-literal for literal in self._clause(empty)}
        for literal in reversed(reasons):
            if literal in rests and reasons[literal] is not None:
                rests |= {-other for other in self._clause(reasons[literal])
                          if other != literal}
        return rests

    def _chain(self, number, reasons, fixed):
        """Resolves a clause with partners until no literal has a reason."""
        partners = self._partners(number, reasons)
        below = self._below(partners, reasons)
        while True:
            clause = self._clause(number)
            if len(clause) > WIDTH:
                self.wide |= {-literal for literal in clause} & fixed
            false = self._false(clause, reasons)
            if not false:
                return number
            literal = self._next(clause, false, partners, below)
            number = self.refutation.resolve(number, partners[literal], -literal)

    def _false(self, clause, reasons):
        """The negations of those literals in a clause that can be resolved away."""
        return [-literal for literal in clause
                if reasons.get(-literal) is not None]

    def _partners(self, number, reasons):
        """For each literal the chain may meet, the clause to resolve with."""
        todo = self._false(self._clause(number), reasons)
        times = Counter(todo + todo)  # the chain itself never shares these
        partners = {}
        while todo:
            literal = todo.pop()
            if literal not in partners:
                partners[literal] = self.units.get(literal, reasons[literal])
                false = self._false(self._clause(partners[literal]), reasons)
                times.update(false)
                todo += false
        for literal in reasons:
            if literal in partners:
                self._fold(literal, partners, times, reasons)
        return partners

    def _fold(self, literal, partners, times, reasons):
        """Takes in the partners of literals that nothing else rests on.

        Chains of other lemmas meet the same partners and share the result; it
        is kept narrow, as a wide one fits few chains.
        """
        false = self._false(self._clause(partners[literal]), reasons)
        for other in sorted(false, key=abs):
            own, taken = partners[literal], partners[other]
            folded = resolvent(self._clause(own), self._clause(taken), -other)
            if times[other] == 1 and len(folded) <= NARROW:
                partners[literal] = self.refutation.resolve(own, taken, -other)

    def _next(self, clause, false, partners, below):
        """A literal that no other one rests on, such that the clause stays narrow."""
        others = 0
        for literal in false:
            others |= below[literal][1]
        ready = [literal for literal in false if not others & below[literal][0]]
        return min(ready, key=lambda literal: (
            len(clause | self._clause(partners[literal])), -below[literal][0]))

    def _below(self, partners, reasons):
        """For each literal its own bit, and the bits of all it rests on."""
        below = {}
        for place, literal in enumerate(x for x in reasons if x in partners):
            under = 0
            for other in self._false(self._clause(partners[literal]), reasons):
                under |= below[other][0] | below[other][1]
            below[literal] = (1 << place, under)
        return below
