"""Finds hints for lemmas that came without, and drops lemmas nobody needs."""

from supplier.fault import Fault, NO_CERTIFICATE
from supplier.proof import Lemma, ONLY_PROPAGATION
from supplier.propagation import Propagation

# Each needed lemma takes at least one STEP, so a proof that needs more than
# this is hopeless, and finding all its hints would only take time.
HOPELESS = 2048


def find(clauses, lemmas, progress, label):
    """The needed lemmas with hints, in order, the empty clause last.

    Goes backwards from the empty clause, as only what is hinted at later has
    to be shown. `clauses` are the set's, by number.
    """
    lemmas = _with_empty_clause(clauses, lemmas)
    numbered = clauses | {lemma.number: lemma.literals for lemma in lemmas}
    propagation = Propagation(numbered)
    needed, found = {lemmas[-1].number}, []
    for left, lemma in zip(range(len(lemmas) - 1, -1, -1), reversed(lemmas)):
        if lemma.number not in needed:
            continue
        progress.say(f"{label}: {len(found)} lemmas shown, {left} left to look at")
        hints = propagation.refute(
            [-literal for literal in sorted(lemma.literals)], lemma.number,
            lambda number: number in clauses or number in needed)
        if hints is None:
            raise Fault(_not_shown(lemma, label))
        needed.update(hints)
        found.append(lemma._replace(hints=tuple(hints)))
        _give_up_when_hopeless(found, label)
    return found[::-1]


def _with_empty_clause(clauses, lemmas):
    """A proof may leave the empty clause to its reader."""
    if lemmas and not lemmas[-1].literals:
        return lemmas
    last = lemmas[-1].number if lemmas else max(clauses)
    return lemmas + [Lemma(last + 1, frozenset(), None, None)]


def _not_shown(lemma, label):
    if lemma.line is None:
        return (f"{label}: the proof ends without the empty clause "
                "(a prover that was stopped, or a cut file)")
    return (f"{label}: the lemma of proof line {lemma.line} does not follow by "
            f"unit propagation. {ONLY_PROPAGATION}")


def _give_up_when_hopeless(found, label):
    if len(found) > HOPELESS:
        raise Fault(f"{label}: the proof needs more than {HOPELESS} lemmas, and "
                    "each takes at least one of the 512 steps", NO_CERTIFICATE)


def trim(clauses, lemmas, label):
    """The lemmas of a hinted proof that its empty clause rests on."""
    if not lemmas or lemmas[-1].literals:
        raise Fault(f"{label}: the proof ends without the empty clause "
                    "(a prover that was stopped, or a cut file)")
    known = set(clauses) | {lemma.number for lemma in lemmas}
    needed, kept = {lemmas[-1].number}, []
    for lemma in reversed(lemmas):
        if lemma.number not in needed:
            continue
        for hint in lemma.hints:
            if hint not in known or hint >= lemma.number:
                raise Fault(f"{label}: proof line {lemma.line} hints at clause "
                            f"{hint}, which is not there yet")
        needed.update(lemma.hints)
        kept.append(lemma)
        _give_up_when_hopeless(kept, label)
    return kept[::-1]


def tighten(clauses, lemmas, progress, label):
    """Looks again with nothing but what was used, as long as that gets shorter."""
    while True:
        used = {hint for lemma in lemmas for hint in lemma.hints}
        core = {number: clause for number, clause in clauses.items()
                if number in used}
        again = find(core, lemmas, progress, label)
        if _size(again) >= _size(lemmas):
            return lemmas
        lemmas = again


def _size(lemmas):
    return sum(len(lemma.hints) for lemma in lemmas)
