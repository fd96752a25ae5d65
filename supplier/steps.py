"""From a hinted proof to the shortest row of STEPs that was found."""

from supplier.conversion import Conversion
from supplier.fault import NO_CERTIFICATE, Fault
from supplier.refutation import STEPS, WIDTH, width


def shortest(clauses, lemmas, progress, label):
    """The STEPs of a refutation, within the limits of document 01.

    Tried are: every fixed literal derived once, those that several lemmas rest
    on, and none. Which is shortest depends on the proof.
    """
    every = {sign * abs(literal) for clause in clauses
             for literal in clause for sign in (1, -1)}
    forwards = _convert(clauses, lemmas, every, progress, label)
    shared = {literal for literal, times in forwards.met.items() if times > 1}
    rows = [forwards.refutation.needed_steps()]
    for once in (shared, set()):
        rows += _convert_narrower(clauses, lemmas, once, progress, label)
    best = min(rows, key=lambda row: (_too_wide(clauses, row), len(row)))
    _hold_to_limits(clauses, best, label)
    return best


def _convert(clauses, lemmas, once, progress, label):
    conversion = Conversion(clauses, once)
    for done, lemma in enumerate(lemmas):
        progress.say(f"{label}: {done} of {len(lemmas)} lemmas turned into steps")
        conversion.derive(lemma, label)
    return conversion


def _convert_narrower(clauses, lemmas, once, progress, label):
    """Rows found by deriving more literals once, until no clause is too wide."""
    rows = []
    while True:
        conversion = _convert(clauses, lemmas, once, progress, label)
        rows.append(conversion.refutation.needed_steps())
        if conversion.wide <= once:
            return rows
        once = once | conversion.wide


def _too_wide(clauses, row):
    return max(0, width(clauses, row) - WIDTH)


def _hold_to_limits(clauses, row, label):
    faults = []
    if len(row) > STEPS:
        faults.append(f"{len(row)} steps, {len(row) - STEPS} more than the "
                      f"{STEPS} allowed")
    if _too_wide(clauses, row):
        faults.append(f"a clause of {width(clauses, row)} literals, "
                      f"{_too_wide(clauses, row)} more than the {WIDTH} allowed")
    if faults:
        raise Fault(f"{label}: the shortest refutation found has "
                    + " and ".join(faults), NO_CERTIFICATE)
