"""Reads a prover's proof as text: DRAT, or LRAT with its hints."""

import re
from collections import namedtuple

from supplier.fault import Fault

# `hints` is None where the prover gave none and they are yet to be found.
Lemma = namedtuple("Lemma", "number literals hints line")

WORD = re.compile(r"(?:0|-?[1-9][0-9]{0,17})\Z")


def read(data, form, variables, clauses, progress, label):
    """The proof's lemmas in order, up to the empty clause."""
    try:
        text = data.decode("ascii")
    except UnicodeDecodeError:
        raise Fault(f"{label}: the proof is not text (cadical writes text with "
                    "--no-binary)") from None
    reader = {"drat": _drat_line, "lrat": _lrat_line}[form]
    lemmas, last = [], clauses
    for number, line in enumerate(text.split("\n"), 1):
        if not line.strip() or line.startswith("c"):
            continue
        place = f"{label}: proof line {number}"
        if number % 1000 == 0:
            progress.say(f"{label}: {number} lines of the proof read")
        lemma = reader(line.split(), last, number, place)
        if lemma is None:
            continue
        _within(lemma, variables, place)
        last = lemma.number
        lemmas.append(lemma)
        if not lemma.literals:
            break
    return lemmas


def _drat_line(words, last, line, place):
    # Deletions only save a prover memory; a lemma that follows from fewer
    # clauses follows from all of them.
    if words[0] == "d":
        _numbers(words[1:], place)
        return None
    literals = _numbers(words, place)
    return Lemma(last + 1, frozenset(literals), None, line)


def _lrat_line(words, last, line, place):
    if not re.match(r"[1-9][0-9]{0,17}\Z", words[0]):
        raise Fault(f"{place} does not begin with a clause number")
    number = int(words[0])
    if words[1:2] == ["d"]:
        _numbers(words[2:], place)
        return None
    if number <= last:
        raise Fault(f"{place}: clause {number} does not come after {last}")
    if words.count("0") != 2:
        raise Fault(f"{place} is no line of LRAT: it needs two zeros")
    middle = words.index("0")
    literals = _numbers(words[1:middle + 1], place)
    hints = _numbers(words[middle + 1:], place)
    if any(hint < 0 for hint in hints):
        raise Fault(f"{place} has a RAT hint; " + ONLY_PROPAGATION)
    return Lemma(number, frozenset(literals), tuple(hints), line)


ONLY_PROPAGATION = (
    "STEPs can only follow lemmas that hold by unit propagation (RUP). Turn off "
    "what goes beyond it: cadical --plain; other provers have options against "
    "blocked clauses, covered clauses and new variables")


def _numbers(words, place):
    """The numbers of words that end in 0 and have none before."""
    if not words or words[-1] != "0":
        raise Fault(f"{place} does not end in 0: the proof is cut or not "
                    "the form that was named (--proof-form)")
    if not all(WORD.match(word) for word in words) or "0" in words[:-1]:
        raise Fault(f"{place} is not a row of numbers that ends in 0 "
                    "(--proof-form names the form of the proof)")
    return [int(word) for word in words[:-1]]


def _within(lemma, variables, place):
    for literal in lemma.literals:
        if abs(literal) > variables:
            raise Fault(f"{place} names variable {abs(literal)}, and the set has "
                        f"{variables}: a STEP cannot bring in new variables")
