"""Recorded, cut, changed and forged proofs, turned into STEPs or refused."""

import os
import random

import naive
from jobs import HINTED, JOBS, RECORDED, SAMPLES
from supplier import conversion, hints, records, steps, translator
from supplier.certificate import from_proof
from supplier.fault import Fault
from tool import Tool

CUT = (("S", "drat"), ("three-coils", "drat"), ("pelican", "drat"),
       ("levers", "drat"), ("pelican-lrat", "lrat"))
# Document 01's sample: set 2 of sheet S.
SMALL = [[-3, 2], [3, -2], [13], [13], [14], [-14]]


def cases(tally, programs):
    _recorded(tally)
    for job, form in CUT:
        rows = _cut(tally, job, form)
        _judged_whole(tally, Tool(programs), job, rows)
    _changed(tally)
    _forged_drat(tally)
    _forged_lrat(tally)
    _random(tally)
    _limits(tally)


def recorded(job, number):
    """Variables, clauses and proof of a recorded set."""
    place = os.path.join(RECORDED, job, f"set{number}")
    with open(place + ".cnf") as text, open(place + ".proof", "rb") as proof:
        return (*translator.read(text.read()), proof.read())


def steps_of(data, form, variables, clauses):
    """The steps, or the fault's message; any other exception is a failure."""
    try:
        return from_proof(data, form, variables, clauses, "set")
    except Fault as fault:
        return str(fault)


def judged(tally, name, clauses, found):
    """A message, or steps that do refute the clauses."""
    if isinstance(found, str):
        tally.true(name, found.startswith("set: "), found)
    else:
        tally.equal(name, naive.refutes(clauses, found), None)


def _recorded(tally):
    for job in (*JOBS, *HINTED):
        for number in (1, 2, 3):
            variables, clauses, data = recorded(job, number)
            form = "lrat" if job in HINTED else "drat"
            found = steps_of(data, form, variables, clauses)
            tally.true(f"{job} set {number}", isinstance(found, list), found)
            judged(tally, f"{job} set {number}", clauses, found)


def _cut(tally, job, form):
    """A proof file that ends after any of its bytes, or after all of them.

    Answers for each set the different rows of steps that came of it.
    """
    rows = {1: [], 2: [], 3: []}
    for number in rows:
        variables, clauses, data = recorded(job, number)
        for length in range(len(data), -1, -1):
            found = steps_of(data[:length], form, variables, clauses)
            judged(tally, f"{job} set {number} cut at {length}", clauses, found)
            if isinstance(found, list) and found not in rows[number]:
                rows[number].append(found)
    return rows


def _judged_whole(tally, tool, job, rows):
    """The checker accepts each row of steps in a certificate of its own."""
    sample = os.path.join(SAMPLES, HINTED.get(job, job))
    with open(sample + ".cert", "rb") as file:
        kept = file.read()
    opening = next(item.offset + 1 for item in records.read(kept)[0]
                   if item.name == "INVARIANT")
    for number in rows:
        for row in rows[number]:
            used = [row if n == number else rows[n][0] for n in (1, 2, 3)]
            body = b"".join(
                b"".join(records.record("STEP", *step) for step in steps_used)
                + records.record("QED") for steps_used in used)
            path = tool.write("whole", kept[:opening] + body + records.record("END"))
            tally.equal(f"{job} set {number}, {len(row)} steps",
                        tool.programs.judge(sample + ".sheet", path), "accepted")


def _changed(tally):
    """A proof file with any one byte replaced."""
    for job, number, others in (("S", 3, b"01-9 \nxd\xff"), ("levers", 3, b"1")):
        variables, clauses, data = recorded(job, number)
        for place in range(len(data)):
            for other in others:
                changed = data[:place] + bytes([other]) + data[place + 1:]
                found = steps_of(changed, "drat", variables, clauses)
                judged(tally, f"{job} with {other} at {place}", clauses, found)


def _forged_drat(tally):
    open_set = [[1, 2], [-1, 2]]
    for name, clauses, data, words in (
            ("empty clause at once", open_set, b"0\n", "does not follow"),
            ("no proof", open_set, b"", "without the empty clause"),
            ("unsupported lemma", open_set, b"-2 0\n0\n", "line 1 does not follow"),
            ("RAT lemma", open_set, b"1 0\n-2 0\n0\n", "cadical --plain"),
            ("deletion alone", open_set, b"d 1 2 0\n", "without the empty clause"),
            ("new variable", open_set, b"3 0\n0\n", "names variable 3"),
            ("wrapped variable", open_set, b"4294967298 0\n0\n", "names variable"),
            ("huge number", open_set, b"9" * 400 + b" 0\n0\n", "row of numbers"),
            ("no zero", open_set, b"2\n0\n", "does not end in 0"),
            ("zero within", open_set, b"2 0 1 0\n0\n", "row of numbers"),
            ("leading zero", open_set, b"02 0\n0\n", "row of numbers"),
            ("hexadecimal", open_set, b"0x2 0\n0\n", "row of numbers"),
            ("minus zero", open_set, b"-0 0\n0\n", "row of numbers"),
            ("words", open_set, b"s VERIFIED\n", "does not end in 0"),
            ("bad deletion", open_set, b"d x 0\n0\n", "row of numbers"),
            ("binary", open_set, b"a\x04\x00a\xff\x00", "not text")):
        tally.refuses(f"DRAT, {name}", words, from_proof,
                      data, "drat", 2, clauses, "set")
    found = steps_of(b"c words\n\n0", "drat", 14, SMALL)
    tally.equal("DRAT, comment and no line feed", found, [(5, 6, 14)])


def _forged_lrat(tally):
    tally.equal("LRAT", steps_of(b"7 0 5 6 0\n", "lrat", 14, SMALL), [(5, 6, 14)])
    # Lemma 7 comes to the empty clause already, and lemma 8 takes one step more.
    early = b"7 1 0 5 6 0\n8 3 2 0 2 1 3 5 0\n9 0 7 8 5 6 0\n"
    tally.equal("LRAT, empty early", steps_of(early, "lrat", 14, [
        [3, 4], [-4, 2], [-13], [13], [14], [-14]]), [(5, 6, 14)])
    for data, words in (
            (b"7 0 0\n", "do not come to an empty clause"),
            (b"7 0 5 0\n", "do not come to an empty clause"),
            (b"7 0 1 5 6 0\n", "more than one literal open"),
            (b"7 0 5 7 0\n", "not there yet"), (b"7 0 5 9 0\n", "not there yet"),
            (b"7 0 5 4294967302 0\n", "not there yet"),
            (b"8 0 5 7 0\n", "not there yet"),
            (b"7 0 -5 6 0\n", "RAT hint"), (b"7 0 05 6 0\n", "row of numbers"),
            (b"7 0 0x5 6 0\n", "row of numbers"), (b"6 0 5 6 0\n", "after 6"),
            (b"7 3 0 5 6 0\n7 0 5 6 0\n", "after 7"), (b"7 0 5 6\n", "two zeros"),
            (b"7 0 5 6 0 0\n", "two zeros"), (b"7 d 1 0\n", "without the empty"),
            (b"", "without the empty"), (b"7 1 0 5 6 0\n", "without the empty"),
            (b"7 99 0 5 6 0\n8 0 7 0\n", "names variable 99"),
            (b"x 0 5 6 0\n", "clause number"), (b"-7 0 5 6 0\n", "clause number"),
            (b"7\n", "two zeros"), (b"0\n", "clause number"),
            (b"7 d x 0\n", "row of numbers"), (b"\xfe\x00", "not text")):
        tally.refuses(f"LRAT {data!r}", words, from_proof,
                      data, "lrat", 14, SMALL, "set")


def _random(tally):
    """Small clause sets, each with the proof that trying every case gives."""
    chance = random.Random(1)
    for turn in range(150):
        count = chance.randint(1, 6)
        clauses = _unsatisfiable(chance, count)
        lines = [" ".join(map(str, lemma + [0])) for lemma in _every_case(count)]
        data = "\n".join(lines).encode()
        found = steps_of(data, "drat", count, clauses)
        tally.true(f"random {turn}", isinstance(found, list), found)
        judged(tally, f"random {turn}", clauses, found)


def _unsatisfiable(chance, count):
    """Clauses added until no row of values is left that meets them all."""
    clauses = []
    rows = [[sign * (n + 1) for n, sign in enumerate(signs)]
            for signs in _signs(count)]
    while rows:
        size = min(count, chance.randint(1, 4))
        picked = chance.sample(range(1, count + 1), size)
        clause = [chance.choice((n, -n)) for n in picked]
        clauses.append(clause)
        rows = [row for row in rows if set(row) & set(clause)]
    return clauses


def _signs(count):
    return [[1 if bits >> n & 1 else -1 for n in range(count)]
            for bits in range(1 << count)]


def _every_case(count):
    """Clauses against each case, the longest first, down to the empty clause."""
    lemmas = []
    for size in range(count - 1, -1, -1):
        lemmas += [[sign * (n + 1) for n, sign in enumerate(signs)]
                   for signs in _signs(size)]
    return lemmas


def _limits(tally):
    """What a refutation beyond the limits is told, with limits set low."""
    variables, clauses, data = recorded("ic3-1111", 2)
    held = steps.STEPS, steps.WIDTH, conversion.WIDTH, hints.HOPELESS
    try:
        steps.STEPS = 100
        tally.refuses("too many steps", "34 more than the 100 allowed",
                      from_proof, data, "drat", variables, clauses, "set")
        steps.WIDTH = conversion.WIDTH = 3
        tally.refuses("too many and too wide", [
            "more than the 100 allowed", "3 more than the 3 allowed"],
            from_proof, data, "drat", variables, clauses, "set")
        hints.HOPELESS = 5
        tally.refuses("hopeless", "more than 5 lemmas", from_proof,
                      data, "drat", variables, clauses, "set")
    finally:
        steps.STEPS, steps.WIDTH, conversion.WIDTH, hints.HOPELESS = held
