"""Judges a refutation by document 01's words and nothing of the tool."""


def refutes(clauses, steps):
    """Why the steps do not refute the clauses, or None where they do."""
    known = [set(clause) for clause in clauses]
    for place, (first, second, pivot) in enumerate(steps, 1):
        for number in (first, second):
            if not 1 <= number <= len(known):
                return f"step {place} names clause {number}"
        if pivot not in known[first - 1] or -pivot not in known[second - 1]:
            return f"step {place} lacks its pivot"
        derived = {x for x in known[first - 1] if x != pivot}
        derived |= {x for x in known[second - 1] if x != -pivot}
        if len(derived) > 24:
            return f"step {place} is too wide"
        known.append(derived)
    if len(steps) > 512:
        return "too many steps"
    if not steps or known[-1]:
        return "the last step derives no empty clause"
    return None
