"""Says what a solution of a clause set means for the ladder."""

MEANING = {
    1: "the start breaks the invariant",
    2: "a scan leaves the invariant",
    3: "a scan breaks the condition",
}

ADVICE = """\
  The ladder need not ever come to the state before. If it does not, add what
  rules that state out to the invariant; if it does, write a trace."""


def explain(number, on, sheet, names):
    """Lines that name the state and inputs of a solution."""
    coils = range(sheet.coils)
    before = [(names.coil(c), sheet.coil_before(c) in on) for c in coils]
    lines = [f"set {number} has a solution: {MEANING[number]}"]
    if number == 1:
        return lines + [_values("coils at the start", before)]
    inputs = [(names.input(n), sheet.input(n) in on)
              for n in range(sheet.inputs)]
    after = [(names.coil(c), sheet.coil_after(c) in on) for c in coils]
    return lines + [
        _values("coils before the scan", before),
        _values("inputs of the scan", inputs),
        _values("coils after the scan", after),
        ADVICE]


def _values(what, values):
    on = [name for name, value in values if value]
    off = [name for name, value in values if not value]
    return f"  {what}: on {_listed(on)}; off {_listed(off)}"


def _listed(names):
    return " ".join(names) if names else "none"
