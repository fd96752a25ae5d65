"""A ladder as text.

    inputs NAME ...         numbered from 0, in order
    coils NAME ...          numbered from 0, in order
    start NAME on|off       coils without a line start off
    NAME := FORMULA         one rung, in the order they run
    check FORMULA           the condition

`#` opens a comment; an indented line goes on with the line before it.
"""

import re

from supplier import records
from supplier.fault import Fault
from supplier.formula import postfix
from supplier.names import Names

NAME = re.compile(r"[A-Za-z_][A-Za-z0-9_]*\Z")
WORDS = ("inputs", "coils", "start", "check", "scan")


class Ladder:
    def __init__(self):
        self.names = Names([], [])
        self.starts = {}
        self.rungs = []
        self.condition = None

    def sheet(self):
        """The bytes of the sheet; whether it is well formed is the checker's word."""
        names = self.names
        out = records.record("HEAD", len(names.inputs), len(names.coils),
                             len(self.rungs))
        for coil, value in sorted(self.starts.items()):
            out += records.record("START", coil, value)
        for coil, formula in self.rungs:
            out += records.formula(formula) + records.record("RUNG", coil)
        out += records.formula(self.condition) + records.record("CONDITION")
        return out + records.record("END")


def lines(text):
    """Line number and words of each line, comments gone, continuations joined."""
    whole = []
    for number, line in enumerate(text.split("\n"), 1):
        line = line.split("#")[0].rstrip()
        if line[:1].isspace() and whole:
            whole[-1][1] += " " + line.strip()
        elif line:
            whole.append([number, line.strip()])
    return whole


def read(text, source):
    """The ladder a text describes."""
    ladder = Ladder()
    for number, line in lines(text):
        place = f"{source}:{number}"
        if ladder.condition is not None:
            raise Fault(f"{place}: nothing may follow the check line")
        _read_line(ladder, line, place)
    if ladder.condition is None:
        raise Fault(f"{source}: the check line is missing")
    return ladder


def _read_line(ladder, line, place):
    word, *rest = line.split(None, 1)
    rest = rest[0] if rest else ""
    if word in ("inputs", "coils"):
        _declare(ladder.names, word, rest.split(), place)
    elif word == "start":
        _start(ladder, rest.split(), place)
    elif word == "check":
        ladder.condition = postfix(rest, ladder.names.contacts(), place)
    elif ":=" in line:
        name, formula = line.split(":=", 1)
        coil = _coil(ladder, name.strip(), place)
        contacts = ladder.names.contacts()
        ladder.rungs.append((coil, postfix(formula, contacts, place)))
    else:
        raise Fault(f"{place}: {line!r} is no line of a ladder")


def _declare(names, word, given, place):
    taken = names.contacts()
    for name in given:
        if not NAME.match(name) or name in WORDS:
            raise Fault(f"{place}: {name!r} cannot be a name")
        if name in taken:
            raise Fault(f"{place}: {name!r} is named twice")
        taken[name] = None
        (names.inputs if word == "inputs" else names.coils).append(name)


def _start(ladder, words, place):
    if len(words) != 2 or words[1] not in ("on", "off"):
        raise Fault(f"{place}: a start line is `start NAME on` or `start NAME off`")
    coil = _coil(ladder, words[0], place)
    if coil in ladder.starts:
        raise Fault(f"{place}: {words[0]!r} has a start line already")
    ladder.starts[coil] = int(words[1] == "on")


def _coil(ladder, name, place):
    if name not in ladder.names.coils:
        raise Fault(f"{place}: no coil is named {name!r}")
    return ladder.names.coils.index(name)


def invariant(text, names, source):
    """The formula records of an invariant's text."""
    given = " ".join(line for _, line in lines(text))
    formula = postfix(given, names.contacts(), source)
    for name, *numbers in formula:
        if name == "INPUT":
            raise Fault(f"{source}: {names.input(*numbers)!r} is an input, "
                        "and an invariant speaks of coils alone")
    return formula


def scans(text, names, source):
    """The inputs that are on in each scan: a line `scan NAME ...` for each."""
    found = []
    for number, line in lines(text):
        word, *given = line.split()
        if word != "scan":
            raise Fault(f"{source}:{number}: a line here is `scan` "
                        "and the names of the inputs that are on")
        for name in given:
            if name not in names.inputs:
                raise Fault(f"{source}:{number}: no input is named {name!r}")
        found.append(sorted({names.inputs.index(name) for name in given}))
    return found
