"""Asks the proved translator for a clause set, and reads its DIMACS strictly."""

import re
import subprocess

from supplier.fault import Fault

HEAD = re.compile(r"p cnf (0|[1-9][0-9]*) (0|[1-9][0-9]*)\Z")
CLAUSE = re.compile(r"(?:-?[1-9][0-9]* )+0\Z")
PATIENCE = 60

# What a refusal of the translator says of the files it was given.
REFUSALS = {
    2: "the sheet ends too early", 3: "a record the sheet may not have there",
    4: "a number or value of the sheet outside its range",
    5: "START coils of the sheet do not rise",
    6: "a formula of the sheet does not come out at one value",
    7: "a formula of the sheet needs a stack deeper than 32",
    8: "more than 1,024 formula records in the sheet",
    9: "a coil of the sheet has two rungs",
    10: "rungs of the sheet against the count in its HEAD",
    11: "a byte after the sheet's END",
    16: "the invariant needs a stack deeper than 32",
    17: "more than 256 formula records in the invariant",
    27: "the sheet file is over 4,873 bytes",
}


def clause_set(command, number, sheet_path, certificate_path):
    """The DIMACS text of a set, its count of variables and its clauses."""
    text = _ask(command + [str(number), sheet_path, certificate_path])
    refused = re.match(r"refused (\d+) at (\d+)\n\Z", text)
    if refused:
        why = REFUSALS.get(int(refused.group(1)), "see document 01's table")
        raise Fault(f"the translator says: {text.strip()} ({why})")
    if text == "unreadable\n":
        raise Fault(f"the translator could not read {sheet_path}")
    variables, clauses = read(text)
    return text, variables, clauses


def _ask(command):
    try:
        done = subprocess.run(command, stdin=subprocess.DEVNULL,
                              capture_output=True, timeout=PATIENCE)
    except (FileNotFoundError, PermissionError):
        raise Fault(f"no translator at {command[0]}: build it, "
                    "or name one with --cnf") from None
    except OSError as error:
        raise Fault(f"the translator {command[0]} cannot be run: "
                    f"{error.strerror}") from None
    except subprocess.TimeoutExpired:
        raise Fault(f"the translator {command[0]} took over "
                    f"{PATIENCE} s and was stopped") from None
    if done.returncode < 0:
        raise Fault(f"the translator was stopped by signal {-done.returncode}")
    return done.stdout.decode("ascii", "replace")


def read(text):
    """Variables and clauses of a DIMACS text as the translator writes it.

    Every clause is counted against the head line, since a clipped text is
    still a text.
    """
    head, *body = text.split("\n")
    match = HEAD.match(head)
    if not match or body[-1:] != [""]:
        raise Fault("the translator wrote no DIMACS text: "
                    f"{text[:60].strip()!r}")
    variables, count = int(match.group(1)), int(match.group(2))
    clauses = [_clause(line, variables) for line in body[:-1]]
    if len(clauses) != count:
        raise Fault(f"the translator's head line tells of {count} clauses, "
                    f"and {len(clauses)} came")
    return variables, clauses


def _clause(line, variables):
    if not CLAUSE.match(line):
        raise Fault(f"the translator wrote no clause: {line[:60]!r}")
    literals = [int(word) for word in line.split()[:-1]]
    if any(abs(literal) > variables for literal in literals):
        raise Fault(f"the translator wrote a literal of no variable: {line[:60]!r}")
    return literals
