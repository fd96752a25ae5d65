"""Runs a SAT prover on a clause set and takes down what it says.

Nothing a prover says is believed: its counts are compared, its solutions are
tried on the clauses, and its proof is derived again.
"""

import os
import re
import signal
import subprocess
import time
from collections import namedtuple

from supplier.fault import Fault

# --plain keeps cadical to learned clauses, each of which follows by unit
# propagation from those before it; the two options after it gave the fewest
# steps over the samples and larger ladders.
COMMAND = "cadical --no-binary --plain --phase=0 --shrink=0"
READ_VARIABLES = r"^c found 'p cnf (\d+) \d+' header"
READ_CLAUSES = r"^c parsed (\d+) clauses"

SATISFIABLE, REFUTED = 10, 20
STATUS = {SATISFIABLE: "s SATISFIABLE", REFUTED: "s UNSATISFIABLE"}

Said = namedtuple("Said", "code text")


def arguments(words, cnf_path, proof_path):
    """The prover's words; the two files stand where {cnf} and {proof} do, else last."""
    if not any("{cnf}" in word or "{proof}" in word for word in words):
        return words + [cnf_path, proof_path]
    return [word.replace("{cnf}", cnf_path).replace("{proof}", proof_path)
            for word in words]


def run(words, timeout, progress, label):
    """What the prover says, which is stopped after `timeout` seconds."""
    process = _begin(words)
    begun = time.monotonic()
    text = None
    try:
        while text is None:
            try:
                text, _ = process.communicate(timeout=0.25)
            except subprocess.TimeoutExpired:
                spent = time.monotonic() - begun
                progress.say(f"{label}: the prover has run {spent:.0f} s")
                if spent > timeout:
                    raise Fault(f"{label}: the prover was stopped after "
                                f"{timeout:g} s (--timeout)") from None
    finally:
        if text is None:
            _stop(process)
    return Said(process.returncode, text.decode("utf-8", "replace"))


def _begin(words):
    try:
        return subprocess.Popen(
            words, stdin=subprocess.DEVNULL, stdout=subprocess.PIPE,
            stderr=subprocess.STDOUT, start_new_session=True)
    except (FileNotFoundError, PermissionError):
        raise Fault(f"no prover at {words[0]!r}: install it (on Debian "
                    "`apt-get install cadical`), or name one with --prover"
                    ) from None
    except OSError as error:
        raise Fault(f"the prover {words[0]!r} cannot be run: "
                    f"{error.strerror}") from None


def _stop(process):
    """Ends what the prover began too, which is why it leads a group of its own."""
    try:
        os.killpg(process.pid, signal.SIGKILL)
    except ProcessLookupError:
        pass
    process.wait()


def answer(said, label):
    """SATISFIABLE or REFUTED, where exit code and status line agree on it."""
    if said.code < 0:
        raise Fault(f"{label}: the prover was stopped by signal {-said.code}")
    lines = [line.strip() for line in said.text.split("\n")]
    status = [line for line in lines if line.startswith("s ")]
    if said.code not in STATUS or status != [STATUS[said.code]]:
        heard = " / ".join(status or [line for line in lines if line][-1:])
        raise Fault(f"{label}: the prover gave no answer: exit code "
                    f"{said.code}, {heard or 'nothing said'}")
    return said.code


def compare_counts(text, patterns, written, label):
    """Refuses a prover that read less than was written: several clip in silence."""
    for what, pattern, count in zip(("variables", "clauses"), patterns, written):
        found = re.findall(pattern, text, re.MULTILINE)
        if not found:
            raise Fault(f"{label}: the prover does not say how many {what} it "
                        f"read (--read-{what} gives the words to look for)")
        if any(number != str(count) for number in found):
            raise Fault(f"{label}: {count} {what} were written, and the "
                        f"prover read {', '.join(found)}")


def solution(text, clauses, label):
    """The variables that are on in the prover's solution, tried on every clause."""
    words = [word for line in text.split("\n") if line.startswith("v ")
             for word in line.split()[1:]]
    if not all(re.match(r"-?[0-9]{1,18}\Z", word) for word in words):
        raise Fault(f"{label}: the prover's solution cannot be read")
    on = {int(word) for word in words if int(word) > 0}
    for number, clause in enumerate(clauses, 1):
        if not any((abs(literal) in on) is (literal > 0) for literal in clause):
            raise Fault(f"{label}: the prover says satisfiable, and its "
                        f"solution breaks clause {number}")
    return on
