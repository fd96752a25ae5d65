"""Makes a safety certificate: three clause sets, three refutations."""

import os
import shutil
import sys
import tempfile
from collections import namedtuple

from supplier import hints, proof, prover, steps, translator
from supplier.fault import NO_CERTIFICATE, Fault
from supplier.files import read_bytes, write_whole
from supplier.progress import Progress
from supplier.records import formula, record
from supplier.refutation import width
from supplier.witness import explain

Job = namedtuple("Job", "sheet_path sheet names invariant cnf prover timeout "
                        "patterns proof_form keep")


def make(job):
    """The bytes of a certificate for the job's sheet and invariant.

    All three sets are tried even where one fails, so that a supplier sees
    everything that is wrong with an invariant at once.
    """
    opening = record("SAFE") + formula(job.invariant) + record("INVARIANT")
    body, failures = b"", []
    with tempfile.TemporaryDirectory(prefix="gustvane-") as folder:
        opened = os.path.join(folder, "opening")
        write_whole(opened, opening)
        for number in (1, 2, 3):
            try:
                row = _refute(job, number, opened, folder)
            except Fault as fault:
                if fault.code != NO_CERTIFICATE:
                    raise
                failures.append(str(fault))
                continue
            body += b"".join(record("STEP", *step) for step in row)
            body += record("QED")
    if failures:
        raise Fault("\n".join(failures), NO_CERTIFICATE)
    return opening + body + record("END")


def _refute(job, number, opened, folder):
    """The STEPs that refute one set."""
    label = f"set {number}"
    text, variables, clauses = translator.clause_set(
        job.cnf, number, job.sheet_path, opened)
    _compare_variables(job, variables)
    cnf_path = os.path.join(folder, f"set{number}.cnf")
    proof_path = os.path.join(folder, f"set{number}.proof")
    write_whole(cnf_path, text.encode("ascii"))
    said = _prove(job, label, cnf_path, proof_path)
    code = prover.answer(said, label)
    prover.compare_counts(said.text, job.patterns, (variables, len(clauses)), label)
    if code == prover.SATISFIABLE:
        on = prover.solution(said.text, clauses, label)
        raise Fault("\n".join(explain(number, on, job.sheet, job.names)),
                    NO_CERTIFICATE)
    data = read_bytes(proof_path, f"{label}: the prover's proof")
    row = from_proof(data, job.proof_form, variables, clauses, label)
    print(f"{label}: {len(clauses)} clauses refuted, steps: {len(row)}, "
          f"widest derived clause: {width(clauses, row)}", file=sys.stderr)
    return row


def _compare_variables(job, variables):
    # A translator that read another sheet would pass unnoticed otherwise.
    expected = job.sheet.variables(len(job.invariant))
    if variables != expected:
        raise Fault(f"the translator tells of {variables} variables, and the "
                    f"sheet and the invariant have {expected}")


def _prove(job, label, cnf_path, proof_path):
    words = prover.arguments(job.prover, cnf_path, proof_path)
    said = prover.run(words, job.timeout, Progress(), label)
    if job.keep:
        _keep(job.keep, cnf_path, proof_path, said.text)
    return said


def _keep(folder, cnf_path, proof_path, text):
    """Leaves the set, the proof and the prover's words for whoever asks."""
    try:
        os.makedirs(folder, exist_ok=True)
        for path in (cnf_path, proof_path):
            if os.path.exists(path):
                shutil.copy(path, folder)
    except OSError as error:
        raise Fault(f"{folder}: {error.strerror}") from None
    name = os.path.basename(cnf_path).replace(".cnf", ".said")
    write_whole(os.path.join(folder, name), text.encode("utf-8"))


def from_proof(data, form, variables, clauses, label):
    """The STEPs that follow a proof file's bytes."""
    progress = Progress()
    lemmas = proof.read(data, form, variables, len(clauses), progress, label)
    numbered = dict(enumerate(map(frozenset, clauses), 1))
    if form == "lrat":
        lemmas = hints.trim(numbered, lemmas, label)
    else:
        lemmas = hints.find(numbered, lemmas, progress, label)
        lemmas = hints.tighten(numbered, lemmas, progress, label)
    return steps.shortest(clauses, lemmas, progress, label)
