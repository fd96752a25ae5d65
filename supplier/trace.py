"""Writes a trace: for each scan the inputs that are on."""

from supplier.records import record


def make(scans):
    """The bytes of a trace; each scan is a rising list of input numbers."""
    out = record("TRACE")
    for inputs in scans:
        for number in inputs:
            out += record("INPUT-ON", number)
        out += record("SCAN")
    return out + record("END")
