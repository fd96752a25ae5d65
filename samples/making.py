"""Makes the samples' bytes of their texts; `make` and `remake` share it."""

import os
import subprocess
import sys
from collections import namedtuple

HERE = os.path.dirname(os.path.realpath(__file__))
ROOT = os.path.dirname(HERE)
sys.dont_write_bytecode = True
sys.path.insert(0, ROOT)

from supplier import ladder, trace  # noqa: E402
from supplier.fault import Fault  # noqa: E402
from supplier.files import read_text, write_whole  # noqa: E402
from supplier.names import Names  # noqa: E402
from supplier.records import formula, record  # noqa: E402

SUPPLY = os.path.join(ROOT, "supplier", "supply")
Verdict = namedtuple("Verdict", "sheet certificate line")


def verdicts():
    """The table of VERDICTS."""
    rows = []
    text = read_text(os.path.join(HERE, "VERDICTS"), "table")
    for line in text.split("\n"):
        words = line.split("#")[0].split(None, 2)
        if words:
            rows.append(Verdict(words[0], words[1], words[2].strip()))
    return rows


def sources(end):
    """Names, without `end`, of the texts here that have that ending."""
    return sorted(name[:-len(end)] for name in os.listdir(HERE)
                  if name.endswith(end))


def source(name, end):
    return os.path.join(HERE, name + end)


def read_ladder(name):
    path = source(name, ".ladder")
    return ladder.read(read_text(path, "ladder"), os.path.basename(path))


def make_plain(into):
    """Everything that needs no prover."""
    for name in sources(".ladder"):
        write_whole(os.path.join(into, name + ".sheet"), read_ladder(name).sheet())
    for name in sources(".steps"):
        write_whole(os.path.join(into, name + ".cert"), _of_steps(name))
    for name in sources(".hex"):
        write_whole(os.path.join(into, name), _of_hex(name))
    for row in verdicts():
        name, end = os.path.splitext(row.certificate)
        if end == ".trace" and name in sources(".scans"):
            scans = _of_scans(name, os.path.splitext(row.sheet)[0])
            write_whole(os.path.join(into, row.certificate), scans)


def _of_scans(name, sheet):
    text = read_text(source(name, ".scans"), "scans")
    return trace.make(ladder.scans(text, read_ladder(sheet).names, name))


def _of_hex(name):
    text = read_text(source(name, ".hex"), "bytes")
    return bytes.fromhex(" ".join(line.split("#")[0] for line in text.split("\n")))


def _of_steps(name):
    """A certificate written by hand: an invariant of constants, then its steps."""
    out, closing = record("SAFE"), b""
    for number, line in ladder.lines(read_text(source(name, ".steps"), "steps")):
        word, *rest = line.split()
        if word == "invariant":
            text = ladder.invariant(" ".join(rest), Names([], []), name)
            out += formula(text) + record("INVARIANT")
        elif word == "set":
            out, closing = out + closing, record("QED")
        elif word == "step":
            out += record("STEP", *map(int, rest))
        else:
            raise Fault(f"{name}.steps:{number}: {line!r} has no meaning")
    return out + closing + record("END")


def proved():
    """Names of the certificates that a prover makes, in the table's order."""
    names = []
    for row in verdicts():
        name, end = os.path.splitext(row.certificate)
        if end == ".cert" and name in sources(".invariant"):
            names.append(name)
    return names


def make_certificate(name, into, options):
    """Runs the supplier's tool as a supplier would."""
    command = [SUPPLY, "certificate", os.path.join(into, name + ".sheet"),
               source(name, ".invariant"), os.path.join(into, name + ".cert"),
               "--names", source(name, ".ladder"), *options]
    print(name, flush=True)
    return subprocess.run(command, stdout=subprocess.DEVNULL).returncode == 0
