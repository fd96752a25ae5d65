"""The commands of the supplier's tool."""

import os
import shlex

from supplier import certificate, ladder, show, trace
from supplier.fault import Fault
from supplier.files import read_bytes, read_text, write_whole
from supplier.sheet import Sheet


def make_sheet(options):
    _keep_apart(options.out, options.ladder)
    text = ladder.read(read_text(options.ladder, "ladder"), options.ladder)
    _write(options.out, text.sheet())


def make_certificate(options):
    _keep_apart(options.out, options.sheet, options.invariant, options.names)
    sheet, names = _read_sheet(options)
    invariant = _invariant(options.invariant, names)
    job = certificate.Job(
        options.sheet, sheet, names, invariant, _words(options.cnf),
        _words(options.prover), options.timeout,
        (options.read_variables, options.read_clauses),
        options.proof_form, options.keep)
    _write(options.out, certificate.make(job))


def make_trace(options):
    _keep_apart(options.out, options.sheet, options.scans, options.names)
    _, names = _read_sheet(options)
    scans = ladder.scans(read_text(options.scans, "scans"), names, options.scans)
    _write(options.out, trace.make(scans))


def show_file(options):
    names = None
    if options.names:
        source = read_text(options.names, "ladder")
        names = ladder.read(source, options.names).names
    for line in show.lines(read_bytes(options.file, "file"), names):
        print(line)


def _write(path, data):
    write_whole(path, data)
    print(f"{path}: {len(data)} bytes written")


def _keep_apart(out, *given):
    """A slip of the hand would otherwise write over what it was given."""
    if os.path.realpath(out) in [os.path.realpath(path) for path in given if path]:
        raise Fault(f"{out} is both read and written")


def _read_sheet(options):
    """The sheet, and names from its text source if it is the source of these bytes."""
    data = read_bytes(options.sheet, "sheet")
    sheet = Sheet(data, options.sheet)
    if options.names is None:
        return sheet, sheet.plain_names()
    source = ladder.read(read_text(options.names, "ladder"), options.names)
    if source.sheet() != data:
        raise Fault(f"{options.names} is not the source of {options.sheet}: "
                    "make the sheet anew, or leave --names out")
    return sheet, source.names


def _invariant(given, names):
    """The formula of a file, or the one that stands in the file's place."""
    if os.path.exists(given):
        return ladder.invariant(read_text(given, "invariant"), names, given)
    return ladder.invariant(given, names, f"no file {given!r}, and as a formula")


def _words(command):
    """A command's words as a shell would split them."""
    try:
        words = shlex.split(command)
    except ValueError as error:
        raise Fault(f"the command {command!r} cannot be split: {error}") from None
    if not words:
        raise Fault("a command given as an option is empty")
    return words
