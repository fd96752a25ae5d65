"""The command line of the supplier's tool."""

import argparse
import os
import re

from supplier import commands, prover

ROOT = os.path.dirname(os.path.dirname(os.path.abspath(__file__)))


def parser():
    top = argparse.ArgumentParser(
        prog="supply", description="From a ladder and a SAT prover to a "
        "certificate that the checker accepts.",
        epilog="Exit code 0: done; 1: no certificate exists for this invariant, or "
        "none within the limits was found; 2: something else is wrong.")
    sub = top.add_subparsers(required=True, metavar="COMMAND")
    _sheet(sub)
    _certificate(sub)
    _trace(sub)
    _show(sub)
    return top


def _command(sub, name, run, text, *files):
    command = sub.add_parser(name, help=text, description=text)
    for file, about in files:
        command.add_argument(file, metavar=file.upper(), help=about)
    command.set_defaults(run=run)
    return command


def _names(command):
    command.add_argument("--names", metavar="LADDER",
                         help="the sheet's text source, for its names")


def _sheet(sub):
    _command(sub, "sheet", commands.make_sheet, "make a sheet of a ladder's text",
             ("ladder", "the text"), ("out", "the sheet file to write"))


def _certificate(sub):
    command = _command(
        sub, "certificate", commands.make_certificate,
        "make a safety certificate with a SAT prover",
        ("sheet", "the sheet file"), ("invariant", "its formula, or a file with it"),
        ("out", "the certificate file to write"))
    _names(command)
    option = command.add_argument
    option("--cnf", metavar="COMMAND", default=os.path.join(ROOT, "cnf"),
           help="the translator (default: cnf of this repository)")
    option("--prover", metavar="COMMAND", default=prover.COMMAND,
           help="the prover; the files of set and proof take the places of {cnf} "
           "and {proof}, or stand last (default: %(default)s)")
    option("--proof-form", choices=("drat", "lrat"), default="drat",
           help="the form of the proof, as text (default: drat)")
    option("--timeout", metavar="SECONDS", type=_seconds, default=60,
           help="for the prover, on each set (default: %(default)s)")
    option("--read-variables", metavar="PATTERN", type=_pattern,
           default=prover.READ_VARIABLES,
           help="where the prover says how many variables it read")
    option("--read-clauses", metavar="PATTERN", type=_pattern,
           default=prover.READ_CLAUSES,
           help="where the prover says how many clauses it read")
    option("--keep", metavar="FOLDER",
           help="leave sets, proofs and the prover's words there")


def _trace(sub):
    _names(_command(
        sub, "trace", commands.make_trace, "make a trace of inputs for each scan",
        ("sheet", "the sheet file"),
        ("scans", "a file with a line `scan NAME ...` for each scan"),
        ("out", "the trace file to write")))


def _show(sub):
    _names(_command(
        sub, "show", commands.show_file,
        "print a sheet or certificate record by record",
        ("file", "the file; it may be damaged")))


def _seconds(word):
    seconds = float(word)
    if not 0 < seconds < 1e9:
        raise ValueError
    return seconds


def _pattern(word):
    try:
        groups = re.compile(word).groups
    except re.error as error:
        raise argparse.ArgumentTypeError(f"{word!r}: {error}") from None
    if groups != 1:
        raise argparse.ArgumentTypeError(f"{word!r} needs one group in brackets")
    return word
