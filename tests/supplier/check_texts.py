"""Ladders, invariants and scans as text."""

import os
import tempfile

import making
from jobs import SAMPLES
from supplier import ladder
from supplier.formula import infix, postfix
from supplier.names import Names
from supplier.sheet import Sheet

S = ("01 01 00 01 00 01 00 02 00 00 01 10 00 00 20 00 00 10 00 00 11 00 00 14 "
     "10 00 00 13 11 00 00 13 14 15 21 2F")
Q = ((2, 3, 13), (5, 6, 14), (21, 26, 12), (22, 26, 12), (9, 27, 6),
     (20, 28, 11), (4, 29, 4), (6, 31, 5), (2, 32, 3), (13, 30, 8),
     (17, 34, 10), (35, 10, 7), (36, 14, 9), (37, 1, 3), (38, 33, 2))
NAMES = Names(["a", "b"], ["c", "d"])


def cases(tally, programs):
    _bench(tally)
    _formulas(tally)
    _bad_formulas(tally)
    _bad_ladders(tally)
    _bad_scans(tally)
    _counts(tally)
    _kept_bytes(tally)


def _bench(tally):
    """Sheets and certificate Q against document 01's own bytes."""
    sheet = bytes.fromhex(S)
    tally.equal("sheet S", making.read_ladder("S").sheet(), sheet)
    tally.equal("sheet P", making.read_ladder("P").sheet(),
                sheet[:17] + bytes.fromhex("11 00 00 21 2F"))
    tally.equal("sheet N", making.read_ladder("N").sheet(),
                sheet[:17] + bytes.fromhex("11 00 00 13 21 2F"))
    steps = [b"\x40" + b"".join(n.to_bytes(2, "little") for n in step) for step in Q]
    rows = steps[:1], steps[1:2], steps[2:]
    q = (bytes.fromhex("50 12 01 51")
         + b"".join(b"".join(row) + b"\x41" for row in rows) + b"\x2F")
    tally.equal("certificate Q", making._of_steps("Q"), q)
    tally.equal("its length", len(q), 113)


def _formulas(tally):
    """Binding, brackets and constants, there and back."""
    for text, back in (
            ("a", "a"), ("0|1", "0 | 1"), ("!!a", "!!a"), ("a & b & c", None),
            ("a | b & c", None), ("(a | b) & c", None), ("a & (b & c)", None),
            ("!a & b", None), ("!(a & b)", None), ("((a))", "a"),
            ("a&!b|c&!(d|0)", "a & !b | c & !(d | 0)")):
        found = postfix(text, NAMES.contacts(), "text")
        tally.equal(text, infix(found, NAMES), back or text)
    deep = postfix("(" * 9000 + "!" * 9000 + "a" + ")" * 9000, NAMES.contacts(), "")
    tally.equal("deep brackets", len(deep), 9001)
    tally.equal("& before |", postfix("a | b & c", NAMES.contacts(), ""),
                [("INPUT", 0), ("INPUT", 1), ("COIL", 0), ("AND",), ("OR",)])


def _bad_formulas(tally):
    for text, words in (
            ("", "ends where a contact should stand"), ("a &", "ends where"),
            ("a b", "an operator should"), ("& a", "a contact should"),
            ("(a", "not closed"), ("a)", "not opened"), ("()", "a contact should"),
            ("a ! b", "an operator should"), ("e", "named 'e'"),
            ("a + b", "'+' has no meaning"), ("10", "an operator should"),
            ("a = b", "'=' has no meaning"), ("a\u00e9", "has no meaning")):
        tally.refuses(f"formula {text!r}", ["place: ", words],
                      postfix, text, NAMES.contacts(), "place")


def _bad_ladders(tally):
    good = "inputs a\ncoils c\nc := a\ncheck c\n"
    tally.equal("a small ladder", len(ladder.read(good, "x").sheet()), 18)
    for text, words in (
            ("", "check line is missing"), ("coils c\n", "check line is missing"),
            ("coils c\ncheck d\n", "x:2: nothing here is named 'd'"),
            ("coils c c\ncheck c\n", "named twice"),
            ("inputs c\ncoils c\ncheck c\n", "x:2: 'c' is named twice"),
            ("coils 1c\ncheck 1\n", "cannot be a name"),
            ("coils check\ncheck 1\n", "cannot be a name"),
            ("coils c\nstart c\ncheck c\n", "a start line is"),
            ("coils c\nstart c up\ncheck c\n", "a start line is"),
            ("coils c\nstart d on\ncheck c\n", "no coil is named 'd'"),
            ("coils c\nstart c on\nstart c on\ncheck c\n", "start line already"),
            ("inputs a\ncoils c\na := c\ncheck c\n", "no coil is named 'a'"),
            (good + "c := a\n", "x:5: nothing may follow"),
            ("coils c\nhello\ncheck c\n", "x:2: 'hello' is no line"),
            ("coils c\nc :=\ncheck c\n", "ends where"),
            ("coils " + " ".join(f"k{n}" for n in range(65536)) + "\ncheck 1\n",
             "cannot hold the number 65536")):
        tally.refuses(f"ladder {text[:40]!r}", words,
                      lambda given: ladder.read(given, "x").sheet(), text)
    tally.refuses("invariant over an input", "is an input",
                  ladder.invariant, "a & c", NAMES, "x")


def _bad_scans(tally):
    tally.equal("scans", ladder.scans("scan b a\n\nscan # none\n", NAMES, "x"),
                [[0, 1], []])
    tally.equal("no scans", ladder.scans("# none\n", NAMES, "x"), [])
    for text, words in (("scan c\n", "x:1: no input is named 'c'"),
                        ("a b\n", "a line here is `scan`")):
        tally.refuses(f"scans {text!r}", words, ladder.scans, text, NAMES, "x")


def _counts(tally):
    """Formula records as the sources' page counts them."""
    for name, rungs, whole in (("level-crossing", 178, 186),
                               ("excluded-256", 0, 1024), ("S", 1, 10)):
        text = making.read_ladder(name)
        sheet = Sheet(text.sheet(), name)
        tally.equal(f"{name}: records", sheet.formula_records, whole)
        tally.equal(f"{name}: records of its rungs",
                    sum(len(rung) for _, rung in text.rungs), rungs)


def _kept_bytes(tally):
    """Files kept in samples/ are what their texts make."""
    with tempfile.TemporaryDirectory() as folder:
        making.make_plain(folder)
        for name in sorted(os.listdir(folder)):
            with open(os.path.join(folder, name), "rb") as made:
                kept = os.path.join(SAMPLES, name)
                tally.true(name, os.path.exists(kept) and
                           open(kept, "rb").read() == made.read(), "other bytes")
