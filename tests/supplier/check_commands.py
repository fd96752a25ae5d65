"""Commands on good and bad files, and a translator that goes wrong."""

import errno
import os
import shlex
import stat

import making
from jobs import RECORDED, SAMPLES
from supplier import translator
from supplier.certificate import from_proof
from supplier.files import write_whole
from tool import Tool


def cases(tally, programs):
    tool = Tool(programs)
    _sheets(tally, tool)
    _traces(tally, tool)
    _bad_files(tally, tool)
    _bad_outputs(tally, tool)
    _whole_or_nothing(tally, tool)
    _refused(tally, tool)
    _bad_translators(tally, tool)
    _cut_dimacs(tally)
    _same_sets(tally, tool)
    _too_long(tally, tool)


def _sample(name):
    return os.path.join(SAMPLES, name)


def _sheets(tally, tool):
    done = tool.call("sheet", _sample("pelican.ladder"), tool.out)
    tally.equal("sheet: exit code", done.returncode, 0)
    tally.equal("sheet: said", done.stdout, f"{tool.out}: 140 bytes written\n")
    mode = stat.S_IMODE(os.stat(tool.out).st_mode)
    tally.true("sheet: others may read it", mode & 0o400, oct(mode))
    with open(_sample("pelican.sheet"), "rb") as kept:
        tally.true("sheet: bytes", tool.written() == kept.read())


def _traces(tally, tool):
    for name, sample in (("P-on-off", "P"), ("shift", "shift"), ("pelicon", "pelicon")):
        done = tool.call("trace", _sample(sample + ".sheet"),
                         _sample(name + ".scans"), tool.out,
                         "--names", _sample(sample + ".ladder"))
        tally.equal(f"trace {name}: exit code", done.returncode, 0)
        with open(_sample(name + ".trace"), "rb") as kept:
            tally.true(f"trace {name}: bytes", tool.written() == kept.read())
    plain = tool.write("plain", "scan i0\nscan\n")
    done = tool.call("trace", _sample("P.sheet"), plain, tool.out)
    tally.equal("trace without names", tool.written().hex(), "6061000062622f")
    other = tool.write("other", "scan b\n")
    done = tool.call("trace", _sample("P.sheet"), other, tool.out)
    tally.equal("trace of no input: exit code", done.returncode, 2)
    tally.holds("trace of no input", done.stderr, "no input is named 'b'")


def _bad_files(tally, tool):
    one = tool.write("one", "1")
    cut = tool.write("cut", open(_sample("S.sheet"), "rb").read()[:-1])
    for sheet, invariant, words in (
            (tool.path("none"), one, "No such file or directory"),
            (tool.folder.name, one, "Is a directory"),
            (tool.write("empty", ""), one, "does not begin with a HEAD"),
            (_sample("Q.cert"), one, "does not begin with a HEAD"),
            (cut, one, "the bytes end at 35 without END"),
            (_sample("S.sheet"), tool.path("none"), "and as a formula: '/' has no"),
            (_sample("S.sheet"), "k0 | k1", "as a formula: nothing here is named"),
            (_sample("S.sheet"), tool.folder.name, "Is a directory"),
            (_sample("S.sheet"), tool.write("noise", b"\xff\xfe"), "is not text"),
            (_sample("S.sheet"), tool.write("bad", "k0 &"), "ends where"),
            (_sample("S.sheet"), tool.write("stranger", "k1"), "named 'k1'"),
            (_sample("S.sheet"), tool.write("input", "i0"), "'i0' is an input")):
        done = tool.call("certificate", sheet, invariant, tool.out)
        name = f"{os.path.basename(sheet)} {os.path.basename(invariant)}"
        tally.equal(f"{name}: exit code", done.returncode, 2)
        tally.holds(name, done.stderr, "supply: ", words)
        tally.equal(f"{name}: nothing written", tool.written(), None)
    done = tool.call("certificate", _sample("S.sheet"), one, tool.out,
                     "--names", _sample("P.ladder"))
    tally.holds("names of another sheet", done.stderr, "is not the source of")


def _bad_outputs(tally, tool):
    scans, ladder = tool.write("scans", "scan\n"), _sample("P.ladder")
    for out, words in ((tool.folder.name, "not a file that can be replaced"),
                       ("/dev/null", "not a file that can be replaced"),
                       (tool.path("none/out"), "No such file or directory")):
        for given in (("sheet", ladder), ("trace", _sample("P.sheet"), scans)):
            done = tool.call(*given, out)
            tally.equal(f"{given[0]} to {out}: exit code", done.returncode, 2)
            tally.holds(f"{given[0]} to {out}", done.stderr, words)
    tally.equal("nothing left over", tool.left_over(), [])
    target = tool.write("target", "old")
    os.symlink(target, tool.path("link"))
    tool.call("trace", _sample("P.sheet"), scans, tool.path("link"))
    tally.true("a link stays a link", os.path.islink(tool.path("link")))
    tally.equal("its target is written", open(target, "rb").read().hex(), "60622f")


def _whole_or_nothing(tally, tool):
    """A write that fails in the end leaves the old file and nothing else."""
    old, kept = tool.write("old", "old"), os.replace

    def full(*_):
        raise OSError(errno.ENOSPC, "No space left on device")

    try:
        os.replace = full
        tally.refuses("a full disk", "No space left", write_whole, old, b"new")
    finally:
        os.replace = kept
    tally.equal("the old file stays", open(old).read(), "old")
    tally.equal("and nothing beside it", tool.left_over(), [])


def _refused(tally, tool):
    """Sheets and invariants that can be walked, and are refused all the same."""
    twice = tool.write("twice", "coils c\nc := c\nc := c\ncheck c\n")
    sheet = tool.path("twice.sheet")
    tool.call("sheet", twice, sheet)
    long = tool.write("long", " & ".join(["k0"] * 200))
    one = tool.write("one", "1")
    for given, invariant, words in (
            (sheet, one, ["refused 4 at 0", "outside its range"]),
            (_sample("S.sheet"), long, ["refused 17 at ", "256 formula records"]),
            (_sample("coils-256.sheet"), one, ["without END"])):
        done = tool.call("certificate", given, invariant, tool.out, "--cnf",
                         shlex.join(tool.programs.cnf))
        tally.equal(f"refused {words}: exit code", done.returncode, 2)
        tally.holds(f"refused {words}", done.stderr, *words)


def _bad_translators(tally, tool):
    half = tool.write("half", "p cnf 14 6\n-3 2 0\n3 -2 0\n")
    other = tool.write("other", "p cnf 15 1\n1 0\n")
    for command, words in (
            ("/no/such/cnf", "no translator at /no/such/cnf: build it"),
            (shlex.join(["sh", "-c", f"cat {half}"]), "6 clauses, and 2 came"),
            (shlex.join(["sh", "-c", f"cat {other}"]), "15 variables, and the sheet"),
            ("echo hello", "wrote no DIMACS text"), ("true", "wrote no DIMACS text"),
            (shlex.join(["sh", "-c", "kill -9 $$"]), "stopped by signal 9"),
            (shlex.join(["sh", "-c", "echo unreadable"]), "could not read"),
            (shlex.join(["sh", "-c", "echo refused 28 at 0"]), "refused 28 at 0")):
        done = tool.call("certificate", _sample("S.sheet"), _sample("S.invariant"),
                         tool.out, "--cnf", command)
        tally.equal(f"translator {command!r}: exit code", done.returncode, 2)
        tally.holds(f"translator {command!r}", done.stderr, words)
        tally.equal("nothing written", tool.written(), None)


def _cut_dimacs(tally):
    """No prefix of a set's text passes for a set."""
    with open(os.path.join(RECORDED, "S", "set2.cnf")) as file:
        text = file.read()
    tally.equal("a set's text", translator.read(text)[0], 14)
    for length in range(len(text)):
        tally.refuses(f"DIMACS cut at {length}", "the translator",
                      translator.read, text[:length])
    for changed in (text.replace("14 0", "15 0", 1), text.replace("-3 2 0", "0"),
                    text + "1 0\n", text.replace("13 0", "13 0 0", 1),
                    "c --elim=0\n" + text, text.replace("14 6", "014 6")):
        tally.refuses(f"DIMACS {changed!r}", "the translator", translator.read,
                      changed)


def _same_sets(tally, tool):
    """The translator still writes the sets that were recorded."""
    opened = tool.write("opened", bytes.fromhex("50 12 01 51"))
    for job in ("S", "pelicon", "order", "dungeness", "level-crossing",
                "excluded-102"):
        for number in (1, 2, 3):
            text, _, _ = translator.clause_set(
                tool.programs.cnf, number, _sample(job + ".sheet"), opened)
            with open(os.path.join(RECORDED, job, f"set{number}.cnf")) as file:
                tally.true(f"{job}: set {number}", text == file.read(), "other set")


def _too_long(tally, tool):
    """A sheet at its limit whose refutation is beyond the limit of steps."""
    opened = tool.write("opened", bytes.fromhex("50 12 01 51"))
    _, variables, clauses = translator.clause_set(
        tool.programs.cnf, 3, _sample("excluded-256.sheet"), opened)
    tally.refuses("excluded-256", "has 1280 steps, 768 more than the 512 allowed",
                  from_proof, b"0\n", "drat", variables, clauses, "set 3")
    tally.equal("its sheet", making.read_ladder("excluded-256").sheet()[:7].hex(),
                "01000101000000")
