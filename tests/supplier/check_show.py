"""Files printed record by record, whole and damaged."""

import os

import making
from jobs import SAMPLES
from supplier import show
from tool import Tool


def cases(tally, programs):
    _whole(tally)
    _prefixes(tally)
    _any_kind(tally)
    _command(tally, Tool(programs))


def _read(name):
    with open(os.path.join(SAMPLES, name), "rb") as file:
        return file.read()


def _whole(tally):
    """Every file that has an END is read to it."""
    for name in sorted({name for row in making.verdicts() for name in row[:2]}):
        data = _read(name)
        last = list(show.lines(data))[-1]
        if name.split(".")[0] in ("Q-cut", "Q-more", "S-cut", "empty", "no-steps",
                                  "coils-256", "coils-257"):
            tally.true(f"{name}: stops", last.startswith("stops: "), last)
        else:
            tally.holds(name, last, f"{len(data)} bytes", "read to END")


def _prefixes(tally):
    """Q and S after any of their bytes: what is whole is shown, the rest named."""
    for name in ("Q.cert", "S.sheet"):
        data, lines = _read(name), list(show.lines(_read(name)))
        for length in range(len(data)):
            shown = list(show.lines(data[:length]))
            tally.true(f"{name} cut at {length}", shown[:-1] == lines[:len(shown) - 1]
                       and shown[-1].startswith("stops: "), shown[-1])


def _any_kind(tally):
    """Any byte as a kind in the middle of a sheet."""
    data = _read("S.sheet")
    for kind in range(256):
        changed = data[:14] + bytes([kind]) + data[15:]
        shown = list(show.lines(changed))
        tally.true(f"kind {kind:02X}", shown[:3] == list(show.lines(data))[:3]
                   and shown[-1].startswith(("stops: ", "36 bytes")), shown[-1])


def _command(tally, tool):
    sheet = os.path.join(SAMPLES, "pelican.sheet")
    done = tool.call("show", sheet)
    tally.holds("show", done.stdout, "     0  01  HEAD       inputs 1, coils 11, "
                "rungs 11\n", "RUNG       k3 := !k0 & (!i0 | k1)\n")
    ladder = os.path.join(SAMPLES, "pelican.ladder")
    done = tool.call("show", sheet, "--names", ladder)
    tally.holds("show with names", done.stdout,
                "RUNG       tlbg := !crossing & (!pressed | req)\n")
    done = tool.call("show", tool.write("noise", os.urandom(300)))
    tally.equal("show noise", (done.returncode, done.stderr), (0, ""))
    done = tool.call("show", tool.path("none"))
    tally.equal("show nothing", done.returncode, 2)
    tally.holds("show nothing", done.stderr, "No such file or directory")
