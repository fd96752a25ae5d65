"""Certificates made with recorded provers, and provers that go wrong."""

import os
import signal
import subprocess
import time

from jobs import FAILING, HINTED, JOBS, SAMPLES
from tool import Tool

WRONG = (
    ("clips_clauses", "21 clauses were written, and the prover read 20"),
    ("clips_variables", "68 variables were written, and the prover read 67"),
    ("counts_nothing", "does not say how many variables it read"),
    ("says_nothing", "gave no answer: exit code 20, nothing said"),
    ("says_both", "gave no answer"),
    ("swaps_answer", "its solution breaks clause"),
    ("other_code", "gave no answer: exit code 10, s UNSATISFIABLE"),
    ("fails", "gave no answer: exit code 1, c out of memory"),
    ("writes_no_proof", "the prover's proof"),
    ("writes_binary_proof", "not text (cadical writes text with --no-binary)"),
    ("is_killed", "the prover was stopped by signal 9"),
)


def cases(tally, programs):
    tool = Tool(programs)
    for job in JOBS:
        _made(tally, tool, job)
    for job, sample in HINTED.items():
        _made_of_hints(tally, tool, job, sample)
    _failing(tally, tool)
    for how, words in WRONG:
        _goes_wrong(tally, tool, how, words)
    _empty_proof(tally, tool)
    _slow(tally, tool)
    _hangs(tally, tool)
    _told_to_stop(tally, tool)
    _missing(tally, tool)


def _sample(name):
    return os.path.join(SAMPLES, name)


def _made(tally, tool, job):
    """The certificate kept in samples/, made anew of the recorded proofs."""
    done = tool.certificate(job, _sample(job + ".invariant"), tool.replayed(job))
    tally.equal(f"{job}: exit code", done.returncode, 0)
    with open(_sample(job + ".cert"), "rb") as kept:
        tally.true(f"{job}: bytes", tool.written() == kept.read(), done.stderr)


def _made_of_hints(tally, tool, job, sample):
    done = tool.certificate(sample, _sample(sample + ".invariant"),
                            tool.replayed(job), "--proof-form", "lrat")
    tally.equal(f"{job}: exit code", done.returncode, 0)
    line = tool.programs.judge(_sample(sample + ".sheet"), tool.out)
    tally.equal(job, line, "accepted")
    tool.written()


SOLUTIONS = {
    "pelican-weak": ["set 3 has a solution: a scan breaks the condition",
                     "inputs of the scan: on pressed; off none",
                     "coils before the scan: on crossing req"],
    "pelican-condition": ["set 1 has a solution: the start breaks the invariant",
                          "coils at the start: on none; off crossing req tlag",
                          "set 2 has a solution: a scan leaves the invariant",
                          "set 3 has a solution"],
    "pelican-lost": ["set 2 has a solution: a scan leaves the invariant",
                     "coils after the scan: on req tlag tlbg plar plbr; off "
                     "crossing"],
    "levers-weak": ["set 3 has a solution: a scan breaks the condition"],
    "levers-wrong": ["set 2 has a solution", "set 3 has a solution",
                     "coils before the scan: on p l; off s"],
}


def _failing(tally, tool):
    for job, (sample, formula) in FAILING.items():
        invariant = tool.write(job, formula)
        done = tool.certificate(sample, invariant, tool.replayed(job))
        tally.equal(f"{job}: exit code", done.returncode, 1)
        tally.holds(job, done.stderr, *SOLUTIONS[job])
        tally.equal(f"{job}: nothing written", tool.written(), None)
    _without_names(tally, tool)


def _without_names(tally, tool):
    words = tool.certificate_words("pelican", tool.write("weak", "1"),
                                   tool.replayed("pelican-weak"))
    at = words.index("--names")
    done = tool.call(*words[:at], *words[at + 2:])
    tally.holds("numbers for names", done.stderr, "inputs of the scan: on i0",
                "coils after the scan: on k8 k9; off k0 k1")


def _goes_wrong(tally, tool, how, words):
    done = tool.certificate("pelican", _sample("pelican.invariant"),
                            tool.replayed("pelican", how))
    tally.equal(f"{how}: exit code", done.returncode, 2)
    tally.holds(how, done.stderr, words)
    tally.equal(f"{how}: nothing written", tool.written(), None)
    tally.equal(f"{how}: nothing left over", tool.left_over(), [])


def _empty_proof(tally, tool):
    """Set 1 follows by propagation alone; set 3 does not."""
    done = tool.certificate("pelican", _sample("pelican.invariant"),
                            tool.replayed("pelican", "writes_empty_proof"))
    tally.equal("empty proof: exit code", done.returncode, 2)
    tally.holds("empty proof", done.stderr, "set 1: 21 clauses refuted",
                "set 3: the proof ends without the empty clause")


def _slow(tally, tool):
    done = tool.certificate("S", _sample("S.invariant"),
                            tool.replayed("S", "is_slow"))
    tally.equal("slow: exit code", done.returncode, 0)
    tally.holds("slow: progress", done.stderr, "set 1: the prover has run ")
    tool.written()


def _hangs(tally, tool):
    done = tool.certificate("S", _sample("S.invariant"),
                            tool.replayed("S", "hangs"), "--timeout", "1")
    tally.equal("hangs: exit code", done.returncode, 2)
    tally.holds("hangs", done.stderr, "set 1: the prover was stopped after 1 s")
    tally.equal("hangs: ended", _running(tool.folder.name), [])
    tally.equal("hangs: nothing left over", tool.left_over(), [])


def _told_to_stop(tally, tool):
    """Neither file nor prover outlives a tool that is told to stop."""
    words = tool.certificate_words("S", _sample("S.invariant"),
                                   tool.replayed("S", "hangs"))
    process = subprocess.Popen(tool.words(*words), stderr=subprocess.PIPE,
                               text=True, env=tool.around)
    for _ in range(200):
        if _running(tool.folder.name):
            break
        time.sleep(0.1)
    process.send_signal(signal.SIGTERM)
    _, said = process.communicate(timeout=20)
    tally.equal("told to stop: exit code", process.returncode, 130)
    tally.holds("told to stop", said, "supply: stopped")
    tally.equal("told to stop: nothing written", tool.written(), None)
    tally.equal("told to stop: prover ended", _running(tool.folder.name), [])
    tally.equal("told to stop: nothing left over", tool.left_over(), [])


def _running(word):
    """Command lines of replaying provers that hold the word."""
    found = []
    for name in filter(str.isdigit, os.listdir("/proc")):
        try:
            with open(f"/proc/{name}/cmdline", "rb") as file:
                line = file.read().decode("utf-8", "replace")
        except OSError:
            continue
        if "/replay\0" in line and word in line and "supply" not in line:
            found.append(line)
    return found


def _missing(tally, tool):
    for command, words in (
            ("/no/such/prover", "no prover at '/no/such/prover': install it"),
            (_sample("VERDICTS"), "no prover at"),
            ("'", "cannot be split"), ("", "is empty")):
        done = tool.certificate("S", _sample("S.invariant"), command)
        tally.equal(f"prover {command!r}: exit code", done.returncode, 2)
        tally.holds(f"prover {command!r}", done.stderr, words)
        tally.equal(f"prover {command!r}: nothing written", tool.written(), None)
