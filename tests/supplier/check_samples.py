"""Every line of samples/VERDICTS, as the checker says it."""

import os

import making
from jobs import SAMPLES


def cases(tally, programs):
    for row in making.verdicts():
        line = programs.judge(os.path.join(SAMPLES, row.sheet),
                              os.path.join(SAMPLES, row.certificate))
        tally.equal(f"{row.sheet} {row.certificate}", line, row.line)
