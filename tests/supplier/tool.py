"""Runs the supplier's tool as a supplier would, in a folder of its own."""

import os
import shlex
import subprocess
import sys
import tempfile

from jobs import HERE, RECORDED, SAMPLES, SUPPLY

# A search for python3 and for site packages takes longer than the tool.
PYTHON = (sys.executable, "-S")


class Tool:
    def __init__(self, programs):
        self.programs = programs
        self.folder = tempfile.TemporaryDirectory(prefix="gustvane-")
        self.out = self.path("out")
        # What the tool leaves behind is then found here.
        self.around = {**os.environ, "TMPDIR": self.folder.name}

    def path(self, name):
        return os.path.join(self.folder.name, name)

    def write(self, name, data):
        with open(self.path(name), "wb") as file:
            file.write(data.encode() if isinstance(data, str) else data)
        return self.path(name)

    def words(self, *words):
        return [*PYTHON, SUPPLY, *words]

    def call(self, *words):
        return subprocess.run(self.words(*words), capture_output=True, text=True,
                              timeout=60, env=self.around)

    def replayed(self, job, how=""):
        """The prover's command that plays a recorded job back."""
        words = [*PYTHON, os.path.join(HERE, "replay"), os.path.join(RECORDED, job)]
        return shlex.join(words + ([how] if how else []))

    def certificate_words(self, sample, invariant, prover, *more):
        return ["certificate", os.path.join(SAMPLES, sample + ".sheet"), invariant,
                self.out, "--names", os.path.join(SAMPLES, sample + ".ladder"),
                "--cnf", shlex.join(self.programs.cnf), "--prover", prover, *more]

    def certificate(self, sample, invariant, prover, *more):
        return self.call(*self.certificate_words(sample, invariant, prover, *more))

    def written(self):
        """The bytes of the output file, taken away; None where there is none."""
        if not os.path.exists(self.out):
            return None
        with open(self.out, "rb") as file:
            data = file.read()
        os.unlink(self.out)
        return data

    def left_over(self):
        """Files and folders that a run should have taken away."""
        return [name for name in os.listdir(self.folder.name)
                if name.startswith((".", "gustvane-"))]
