"""The translator and the checker that the tests use."""

import os
import shutil
import subprocess
import sys
import tempfile

from jobs import ROOT


class Programs:
    """The proved ones at the root; while they are not built, the second program."""

    def __init__(self):
        self.folder = None
        self.cnf = [os.path.join(ROOT, "cnf")]
        self.checker = [os.path.join(ROOT, "gustvane")]
        if not all(shutil.which(words[0]) for words in (self.cnf, self.checker)):
            self._build_second()

    def _build_second(self):
        self.folder = tempfile.TemporaryDirectory(prefix="gustvane-")
        build = os.path.join(ROOT, "tests", "second", "build.sh")
        second = os.path.join(self.folder.name, "second")
        try:
            subprocess.run([build, self.folder.name], stdout=subprocess.DEVNULL,
                           stderr=subprocess.DEVNULL)
        except OSError:
            pass
        if not shutil.which(second):
            sys.exit("neither cnf and gustvane nor tests/second could be had: "
                     "build one of them first")
        self.cnf, self.checker = [second, "cnf"], [second, "check"]

    def judge(self, sheet_path, certificate_path):
        """The checker's line."""
        done = subprocess.run(self.checker + [sheet_path, certificate_path],
                              capture_output=True, text=True, timeout=30)
        return done.stdout.rstrip("\n")
