"""The commands of docs/SUPPLIERS.md give the output that stands there."""

import os
import re
import shlex
import shutil
import subprocess
import sys
import tempfile

from jobs import HERE, RECORDED, ROOT

PAGE = os.path.join(ROOT, "docs", "SUPPLIERS.md")


def cases(tally, programs):
    with open(PAGE) as file:
        blocks = re.findall(r"^```\n(.*?)^```$", file.read(), re.M | re.S)
    with tempfile.TemporaryDirectory(prefix="gustvane-") as site:
        _furnish(site, programs)
        for block in blocks:
            if re.search("(?m)^check ", block):
                _write(os.path.join(site, "job", "levers.ladder"), block)
            for command, expected in re.findall(
                    r"^\$ (.*)\n((?:(?!\$ ).*\n)*)", block, re.M):
                tally.equal(f"$ {command}", _output(site, command), expected)


def _furnish(site, programs):
    """The tool, the two programs, a folder for the job, and a recorded prover."""
    shutil.copytree(os.path.join(ROOT, "supplier"), os.path.join(site, "supplier"))
    for folder in ("job", "bin"):
        os.mkdir(os.path.join(site, folder))
    _program(os.path.join(site, "cnf"), f'exec {shlex.join(programs.cnf)} "$@"')
    _program(os.path.join(site, "gustvane"),
             f'exec {shlex.join(programs.checker)} "$@"')
    replay = shlex.join([sys.executable, os.path.join(HERE, "replay"), RECORDED])
    _program(os.path.join(site, "bin", "cadical"),
             f'shift $(($# - 2))\nexec {replay} "$@"')


def _program(path, text):
    _write(path, f"#!/bin/sh\n{text}\n")
    os.chmod(path, 0o755)


def _write(path, text):
    with open(path, "w") as file:
        file.write(text)


def _output(site, command):
    path = os.path.join(site, "bin") + os.pathsep + os.environ["PATH"]
    done = subprocess.run(
        ["sh", "-c", command], cwd=site, env={**os.environ, "PATH": path},
        stdout=subprocess.PIPE, stderr=subprocess.STDOUT, text=True, timeout=60)
    return done.stdout
