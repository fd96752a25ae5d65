"""The jobs that were recorded, with cadical 1.5.3 unless told otherwise."""

import os

HERE = os.path.dirname(os.path.realpath(__file__))
ROOT = os.path.dirname(os.path.dirname(HERE))
SAMPLES = os.path.join(ROOT, "samples")
SUPPLY = os.path.join(ROOT, "supplier", "supply")
RECORDED = os.path.join(HERE, "recorded")

# Samples with the invariant that stands beside them.
JOBS = ("S", "pelican", "pelicon", "order", "dungeness", "two-coils",
        "three-coils", "ic3-1111", "ic3-1000", "level-crossing", "levers",
        "excluded-102")

# Samples with an invariant that fails.
FAILING = {
    "pelican-weak": ("pelican", "1"),
    "pelican-condition": (
        "pelican",
        "(tlag | tlar) & !(tlag & tlar) & (tlbg | tlbr) & !(tlbg & tlbr)"),
    "pelican-lost": ("pelican", "!crossing & !req"),
    "levers-weak": ("levers", "1"),
    "levers-wrong": ("wrong-levers", "!s | (l & !p)"),
}

# Samples with LRAT proofs, of cadical 1.7.4.
HINTED = {"levers-lrat": "levers", "pelican-lrat": "pelican"}
