#!/usr/bin/env python3
"""Brings the repository's own definitions and lemmas to one spelling: snake case for functions, fields, constructors
and lemmas, upper camel case for types. Run once after port.py, at the top of the repository. Functions of src/,
exported names, strings, inputs and outputs keep their names. It says which names fall together and then writes nothing.

usage: python3 tools/respell.py [--list]
"""
import collections
import os
import re
import sys

ROOT = os.path.dirname(os.path.dirname(os.path.abspath(__file__)))
CRATES = os.path.join(ROOT, "crates")
TOKEN = re.compile(r"[^\s(){};,.«»\[\]\"@`\\]+")
WORDS = {"abbrev", "unfoldable", "pub", "ruleset", "data", "record", "where", "use", "infix", "let", "in", "elim", "unfolding", "module", "|", "_"}
# Named by Rattle for a goal, a statement or a step: these keep their dashes.
MADE = {"invariant-loop", "decreases-loop"}
# A lemma that would have its function's name gets `_lem`.
LEMMAS = "two_bytes at_head in-range kind-of bit-of condition-at confirmed-line entry-bytes first-record head-fits invariant-after invariant-before is-there leaf-clauses run-places start-units".split()
# Named several on a line, or by an import.
MORE = "atHead atStarts atRungs atEnd afterVars beforeVars at-steps ends-f ends-h".split()
# These fall together and may: a field or a step beside a function of another module.
TOGETHER = {"at_end", "condition_at", "record_at", "rungs_at", "first_broken"}


def files(*ends):
    for folder, dirs, names in os.walk(CRATES):
        dirs[:] = sorted(d for d in dirs if d != "out")
        for name in sorted(names):
            if name.endswith(ends):
                yield os.path.join(folder, name)


def is_answer(path):
    return os.path.basename(path) in ("Proof.antt", "Answers.antt", "Invariants.antt")


def respelled(name):
    name = name.replace("·", "-")
    if name[0].isupper():
        return "".join(w[0].upper() + w[1:] for w in name.split("-")) if "-" in name else name
    name = re.sub(r"(?<=[a-z0-9])([A-Z])", lambda m: "_" + m.group(1).lower(), name)
    return name.replace("-", "_").replace("\u2032", "'")


def defined():
    found = collections.defaultdict(set)
    for path in files(".antt"):
        if is_answer(path):
            continue
        with open(path, encoding="utf-8") as f:
            for line in f:
                if re.match(r"\s*--|\s*use ", line):
                    continue
                m = re.match(r"\s*(?:(?:abbrev|unfoldable|pub)\s+)*((?:[^\s(){};,.:=|λ→]+\s+)*[^\s(){};,.:=|λ→]+)\s*:(?:\s|$)", line)
                n = re.match(r"\s*(?:pub\s+)?(?:ruleset|data|record)\s+([^\s(){};,.:=]+)", line)
                for name in (m.group(1).split() if m else []) + ([n.group(1)] if n else []):
                    if name not in WORDS and re.fullmatch(r"[A-Za-z]\S*", name):
                        found[name].add(os.path.relpath(path, ROOT))
    return found


def main(argv):
    names = defined()
    turn = {n: respelled(n) for n in names if respelled(n) != n and n not in MADE}
    turn |= {n: respelled(n) + "_lem" for n in LEMMAS} | {n: respelled(n) for n in MORE}
    seen = collections.Counter()
    for path in files(".antt"):
        with open(path, encoding="utf-8") as f:
            text = "\n".join(re.sub(r"^(\s*use )\S*(?=\.[{A-Za-z]| as )", r"\1", x) for x in f.read().split("\n"))
            seen.update(TOKEN.findall(text))
    clash = [(a, b) for a, b in sorted(turn.items()) if seen[b] and b not in turn and b not in TOGETHER]
    by = collections.defaultdict(list)
    for a, b in turn.items():
        by[b].append(a)
    clash += [(tuple(a), b) for b, a in sorted(by.items()) if len(a) > 1 and b not in TOGETHER]
    for a, b in clash:
        print(f"falls together: {a} -> {b}")
    if "--list" in argv:
        for a, b in sorted(turn.items()):
            print(a, b, *sorted(names.get(a, ["by hand"]))[:1])
        return 0
    if clash:
        return 1
    count = 0

    def whole(text):
        return TOKEN.sub(lambda m: turn.get(m.group(0), m.group(0)), text)

    def plain(text):
        return TOKEN.sub(lambda m: turn.get(m.group(0), m.group(0)) if "-" not in m.group(0) else m.group(0), text)

    for path in files(".antt", ".rt", ".edit"):
        with open(path, encoding="utf-8") as f:
            old = f.read()
        new = []
        mark = "--" if path.endswith(".antt") else "//"
        for line in old.split("\n"):
            if mark == "//" and path.endswith(".rt"):
                parts = re.split(r'("(?:[^"\\]|\\.)*")', line)
                line = "".join(p if i % 2 else p if "//" in p and not p.split("//")[0].strip() else whole(p) for i, p in enumerate(parts))
                new.append(plain(line) if re.match(r"\s*//", line) else line)
            elif re.match(r"\s*" + mark, line):
                new.append(plain(line))
            else:
                new.append(whole(line))
        text = "\n".join(new)
        if text != old:
            count += 1
            with open(path, "w", encoding="utf-8") as f:
                f.write(text)
    print(f"respell: {len(turn)} names, {count} files")
    return 0


if __name__ == "__main__":
    raise SystemExit(main(sys.argv[1:]))
