#!/usr/bin/env python3
"""How the sources must look: lines under 100 columns (use lists aside), files of up to 250 lines (300 where the prover
asks for the answers of one function in one file), definitions without proofs; and that each must-fail edit, and each
fault that tests/faults.sh plants, still fits its file. Prints what is wrong and exits 1, or prints nothing."""
import glob
import os
import re
import sys

USE = re.compile(r"\s*(pub |ghost )?use ")
# Words by which a proof would be known in a file of definitions.
PROOF = re.compile(r"(?<![\w-])(omega|rw|refl|simp|search|grind|decide|subst|cc|absurd|∙)(?![\w-])")


def faults(path):
    with open(path, encoding="utf-8") as source:
        lines = source.read().splitlines()
    if len(lines) > (300 if path.endswith(("/Answers.antt", "/Proof.antt")) else 250):
        yield "%s: %d lines" % (path, len(lines))
    for number, line in enumerate(lines, 1):
        if len(line) >= 100 and not USE.match(line):
            yield "%s:%d: %d columns" % (path, number, len(line))
        code = line.split("--")[0]
        if "/specs/" in path and not USE.match(line) and PROOF.search(code):
            yield "%s:%d: a proof among definitions" % (path, number)


def misfits(path):
    """What rt would find bad in an edit before it reaches the prover: it replaces one text after another, each a line
    or a part of one, and wants it exactly once in the file as it is then."""
    crate = os.path.dirname(os.path.dirname(path))
    name, old, texts = "", "", {}
    with open(path, encoding="utf-8") as edit:
        lines = edit.read().split("\n")
    for line in lines:
        if line.startswith("file: "):
            name = line[len("file: "):]
        elif line.startswith("old: "):
            old = line[len("old: "):]
        elif line.startswith("new:"):
            file = os.path.join(crate, name)
            if not os.path.isfile(file):
                yield "%s: no file %s" % (path, name)
                return
            if file not in texts:
                with open(file, encoding="utf-8") as source:
                    texts[file] = source.read()
            count = texts[file].count(old) if old else 0
            if count != 1:
                yield "%s: %d times in %s: %s" % (path, count, name, old)
                return
            texts[file] = texts[file].replace(old, line[len("new:"):].removeprefix(" "))
            old = ""
    if not texts:
        yield "%s: it replaces nothing" % path


def strays(path, folder):
    """Faults of a list of tests/faults/ whose text doesn't stand on one line of its file alone."""
    with open(path, encoding="utf-8") as source:
        blocks = source.read().strip().split("\n\n")
    for number, block in enumerate(blocks, 1):
        said = dict(line.split(": ", 1) for line in block.split("\n")[1:] if ": " in line)
        file = os.path.join(folder, said.get("file", ""))
        lines = open(file, encoding="utf-8").read().split("\n") if os.path.isfile(file) else []
        count = sum(said.get("old", "\n") in line for line in lines)
        if count != 1:
            yield "%s: fault %d stands on %d lines of %s" % (path, number, count, file)


def main():
    paths = sorted(glob.glob("crates/**/*.antt", recursive=True) + glob.glob("crates/**/*.rt", recursive=True))
    paths = [path for path in paths if path.split("/")[2] != "out"]
    edits = sorted(glob.glob("crates/*/must-fail/*.edit"))
    found = [fault for path in paths for fault in faults(path)] + [fault for path in edits for fault in misfits(path)]
    found += strays("tests/faults/program.txt", "")
    found += strays("tests/faults/library.txt", "reference")
    for fault in found:
        print(fault)
    return 1 if found else 0


sys.exit(main())
