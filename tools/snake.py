#!/usr/bin/env python3
"""Turns the repository's own definitions and lemmas to snake case, with a dash only between two names.

usage: python3 tools/snake.py [--list]     at the top of the repository, once, after port.py

It reads what crates/*/specs and crates/*/proofs declare, and rewrites those names in .antt and .rt files.
Names of src/, of the library and of what Rattle makes of src/ are left. Where two names would
fall together the lemma gets `_lem`.
"""
import collections
import os
import re
import subprocess
import sys

WORD = re.compile(r"[^\s(){}\[\],;.:\"`⌜⌝⟦⟧⦃⦄=|&<>!?/\\+*%^~@#$]+")
DECLARED = re.compile(
    r"^\s*(?:(?:pub|abbrev|unfoldable|data|record)\s+)*([^\s(){}\[\],;.:=]+)(?:\s+\{[^}]*\})*(?:\s+\([^)]*\))*\s+:(?:\s|$)"
)
SHORT = re.compile(r"^[a-z][A-Za-z0-9_'′-]*$")


def files(ending):
    for top, dirs, names in os.walk("crates"):
        dirs[:] = sorted(d for d in dirs if d != "out")
        for n in sorted(names):
            if n.endswith(ending):
                yield os.path.join(top, n)


def read(p):
    with open(p, encoding="utf-8") as f:
        return f.read()


def library():
    """Names that the library declares: those stay."""
    found = set()
    page = subprocess.run(["rt", "doc"], stdout=subprocess.PIPE, check=True, text=True).stdout
    kit = os.path.dirname(os.path.realpath(page.strip().splitlines()[-1]))
    for top in ("rattle/std", "rattle/core", "rattle/std_alloc", "rattle/logic", "rattle/antt"):
        for above, _, names in os.walk(os.path.join(kit, top)):
            for n in names:
                if n.endswith(".antt"):
                    for line in read(os.path.join(above, n)).splitlines():
                        m = DECLARED.match(line)
                        if m:
                            found.add(m[1])
    return found


def snake(word):
    return re.sub(r"(?<=[a-z0-9])([A-Z])", lambda m: "_" + m[1].lower(), word)


def main():
    declared, words, lemma = set(), set(), collections.Counter()
    for p in files(".antt"):
        function = "/proofs/" in p and p.endswith(("/Proof.antt", "/Answers.antt", "/Invariants.antt"))
        for line in read(p).splitlines():
            if line.lstrip().startswith("--"):
                continue
            m = DECLARED.match(line)
            if m and not function and SHORT.match(m[1]):
                declared.add(m[1])
                if "/specs/" in p:
                    words.add(m[1])
    std = library()
    heads = words | {w for w in declared if "-" not in w} | {w for w in std if "-" not in w}
    source = set()
    for p in files(".rt"):
        source |= set(re.findall(r"\bfn (\w+)", read(p)))
        source |= set(re.findall(r"\blet (?:mut )?(\w+)", read(p)))
    # What a new name may not meet: another name of a proof or a definition (a path to a function's proof is none),
    # and a parameter, a local or a field of a source file in which the old name stands.
    tokens, locals_of = set(), {}
    for p in files(".antt"):
        text = re.sub(r"--.*", "", read(p))
        for m in WORD.finditer(text):
            if m.start() and text[m.start() - 1] == ".":
                continue
            tokens.add(m[0])
    for p in files(".rt"):
        text = read(p)
        text = re.sub(r"//.*", "", text)
        here = set(re.findall(r"(\w+)\s*:", text)) | set(re.findall(r"\blet (?:mut )?(\w+)", text))
        for w in set(WORD.findall(text)):
            locals_of.setdefault(w, set()).update(here)

    def turned(name):
        parts = [snake(x) for x in name.replace("′", "'").split("-")]
        raw = name.split("-")
        out = parts[0]
        for i in range(1, len(parts)):
            # A dash stays between two names of words.
            both = raw[i - 1] in heads and raw[i] in heads and len(raw[i - 1]) > 1 and len(raw[i]) > 1
            out += ("-" if both else "_") + parts[i]
        return out

    table, taken = {}, {}
    order = sorted(declared, key=lambda n: (n not in words, "-" in n, n))
    for name in order:
        if name in std or name.startswith("«"):
            continue
        new = turned(name)
        if new == name:
            continue
        met = lambda n: n in tokens or n in taken or n in std or n in locals_of.get(name, ())
        if name in words and new in declared and new not in words and new not in taken and new not in std:
            # A lemma that has the name of a word gives way.
            lem = new + "_lem"
            if not met(lem) and new not in locals_of.get(name, ()):
                table[new] = lem
                taken[lem] = new
                taken[new] = name
                table[name] = new
                print(f"gives way: {new} -> {lem}", file=sys.stderr)
                continue
        if met(new):
            alone = new
            new = new + ("_at" if new.endswith("_of") else "_of" if name in words else "_lem")
            if met(new):
                new = name
            print(f"together: {name} -> {alone}: {new}", file=sys.stderr)
            if new == name:
                continue
        table[name] = new
        taken[new] = name
    dashed = {s.replace("_", "-") for s in source if "_" in s}
    if "--list" in sys.argv:
        for a, b in sorted(table.items()):
            print(a, b)
        return

    def turn(text, function):
        def one(m):
            w = m[0]
            if w not in table:
                return w
            before = text[m.start() - 1] if m.start() else ""
            # A step of a function's proof is named by Rattle, after the source.
            if function and before == "." and "-" in w and w in dashed:
                return w
            return table[w]

        return WORD.sub(one, text)

    for ending in (".antt", ".rt"):
        for p in files(ending):
            text = read(p)
            new = turn(text, p.endswith("/Proof.antt"))
            if new != text:
                with open(p, "w", encoding="utf-8") as f:
                    f.write(new)


main()
