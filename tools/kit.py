#!/usr/bin/env python3
"""What `rattle`, the prover below `rt`, is told of a crate, as rt tells it by crates.txt: for what
wants more than rt gives, tools/archive.py and tools/refused.py. Usage: tools/kit.py CRATE
compiles a crate and those below it, and proves nothing."""
import functools
import os
import subprocess
import sys

PARTS = ("src", "specs", "proofs")


@functools.lru_cache()
def kit():
    """The kit's folder: `rt doc` names a page in it."""
    said = subprocess.run(["rt", "doc"], stdout=subprocess.PIPE, text=True, check=True)
    return os.path.dirname(said.stdout.strip())


def heads(root):
    """The lines of crates.txt: what stands before the colon, and the libraries behind it."""
    with open(os.path.join(root, "crates.txt"), encoding="utf-8") as lines:
        parts = [line.partition("#")[0].partition(":") for line in lines]
    return [(head.split(), names.split()) for head, colon, names in parts if colon]


def listed(root):
    """The crates of crates.txt, each with the libraries that its line names."""
    return {head[0]: names for head, names in heads(root)}


def is_static(root, name):
    return any(head[0] == name and "staticlib" in head[1:] for head, _ in heads(root))


def below(crates, name):
    """The repository's own libraries below a crate."""
    found = []
    for each in (it for it in crates[name] if it in crates):
        found += [it for it in [*below(crates, each), each] if it not in found]
    return found


def library(root, name):
    return os.path.join(root, "crates", name, "out", "rlib", name + ".rlib")


def words(root, name, sources=False):
    """The words for the crate, but for the command and for what it writes: over the libraries that
    stand in the crates' out/, or over their sources, which are proved by nothing then."""
    crates, at = listed(root), kit()
    is_program = os.path.isfile(os.path.join(root, "crates", name, "src", "main.rt"))
    found = ["--crate-name", name, "src/main.rt" if is_program else "src/lib.rt"]
    found += ["-L", "dependency=%s/rlibs" % at]
    own = below(crates, name)
    of_kit = lambda names: ["std", *(it for it in names if it not in crates)]
    if sources:
        used = {it for each in [name, *own] for it in of_kit(crates[each])}
        for each in sorted({"core", *used}):
            found += ["--extern", "%s=%s/rlibs/%s.rlib" % (each, at, each)]
        for each in own:
            uses = ["core", *of_kit(crates[each]), *(it for it in crates[each] if it in crates)]
            file = "%s/crates/%s/src/lib.rt" % (root, each)
            found += ["--lib", "%s:%s=%s" % (each, ",".join(dict.fromkeys(uses)), file)]
    else:
        for each in of_kit(crates[name]):
            found += ["--extern", "%s=%s/rlibs/%s.rlib" % (each, at, each)]
        for each in (it for it in crates[name] if it in crates):
            found += ["--extern", "%s=%s" % (each, library(root, each))]
        for each in own:
            found += ["-L", "dependency=" + os.path.dirname(library(root, each))]
    found += ["--antt-project", at + "/rattle/logic/antt-project.json"]
    found += ["--logic-built", at + "/logic_built", "--links", name + "="]
    return found + (["--crate-type", "staticlib"] if is_static(root, name) else [])


def main():
    root = os.path.dirname(os.path.dirname(os.path.abspath(__file__)))
    told = [kit() + "/bin/rattle", "check", *words(root, sys.argv[1], sources=True)]
    told += ["--jobs", "1", "--only", ""]
    return subprocess.run(told, cwd=os.path.join(root, "crates", sys.argv[1])).returncode


if __name__ == "__main__":
    sys.exit(main())
