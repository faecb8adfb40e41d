#!/usr/bin/env python3
"""Builds the static library sheetdesk_c over the libraries that `rt ci` has left, as `rt ci` proves:
it from nothing, and its libraries by their statements. `rt lib` would prove them all once more.
Usage, right after an `rt ci` in a checkout without any out/: tools/archive.py [CRATE]. Exits 1
where it isn't proved, and 2 where a library is none of `rt ci`."""
import os
import subprocess
import sys

sys.dont_write_bytecode = True
import kit


def main():
    root = os.path.dirname(os.path.dirname(os.path.abspath(__file__)))
    name = sys.argv[1] if len(sys.argv) > 1 else "sheetdesk_c"
    for each in kit.below(kit.listed(root), name):
        made = os.path.dirname(kit.library(root, each))
        if not os.path.isdir(kit.library(root, each)) or os.path.exists(made + "/stamp"):
            print("archive: %s isn't as rt ci leaves it: take rt lib" % each)
            return 2
    folder = os.path.join(root, "crates", name)
    os.makedirs(folder + "/out", exist_ok=True)
    at = kit.kit()
    words = [at + "/bin/rattle", "build", *kit.words(root, name)]
    words += ["--jobs", str(min(4, len(os.sched_getaffinity(0))))]
    words += ["--toolchain", at + "/toolchain", "--backend", "llvm", "-o", "out/lib%s.a" % name]
    return 1 if subprocess.run(words, cwd=folder, stdin=subprocess.DEVNULL).returncode else 0


sys.exit(main())
