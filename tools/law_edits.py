#!/usr/bin/env python3
"""Which law refuses an edit, if no computed example does. Usage: tools/law_edits.py CRATE/LABEL ..

Each edit (crates/CRATE/must-fail/LABEL.edit) is applied to a copy of the repository without the computed examples, and
all crates of the model, of demand 3 and of prepared runs are checked, and for an edit of explain or forecast claims too, with explain below it. Prints the first error, or that all is still proved. Some seconds
for each edit; not part of ./test, where the examples refuse the same edits in their own crates."""
import os
import pathlib
import re
import shutil
import subprocess
import sys
import tempfile

EXAMPLES = [("paths", "Examples"), ("model", "Scripts"), ("layout", "Foreseen"), ("booked", "Examples")]
IMPORT = re.compile(r"^use Rattle\.(\w+)\.proofs\.([\w.]+?)(?:\.\{| as )", re.MULTILINE)


def examples(root):
    """The examples, and every module of proofs that imports one, straight or through others: a set of (crate, name)."""
    imports = {}
    for crate in os.listdir(os.path.join(root, "crates")):
        proofs = pathlib.Path(root, "crates", crate, "proofs")
        for path in proofs.rglob("*.antt"):
            name = ".".join(path.relative_to(proofs).with_suffix("").parts)
            imports[path] = (crate, name), IMPORT.findall(path.read_text(encoding="utf-8"))
    found, size = set(EXAMPLES), 0
    while size < len(found):
        size = len(found)
        found |= {module for module, used in imports.values() if found & set(used)}
    return found


def read_edit(path):
    target, pairs = None, []
    for line in open(path, encoding="utf-8").read().split("\n"):
        if line.startswith("file: "):
            target = line[6:]
        elif line.startswith("old: "):
            pairs.append([line[5:], None])
        elif line.startswith("new:"):
            pairs[-1][1] = line[4:].removeprefix(" ")
    return target, pairs


def without_examples(root):
    gone = sorted(examples(root))
    for crate, name in gone:
        proofs = os.path.join(root, "crates", crate, "proofs")
        os.remove(os.path.join(proofs, *name.split(".")) + ".antt")
    for crate, name in gone:
        # A module is declared by the one above it, if that is left.
        above, _, last = name.rpartition(".")
        path = os.path.join(root, "crates", crate, "proofs", (above or "Lib") + ".antt")
        if os.path.exists(path):
            kept = [l for l in open(path, encoding="utf-8") if l.strip() != "pub mod " + last]
            open(path, "w", encoding="utf-8").writelines(kept)
    print("without", ", ".join("%s/%s" % module for module in gone))


def run(root, crates):
    """Whether these crates and those below them are proved, and all that rt says."""
    outs = [subprocess.run(["rt", "check"], cwd=os.path.join(root, "crates", crate), text=True, stdout=subprocess.PIPE,
                           stderr=subprocess.STDOUT) for crate in crates]
    return not any(out.returncode for out in outs), "".join(out.stdout for out in outs)


def main():
    here = os.path.dirname(os.path.dirname(os.path.abspath(__file__)))
    root = os.path.join(tempfile.mkdtemp(), "copy")
    skip = shutil.ignore_patterns(".git", "target", "must-fail")
    shutil.copytree(here, root, ignore=skip)
    without_examples(root)
    subprocess.run(["git", "init", "-q", root], check=True)
    print("no edit:", "proved" if run(root, ["booked"])[0] else "NOT PROVED")
    for name in sys.argv[1:]:
        crate, label = name.split("/")
        target, pairs = read_edit(os.path.join(here, "crates", crate, "must-fail", label + ".edit"))
        path = os.path.join(root, "crates", crate, target)
        before = text = open(path, encoding="utf-8").read()
        for old, new in pairs:
            assert text.count(old) == 1, (name, old)
            text = text.replace(old, new)
        open(path, "w", encoding="utf-8").write(text)
        proved, said = run(root, ["booked", "claims"] if target.endswith(("Explain.antt", "Forecast.antt")) else ["booked"])
        found = re.search(r"(?m)^(?:\./)?(\S+?\.antt):(\d+):\d+: error: `([^`]*)`", said)
        print("%s: %s" % (name, "still proved" if proved else found.groups() if found else "refused"), flush=True)
        open(path, "w", encoding="utf-8").write(before)
    shutil.rmtree(os.path.dirname(root))


main()
