#!/usr/bin/env python3
"""Whether each fault of the edits that must be refused is refused for itself. rt wants a crate
with an edit refused; where one edit plants faults in several functions, each of them must be
refused, and for a fact of its own: a function that isn't proved only because it calls one that
isn't doesn't count, nor does a proof that only fits no more or a rewriting that finds no place. rt
tells only the first line of what the prover says of an edit, so each edit of code is checked here
once more, as rt does it, and all that is said is read.
Usage, after `rt ci` or `rt check`: tools/refused.py [--anew | --log] [CRATE/LABEL..]. Prints what
isn't so and exits 1, or says how many faults there are. What was found is kept below the user's
cache folder, by sums of all that it rests on; --anew tries all, and --log does so too and prints
what the prover says."""
import concurrent.futures
import glob
import hashlib
import os
import re
import shutil
import subprocess
import sys
import tempfile
import threading

sys.dont_write_bytecode = True
import kit

ROOT = os.path.dirname(os.path.dirname(os.path.abspath(__file__)))
CACHE = os.environ.get("XDG_CACHE_HOME") or os.path.expanduser("~/.cache")
KEPT = os.path.join(CACHE, "sheetdesk", "refused")
FAULT = re.compile(r"fault (\w+):")
FUNCTION = re.compile(r"^( *)(?:pub(?:\(crate\))? )?(?:extern \"C\" )?fn (\w+)")
METHODS = re.compile(r"^impl(?:<.*?>)? (?:(\w+)(?:<.*?>)? for )?(\w+)")
PROOF_ERROR = re.compile(
    r"^(?:\./)?proofs/(\S+)/(?:Answers|Invariants|Proof)\.antt:\d+:\d+: error: (.*)"
)
UNPROVED = re.compile(r"^note: (?:\./)?(src/\S+?\.rt):(\d+):\d+: it is not proved that ")
# What a proof file is told when the function's callee has no proof, when its questions are other
# ones, or when a rewriting finds no place in them, and where the prover comes to a limit of its
# own: this doesn't say what is lost.
FOLLOWS = re.compile(
    r"was not admitted|has no `|has no field|is not in scope|expected type `goal\.|"
    r": no occurrence of|antt ran out of |outgrew the memory limit|stopped at the step limit"
)


def read(path):
    with open(path, encoding="utf-8") as source:
        return source.read().split("\n")


def planted(path):
    """The faults of an edit by their labels, the files and lines that each of them changes, and
    the texts that it makes. A text is replaced within its line, so that lines keep their numbers."""
    label, name, old, found, texts = os.path.basename(path)[:-len(".edit")], "", "", {}, {}
    crate = os.path.dirname(os.path.dirname(path))
    for line in read(path):
        if FAULT.match(line):
            label = FAULT.match(line).group(1)
            assert label not in found, "%s: %s twice" % (path, label)
        elif line.startswith("file: "):
            name = line[len("file: "):]
        elif line.startswith("old: "):
            old = line[len("old: "):]
        elif line.startswith("new:"):
            lines = texts.setdefault(name, read("%s/%s" % (crate, name)))
            at = next((i for i, text in enumerate(lines) if old in text), None)
            assert at is not None, "%s: its text isn't in %s: %s" % (path, name, old)
            lines[at] = lines[at].replace(old, line[len("new:"):].removeprefix(" "))
            found.setdefault(label, []).append((name, at))
    return found, texts


def function_at(lines, at):
    """The function that a line stands in, its first and last line, and the types that it may be a
    method of, if any; nothing outside of functions."""
    for start in range(at, -1, -1):
        head = FUNCTION.match(lines[start])
        if head:
            ends = (head.group(1) + "}", head.group(1) + "{}")
            end = next(i for i in range(start, len(lines)) if lines[i].startswith(ends))
            while start > 0 and lines[start - 1].strip().startswith("#["):
                start -= 1
            types = [METHODS.match(line) for line in lines[:start]] if head.group(1) else []
            owner = next((found for found in reversed(types) if found), None)
            # A trait's method stands below the names of type and trait.
            owners = owner and (owner.group(2), owner.group(2) + (owner.group(1) or ""))
            return (head.group(2), start, end, owners) if at <= end else None
    return None


def stands_for(path, name, function, owners):
    """Whether a proof file at a path is that of the function: a method's stands below its type,
    and a function's below the module of its file; a closure's counts as its function's."""
    if "fn" in path:
        of = path.index("fn")
        path = path[:of] + path[of + 1:of + 2]
    if owners:
        return path[-1] == function and len(path) > 1 and path[-2] in owners
    module = os.path.basename(name)[:-len(".rt")]
    return path == ([function] if module in ("lib", "main") else [module, function])


def lost(log, name, function, start, end, owners):
    """Whether a fact of the function is lost: one that its proof file gives, or one that is looked
    for without a file."""
    for line in log:
        error = PROOF_ERROR.match(line)
        if error and not FOLLOWS.search(error.group(2)):
            path = error.group(1).replace("+", "").split("/")
            if stands_for(path, name, function, owners):
                return True
        note = UNPROVED.match(line)
        if note and note.group(1) == name and start <= int(note.group(2)) - 1 <= end:
            return True
    return False


def places(path):
    """By an edit's faults, the functions that each of them changes."""
    crate = os.path.dirname(os.path.dirname(path))
    found = {}
    for fault, lines in planted(path)[0].items():
        of_code = [(name, at) for name, at in lines if name.startswith("src/")]
        each = [(name, function_at(read("%s/%s" % (crate, name)), at)) for name, at in of_code]
        found[fault] = [it for it in each if it[1]]
    return found


def misses(path, log):
    """The faults of an edit that its log doesn't refuse for a fact of their function."""
    found, taken = places(path), set()
    edit = "%s/%s" % (path.split("/")[-3], os.path.basename(path)[:-len(".edit")])
    for fault, each in found.items():
        if not each and len(found) > 1:
            yield "%s: %s: in no function" % (edit, fault)
        elif taken.intersection(each):
            yield "%s: %s: a second fault of %s" % (edit, fault, each[0][1][0])
        elif each and not any(lost(log, name, *function) for name, function in each):
            yield "%s: %s: no fact of %s is lost" % (edit, fault, each[0][1][0])
        taken.update(each)


def check(crate, texts, over):
    """The status of a check of a crate with these texts in place of its own, and what the prover
    says. It begins with what it proved of the crate before, in the folder `over`, and leaves there
    what it proves now."""
    with tempfile.TemporaryDirectory(prefix="refused-") as room:
        for part in kit.PARTS:
            if os.path.isdir("%s/%s" % (crate, part)):
                shutil.copytree("%s/%s" % (crate, part), "%s/%s" % (room, part))
        for name, lines in texts.items():
            with open("%s/%s" % (room, name), "w", encoding="utf-8") as file:
                file.write("\n".join(lines))
        name = os.path.basename(crate)
        words = [kit.kit() + "/bin/rattle", "check", *kit.words(ROOT, name)]
        words += ["--jobs", "1", "--incremental", over]
        how = {"stdin": subprocess.DEVNULL, "stdout": subprocess.PIPE, "errors": "replace"}
        how["stderr"] = subprocess.STDOUT
        # One that was killed, most likely for memory, is tried once more.
        for _ in range(2):
            ran = subprocess.run(words, cwd=room, **how)
            if ran.returncode >= 0:
                break
        return ran.returncode, ran.stdout.split("\n")


def linked(one, other):
    """Gives a file a second name: the prover replaces such a file, and changes none."""
    try:
        return os.link(one, other)
    except OSError:
        return shutil.copy2(one, other)


class Crate:
    """The edits of a crate that have to be tried, over one check of the crate as it stands; one
    edit alone from nothing."""

    def __init__(self, folder, base, number):
        self.folder, self.base, self.lock, self.proved = folder, base, threading.Lock(), None
        if number == 1:
            os.makedirs(base)
            self.proved = True

    def seed(self):
        with self.lock:
            if self.proved is None:
                os.makedirs(self.base)
                self.proved = check(self.folder, {}, self.base)[0] == 0
        return self.proved

    def tried(self, path, number):
        """The misses of an edit."""
        if not self.seed():
            return ["%s: not proved over what stands in out/: rt ci, or rt check" % self.folder]
        over = "%s-%d" % (self.base, number)
        shutil.copytree(self.base, over, copy_function=linked)
        try:
            status, log = check(self.folder, planted(path)[1], over)
        finally:
            shutil.rmtree(over, ignore_errors=True)
        if "--log" in sys.argv:
            print("== %s" % path, *log, sep="\n", flush=True)
        if status not in (1, 3):
            return ["%s: nothing refused, exit status %d: %s" % (path, status, log[0])]
        return list(misses(path, log))


def sum_of(folder):
    """A sum of all that a check of the crate reads."""
    name = os.path.basename(folder)
    crates = kit.listed(ROOT)
    with open(__file__, "rb") as own:
        version = subprocess.run(["rt", "version"], stdout=subprocess.PIPE, check=True).stdout
        said = [own.read(), version, crates[name]]
    for each in kit.below(crates, name):
        path = kit.library(ROOT, each) + "/format"
        assert os.path.isfile(path), "%s isn't built: rt ci, or rt check" % each
        said.append((each, read(path)))
    for part in kit.PARTS:
        for path in sorted(glob.glob("%s/%s/**" % (folder, part), recursive=True)):
            if os.path.isfile(path):
                with open(path, "rb") as source:
                    said.append((os.path.relpath(path, folder), source.read()))
    return hashlib.sha256(repr(said).encode()).hexdigest()


def place_of(path, sum):
    with open(path, "rb") as edit:
        said = repr((sum, os.path.basename(path), edit.read()))
    return os.path.join(KEPT, hashlib.sha256(said.encode()).hexdigest())


def keep(place, found):
    os.makedirs(KEPT, exist_ok=True)
    with tempfile.NamedTemporaryFile("w", dir=KEPT, delete=False, encoding="utf-8") as file:
        file.write("".join(line + "\n" for line in found))
    os.replace(file.name, place)


def lanes():
    """How many checks at a time: one a processor, and 3 GB for each."""
    with open("/proc/meminfo", encoding="utf-8") as said:
        free = next(int(line.split()[1]) for line in said if line.startswith("MemAvailable:"))
    return max(1, min(len(os.sched_getaffinity(0)), free // 3000000))


def main():
    os.chdir(ROOT)
    names = [it for it in sys.argv[1:] if it not in ("--anew", "--log")]
    is_anew = len(names) < len(sys.argv) - 1
    edits = sorted(glob.glob("crates/*/must-fail/*.edit"))
    if names:
        edits = ["crates/%s/must-fail/%s.edit" % tuple(name.split("/")) for name in names]
    missed, left, kept = [], [], 0
    sums = {}
    for path in edits:
        found = places(path)
        if len(found) == 1 and not any(found.values()):
            # Of a definition, a table or a proof: it stands alone, and rt ci has refused it.
            continue
        folder = os.path.dirname(os.path.dirname(path))
        sums[folder] = sums.get(folder) or sum_of(folder)
        place = place_of(path, sums[folder])
        if os.path.isfile(place) and not is_anew:
            missed += [line for line in read(place) if line]
            kept += 1
        else:
            left.append((folder, path, place))
    pool = concurrent.futures.ThreadPoolExecutor(lanes())
    with tempfile.TemporaryDirectory(prefix="refused-") as room, pool:
        crates, order = {}, {}
        for folder, path, _ in left:
            of_crate = [it[1] for it in left if it[0] == folder]
            order[path] = of_crate.index(path)
            base = "%s/%s" % (room, os.path.basename(folder))
            crates[folder] = crates.get(folder) or Crate(folder, base, len(of_crate))
        # The first edits of all crates, then the second ones: a crate's edits wait for its check.
        left.sort(key=lambda it: order[it[1]])
        runs = [pool.submit(crates[folder].tried, path, order[path]) for folder, path, _ in left]
        for (_, _, place), run in zip(left, runs):
            found = run.result()
            missed += found
            if not any("exit status" in line or ": not proved over" in line for line in found):
                keep(place, found)
    for miss in missed:
        print(miss)
    if not missed:
        faults = sum(len(planted(path)[0]) for path in edits)
        print("refused: %d faults in %d edits; of %d edits of code, %d were tried before"
              % (faults, len(edits), len(left) + kept, kept))
    return 1 if missed else 0


sys.exit(main())
