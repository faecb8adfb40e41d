"""What the trials of tests/saved.sh share: the three wrappers' programs, the command's tool, desks to begin with, and what a
fault in a file or a bent desk is."""
import array
import os
import random
import shutil
import struct
import subprocess
import sys
import tempfile

sys.path.insert(0, "embed")
import sheetdesk
import sheetdesk_file

ROOT = os.getcwd()
TOOLS = os.path.join(ROOT, "target", "tools")
HISTORY = os.path.join(TOOLS, "history")
WRAPPERS = {
    "C": [os.path.join(TOOLS, "desk_c")],
    "Rust": [os.path.join(TOOLS, "desk_rs")],
    "Python": [sys.executable, os.path.join(ROOT, "tests", "saved", "desk.py")],
}
ENVIRONMENT = dict(os.environ, PYTHONPATH=os.path.join(ROOT, "embed"), PYTHONDONTWRITEBYTECODE="1", LC_ALL="C",
                   ASAN_OPTIONS="verify_asan_link_order=0:detect_leaks=0")
WORK = os.environ.get("WORK") or tempfile.mkdtemp()


def bad(said):
    print("saved: " + said)
    sys.exit(1)


def path(name):
    return os.path.join(WORK, name)


def content(name):
    with open(name, "rb") as file:
        return file.read()


def put(name, what):
    with open(name, "wb") as file:
        file.write(what)
    return name


def run(command, *words, **given):
    """A finished process with its output as text."""
    given.setdefault("env", ENVIRONMENT)
    return subprocess.run([*command, *words], stdout=subprocess.PIPE, stderr=subprocess.STDOUT, **given)


def lines(command, *words, status=0, **given):
    """What a command says, line by line; its status must be that."""
    done = run(command, *words, **given)
    said = done.stdout.decode("latin-1").split("\n")[:-1]
    if done.returncode != status:
        bad("%s: status %d, due %d: %s" % (" ".join([*command, *words])[:200], done.returncode, status, said[-3:]))
    return said


def desk_of(script):
    """The words of the desk that a script's calls leave, on room for any."""
    room = bytearray(4 * sheetdesk.MOST_WORDS)
    desk = sheetdesk.Desk(room)
    desk.run("\n".join(script))
    words = array.array("I", bytes(room))
    return words[: words[9]]


SMALL = ["new 2 2 2 1", "open 0 0 0 0", "step 0 0", "issue 0 0 3", "fetch 0 1"]
# Eight runs, and something everywhere: rivals, a stale shelf, open runs with cards, a broken one; two lines alike and two that
# differ, a run that is joined, and one that a join has broken.
EVERYDAY = ["new 4 3 2 8", "open 0 0 0 0", "step 0 0", "issue 0 0 7", "open 0 0 0 0", "step 0 0", "issue 0 1 8", "fetch 0 3",
            "fetch 1 2", "open 0 0 1 0", "step 0 0",
            "issue 0 1 2", "open 0 1 1 0", "step 0 0", "issue 0 2 6", "fetch 0 0", "open 0 0 1 0 1 2 0", "prepare 0",
            "step 0 0", "open 1 0 1 0 1 8 0", "step 1 0", "open 2 0 0 0", "step 2 0", "issue 2 0 9", "fetch 1 3",
            "explain 1 1", "forecast 1", "step 1 1", "fork 0", "open 3 0 1 0 1 2 0", "fork 3", "step 3 0", "explain 3 1 1", "step 3 1 1",
            "open 4 0 1 0 1 6 0", "prepare 4", "fork 4", "step 4 0", "step 4 1 1", "join 4",
            "open 5 0 1 0 1 1 0", "fork 5", "step 5 0", "step 5 1 1", "join 5"]


def sealed(words, layout=sheetdesk.LAYOUT):
    """The bytes of a file that is whole, whatever its words hold."""
    body = sheetdesk_file.MAGIC + struct.pack("<II", layout, len(words)) + array.array("I", words).tobytes()
    return body + struct.pack("<I", sheetdesk_file.crc32c(body))


def saved(name, script):
    """A file of the desk that a script leaves."""
    return put(path(name), sealed(desk_of(script)))
