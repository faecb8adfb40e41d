"""A script's calls through the Python module, over as many words as the program lends: `record.py` writes what is handed over
to standard output; `record.py large` does so over the words of the largest desk; `record.py off` makes the calls and records
nothing. Lines that are no call are left out (over 400 bytes only if not large), and opens that aren't a list of jobs.
`record.py text FOLDER SCRIPT..` makes the calls of each script as a text, with little and with much room for answers: they must be
those of the script's file, and leave the words that the calls one by one leave. What is handed over goes to the folder."""
import os
import sys

import sheetdesk
from sheetdesk import Desk, Job, audit


class Named(int):
    """A number that prints as a name, as the members of an IntEnum do in some versions of Python."""

    def __str__(self):
        return "a name"


def call(desk, line):
    """Makes the call of a line, if the module has a form for it."""
    name, *words = line.split(" ")
    if not all(word.isascii() and word.isdigit() and int(word) < 2**32 for word in words):
        return
    numbers = [Named(word) for word in words]
    counts = {"new": 4, "fetch": 2, "evict": 2, "prepare": 1, "step": 2, "explain": 2, "issue": 3, "drop": 1, "look": 3,
              "stale": 1, "admit": 0, "allow": 2, "pick": 0, "mayhold": 2, "maysave": 2, "fork": 1, "join": 1,
              "forecast": 1}
    if name == "open" and len(numbers) % 3 == 1:
        desk.open(numbers[0], [Job(*numbers[place:place + 3]) for place in range(1, len(numbers), 3)])
    elif name == "audit":
        audit(numbers)
    elif name == "look" and len(numbers) == 3:
        desk.look((numbers[0], numbers[1]), numbers[2])
    elif name in ("step", "explain") and len(numbers) == 3:
        getattr(desk, name + "_on")(*numbers)
    elif len(numbers) == counts.get(name):
        getattr(desk, name)(*numbers)


def content(name):
    with open(name, "rb") as file:
        return file.read()


def as_text(folder, name):
    """What is wrong with a script's calls made as a text, or nothing."""
    script, due = content(name), content(name[:-4] + ".out").decode().split("\n")[:-1]
    single = Desk(16384)
    for line, answer in zip(script.split(b"\n"), due):
        if answer != "unread":
            call(single, line.decode("latin-1"))
    logs = []
    for sheetdesk._OUT, text in ((sheetdesk.LINE_ROOM, script), (1 << 16, script.decode("latin-1"))):
        log, desk = [], Desk(16384)
        silent = desk.run(text)
        if silent != due or desk.words() != single.words():
            return "other answers than the program's, or other words than by single calls"
        desk = Desk(16384, log.append)
        if desk.run(text) != due:
            return "recorded, it answers otherwise"
        logs.append("".join(log))
    with open(os.path.join(folder, os.path.basename(name)), "w") as file:
        file.write(logs[0])
    return None if logs[0] == logs[1] else "the log depends on the room for answers"


def main():
    mode = sys.argv[1] if len(sys.argv) > 1 else ""
    if mode == "text":
        wrong = [(name, as_text(sys.argv[2], name)) for name in sys.argv[3:]]
        sys.exit("\n".join("%s: %s" % each for each in wrong if each[1]) or 0)
    desk = Desk(sheetdesk.MOST_WORDS if mode == "large" else 16384)
    if mode != "off":
        desk.record = sys.stdout.write
    for line in sys.stdin.buffer.read().split(b"\n"):
        if len(line) <= 400 or mode == "large":
            call(desk, line.decode("latin-1"))


main()
