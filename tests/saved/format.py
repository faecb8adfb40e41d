"""The files' format: sums, the same bytes by all, every byte flipped, every length cut, and what isn't admitted with its cause."""
import glob
import random

from common import *
import sheetdesk_why

# RFC 3720, B.4, and the usual check of "123456789".
VECTORS = [(b"123456789", 0xE3069283), (bytes(32), 0x8A9136AA), (b"\xff" * 32, 0x62A8AB43), (bytes(range(32)), 0x46DD794E),
           (bytes(range(31, -1, -1)), 0x113FDB5C), (b"", 0),
           (bytes.fromhex("01c00000" + "00" * 12 + "14000000" "00000400" "00000014" "00000018" "28000000" + "00" * 4 + "02000000"
                          + "00" * 4), 0xD9963A56)]


def sums():
    for text, due in VECTORS:
        for name, command in WRAPPERS.items():
            got = lines(command, "sum", input=text)
            if got != ["%08x" % due]:
                bad("%s: the sum of %r is %s, due %08x" % (name, text[:12], got, due))


def same():
    """Golden scripts' desks: each wrapper writes the same bytes, and loads what another wrote."""
    tried = 0
    for script in sorted(glob.glob("scripts/*.txt")) + [None]:
        calls = content(script).decode("latin-1").split("\n") if script else ["new 32 16 8 8", *EVERYDAY[1:]]
        words = desk_of(calls)
        if not words:
            continue
        tried += 1
        one = put(path("one"), sealed(words))
        some = WRAPPERS.items() if tried % 8 == 1 or not script else list(WRAPPERS.items())[:2]
        for name, command in some:
            lines(command, "save", one, path("other"))
            if content(path("other")) != sealed(words):
                bad("%s: other bytes, of %s" % (name, script))
    if tried < 80:
        bad("only %d golden scripts leave a desk" % tried)


def damaged():
    """Every byte flipped in turn, in nine ways, every length cut, and bytes behind the end: never taken, never a crash."""
    whole = content(saved("whole", SMALL))
    faults = [whole[:at] + bytes([whole[at] ^ bits]) + whole[at + 1:] for at in range(len(whole))
              for bits in [1 << bit for bit in range(8)] + [255]]
    faults += [whole[:size] for size in range(len(whole))] + [whole + bytes(more) for more in (1, 4, 4096)]
    faults += [whole + whole, b"", sealed([]), sealed([0] * 9), sealed([2, 2, 2, 1]), sealed([0] * sheetdesk.words(2, 2, 2, 1))]
    paths = [put(path("d%d" % number), fault) for number, fault in enumerate(faults)]
    said = {}
    room = put(path("room"), sealed(desk_of(["new 32 16 8 8"])))
    if lines(WRAPPERS["C"], "load", room) != ["%d words, and 4096 are lent" % sheetdesk.MOST_WORDS]:
        bad("C: a desk with more words than are lent")
    for name, command in WRAPPERS.items():
        said[name] = [line for at in range(0, len(paths), 1000) for line in lines(command, "load", *paths[at:at + 1000])]
        if len(said[name]) != len(faults):
            bad("%s: %d answers to %d damaged files" % (name, len(said[name]), len(faults)))
        taken = [number for number, line in enumerate(said[name]) if line.startswith("ok")]
        if taken:
            bad("%s: damaged file %d of %d is taken: %s" % (name, taken[0], len(faults), said[name][taken[0]]))
    differs(said, "damaged file")
    odd = [path("folder"), path("pipe"), put(path("vast"), sheetdesk_file.MAGIC + struct.pack("<II", sheetdesk.LAYOUT, 2**24))]
    os.mkdir(odd[0])
    os.mkfifo(odd[1])
    os.truncate(odd[2], 20 + 4 * 2**24)
    told = {name: lines(command, "load", *odd) for name, command in WRAPPERS.items()}
    due = ["can't be read: it isn't a regular file"] * 2 + ["too large: 67108884 bytes, and no desk has over 67108864"]
    if any(said != due for said in told.values()):
        bad("a folder, a pipe and a file that is too large: %s" % told)
    kinds = {line.split(":")[0] for line in said["C"]}
    due = {"no saved desk", "too short", "trailing bytes", "wrong sum", "not in form (1)"}
    if kinds != due:
        bad("damaged files are told as %s" % sorted(kinds))
    for name in paths:
        os.unlink(name)


def differs(said, what):
    for number, (one, *others) in enumerate(zip(*said.values())):
        if any(other != one for other in others):
            bad("%s %d: %s" % (what, number, " / ".join([one, *others])))


def layouts():
    """A file of another layout, whole: both are named, and where it says how to go on."""
    for other in (sheetdesk.LAYOUT - 1, sheetdesk.LAYOUT + 1):
        name = put(path("layout"), sealed(desk_of(SMALL), other))
        due = "saved in layout %d, and this library has layout %d: its log" % (other, sheetdesk.LAYOUT)
        for wrapper, command in WRAPPERS.items():
            said = lines(command, "load", name)
            if not said[0].startswith(due):
                bad("%s: a file of layout %d: %s" % (wrapper, other, said))


def bent(words, draw):
    """The words with some changed: small steps, so that many stay in form."""
    words = array.array("I", words)
    if draw.random() < 0.3:
        at = sheetdesk_why.Places(words)
        start = at.start(draw.choice(list(at.all()))) + draw.randrange(at.sheets) * at.version
        words[start:start + at.version] = array.array("I", [0] * at.version)
    for _ in range(draw.choice((0, 1, 1, 1, 2, 3))):
        at = draw.choice((4, draw.randrange(10, len(words)), draw.randrange(10, len(words))))
        words[at] = max(0, words[at] + draw.choice((-2, -1, 1, 1, 2)))
    return words


def causes():
    """Bent desks: each wrapper has the library's verdict, and the same cause; and each kind of cause was met."""
    draw, whole = random.Random(40), desk_of(EVERYDAY)
    desks = [bent(whole, draw) for _ in range(2500)]
    paths = [put(path("b%d" % number), sealed(words)) for number, words in enumerate(desks)]
    said = {name: lines(command, "load", *paths) for name, command in WRAPPERS.items()}
    differs(said, "bent desk")
    for number, words in enumerate(desks):
        verdict, line = str(sheetdesk.Desk(words).admit()), said["C"][number]
        due = {"ok 0": "ok %d" % words[4], "refused 1": "not in form (1): ", "refused 11": "not admitted (11): "}[verdict]
        if not line.startswith(due) or "no cause was found" in line:
            bad("bent desk %d: the library answers %s, and it is told as %s" % (number, verdict, line))
    for words in ("ok ", "no causal cut", "the shelf of office 1 is no", "the card of line 0 of run 0 is no", "cut of its run's plan",
                  "the card of line 1 of run 3 is no", "isn't held", "doesn't cover", "the past of writer", "has count",
                  "the last issue number", "no version of sheet", "a run, a shelf's mark", "and its line 1 isn't empty", "has mark 3",
                  "line 0 of run 4 has read", "line 1 of run 3 has read"):
        if not any(words in line for line in said["C"]):
            bad("no bent desk is told with '%s'" % words)
    for name in paths:
        os.unlink(name)


def by_hand():
    """Causes worked out by hand, on a desk where sheet 1 was drawn against sheet 0 and office 0 holds both."""
    words = desk_of(["new 2 1 1 1", "open 0 0 0 0", "step 0 0", "issue 0 0 1", "open 0 0 1 0", "step 0 0", "issue 0 0 2",
                     "fetch 0 1", "open 0 0 3 0", "prepare 0"])
    size, shelf, writer, card = (words[6] - words[5]) // 2, words[6], words[7], words[8] + 28
    cases = [
        ({4: 1}, "the last issue number is 1, and the master has sheet 1 with 2"),
        ({4: 0}, "the last issue number is 0, and the master has sheet 0 with 1"),
        ({writer: 1}, "writer 0 has count 1, and the master's own row of sheet 1 has 2 of that writer"),
        ({writer + 1: 2}, "the master's own row of sheet 0 is (1), and doesn't cover (2), which the past of writer 0 keeps"),
        ({shelf + size - 2: 2, 10 + size - 2: 2, writer: 1},
         "writer 0 has count 1, and the master's own row of sheet 0 has 2 of that writer"),
        ({shelf + place: 0 for place in range(size)},
         "the shelf of office 0 is no causal cut: sheet 1 needs sheet 0 at (1), which isn't held"),
        ({card + place: 0 for place in range(size)},
         "the card of line 0 of run 0 is no cut of its run's plan: sheet 1 needs sheet 0 at (1), which isn't held"),
        ({shelf + 2 * size - 2: 2},
         "the shelf of office 0 is no causal cut: sheet 1 needs sheet 0 at (2), which is at (1)"),
        ({10 + 2 * size - 2: 2}, "the master is no causal cut: sheet 1 needs sheet 0 at (2), which is at (1)"),
        ({card + size - 1: 3}, "the card of line 0 of run 0 is no cut of its run's plan: sheet 0 needs sheet 1 at (3), which is at (2)"),
    ]
    for changes, due in cases:
        told("by hand", words, changes, "not admitted (11): " + due)


def told(what, words, changes, due):
    """What each wrapper says of a desk with some words changed."""
    words = array.array("I", words)
    for place, word in changes.items():
        words[place] = word
    name = put(path("hand"), sealed(words))
    for wrapper, command in WRAPPERS.items():
        said = lines(command, "load", name)
        if said != [due]:
            bad("%s, %s, %s: %s, due %s" % (what, wrapper, changes, said, due))


# Change request 10, example 9: a run that is forked, with sheet 1 on the card of line 1, and not sheet 0, which it needs.
FORKED = [2, 1, 1, 1, 2, 10, 18, 28, 31, 80, *[1, 1, 1, 0, 2, 1, 1, 2], *[0] * 8, 0, 2, 2, 1, 2, *[1, 1, 0, 0, 0, 3, 0], *[0] * 21,
          *[0] * 8, 1, 0, *[0, 0, 0, 0, 2, 1, 1, 2], 0, 3, 3]
MENDED = {69: 1, 70: 1, 71: 1}


def second_lines():
    """What is asked of line 1: admission by its card alone, and the form of mark and line."""
    cut = "not admitted (11): the card of line 1 of run 0 is no cut of its run's plan: sheet 1 needs sheet 0 at (1), which "
    cases = [
        ({}, cut + "isn't held"), ({**MENDED, 75: 2}, cut.replace("(1),", "(2),") + "is at (1)"), (MENDED, "ok 2"), ({36: 2}, "ok 2"),
        ({**MENDED, 76: 3}, "not admitted (11): the master's own row of sheet 1 is (2), and doesn't cover (3), which the card of line 1 "
         "of run 0 keeps with sheet 1"),
        ({**MENDED, 73: 9}, "not admitted (11): the last issue number is 2, and the card of line 1 of run 0 has sheet 1 with 9"),
        ({74: 0}, "not in form (1): the card of line 1 of run 0 has no version of sheet 1 that is in form"),
        ({67: 0}, "not in form (1): run 0 has mark 0, and its line 1 isn't empty"),
        ({67: 2}, "not in form (1): run 0 has mark 2, and its line 1 isn't empty"),
        ({67: 3}, "not in form (1): run 0 has mark 3"),
        ({68: 1}, "not in form (1): line 1 of run 0 has read sheet 0, which its card lacks"),
        ({34: 2}, "not in form (1): line 0 of run 0 has read sheet 1, which its card lacks"),
        ({68: 2}, "not in form (1): a run, a shelf's mark, an allowance or a right isn't in form"),
    ]
    for changes, due in cases:
        told("line 1", FORKED, changes, due)


trials = [globals()[name] for name in sys.argv[1:]] or [sums, same, damaged, layouts, causes, by_hand, second_lines]
for trial in trials:
    trial()
print("saved: sums, the same bytes in C, Rust and Python, damaged files, other layouts, causes")
