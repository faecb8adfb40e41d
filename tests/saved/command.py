"""The command on saved desks: answers as the program's, in one start or several; what isn't admitted; the lock; eight at once."""
import fcntl
import glob
import time

from common import *

COMMAND = [os.path.join(ROOT, "sheetdesk")]


def untouched(name, before):
    """The file is as it was, and nothing but the lock was left beside it."""
    beside = set(glob.glob(name + "*")) - {name, name + ".lock"}
    if content(name) != before or beside:
        bad("%s was touched, or %s is left" % (name, beside))


def golden():
    """Golden scripts: word for word the program's answers, with its room; whole, and in three parts with a file between them."""
    parted = 0
    for script in sorted(glob.glob("scripts/*.txt")):
        calls, due = content(script), content(script[:-4] + ".out")
        said = run([HISTORY, "desk", path("golden"), "16384"], input=calls)
        if said.returncode != 0 or said.stdout != due:
            bad("%s on a saved desk: other answers than the program's" % script)
        for name in glob.glob(path("golden*")):
            os.unlink(name)
        split, answers = calls.splitlines(keepends=True) if b"\r" not in calls else [calls], b""
        for part in (split[:len(split) // 3], split[len(split) // 3:len(split) // 2], split[len(split) // 2:]):
            said = run([HISTORY, "desk", path("golden"), "16384"], input=b"".join(part))
            answers += said.stdout
            parted += os.path.exists(path("golden"))
        if answers != due:
            bad("%s in three parts: other answers than the program's" % script)
        for name in glob.glob(path("golden*")):
            os.unlink(name)
    if parted < 200:
        bad("only %d parts of golden scripts left a desk" % parted)


def starts():
    """The command itself: a script, standard input, --strict and --echo, desks that the program has no room for."""
    file = path("tower.desk")
    if lines(COMMAND, "--desk", file, "scripts/case-a.txt") != content("scripts/case-a.out").decode().split("\n")[:-1]:
        bad("--desk: other answers to case A")
    before = content(file)
    if lines(COMMAND, "--desk", file, input=b"look 0 0 1\nstale 0") != ["ok 2 2 1 1 0", "ok 0"] or content(file) != before:
        bad("--desk: the desk isn't there at the next start, or a look changes it")
    moved = os.stat(file).st_mtime_ns
    lines(COMMAND, "--desk", file, input=b"step 0 0\nnonsense\n")
    if os.stat(file).st_mtime_ns != moved:
        bad("--desk saves a desk that no call has changed")
    said = lines(COMMAND, "--desk", file, "--echo", input=b"drop 0\nfetch 0 7\n")
    if said != ["1: drop 0 -> ok 0", "2: fetch 0 7 -> refused 3: there is no such office or sheet"] or content(file) == before:
        bad("--desk --echo: %s" % said)
    said = lines(COMMAND, "--strict", "--desk", file, "scripts/case-a.txt", status=1)
    if said[-1] != "sheetdesk: line 10: step 0 1 -> refused 6: the job is done already, or one that it waits for is not done":
        bad("--desk --strict: %s" % said[-1])
    if lines(COMMAND, "--desk", path("large.desk"), input=b"new 32 16 8 8\n") != ["ok %d" % sheetdesk.MOST_WORDS]:
        bad("--desk: no room for the largest desk")
    if lines(COMMAND, "--desk", path("none.desk"), input=b"fetch 0 0\n") != ["refused 1"] or os.path.exists(path("none.desk")):
        bad("--desk: a desk where there is none")


def checks():
    """What --check tells."""
    due = ["%s: layout %d, %d words" % (path("day"), sheetdesk.LAYOUT, len(desk_of(EVERYDAY))),
           "sheets 4, writers 3, offices 2, runs 8, last issue 5", "master: 0 1 2 3", "office 0: 0 1 2 3; stale: 0 1 2 3",
           "office 1: 0 1 2 3; stale: 1 2", "run 0: open, forked, 1 of 2 jobs done", "run 1: broken, 1 of 2 jobs done",
           "run 2: free", "run 3: open, forked, 2 of 2 jobs done", "run 4: open, joined, 2 of 2 jobs done",
           "run 5: broken, forked, 2 of 2 jobs done", "run 6: free", "run 7: free", "admitted"]
    said = lines(COMMAND, "--check", saved("day", EVERYDAY))
    if said != due:
        bad("--check: %s" % said)
    words = desk_of(EVERYDAY)
    words[4] = 1
    said = lines(COMMAND, "--check", put(path("day"), sealed(words)), status=1)
    if said[1:-2] != ["sheets 4, writers 3, offices 2, runs 8, last issue 1", *due[2:-1]] or \
            said[-2] != "not admitted (11): the last issue number is 1, and the master has sheet 0 with 5":
        bad("--check of a desk that isn't admitted: %s" % said)
    said = lines(COMMAND, "--check", put(path("day"), sealed(words)[:-1]), status=1)
    if not said[-1].startswith("not taken: too short: "):
        bad("--check of a file that is cut: %s" % said)
    if "can't be read" not in lines(COMMAND, "--check", path("nowhere"), status=2)[0]:
        bad("--check of a file that isn't there")
    for wrong in (["--check"], ["--desk"], ["--check", path("day"), "scripts/case-a.txt"], ["--desk", "a", "--replay", "b"],
                  ["--check", path("day"), "--echo"], ["--desk", "a", "--histories"], ["--desk", "a", "--json"]):
        lines(COMMAND, *wrong, status=2, input=b"")


def refused():
    """What isn't taken: status 2, no answer, the file untouched; and answers that nobody takes."""
    words = desk_of(EVERYDAY)
    words[4] = 1
    for name, what in (("bent", sealed(words)), ("cut", sealed(words)[:-1]), ("text", b"new 2 2 2 1\n"), ("empty", b""),
                       ("older", sealed(desk_of(SMALL), sheetdesk.LAYOUT - 1))):
        file = put(path(name), what)
        for more in ([], ["--echo"]):
            said = lines(COMMAND, "--desk", file, *more, "scripts/case-a.txt", status=2)
            if len(said) != 1 or not said[0].startswith("sheetdesk: %s: " % file):
                bad("--desk of a file that isn't taken, %s: %s" % (name, said))
        untouched(file, what)
    file = saved("taken", SMALL)
    before = content(file)
    with open("/dev/full", "wb") as full:
        done = subprocess.run([*COMMAND, "--desk", file], input=b"evict 0 0\n", stdout=full, stderr=subprocess.PIPE, env=ENVIRONMENT)
    if done.returncode != 2 or b"is as it was" not in done.stderr:
        bad("--desk with a full disk for its answers: %s" % done.stderr)
    untouched(file, before)
    done = run(["bash", "-c", '"$@" < <(yes "evict 0 0") | head -n 1; exit ${PIPESTATUS[0]}', "bash"], *COMMAND, "--desk", file)
    if done.returncode != 141 or not done.stdout.startswith(b"ok "):
        bad("--desk to head: %d %s" % (done.returncode, done.stdout))
    untouched(file, before)
    cut_off(file, before)


def cut_off(file, before):
    """With --strict and --echo too: a script that can't be read to its end, one whose answers nobody takes, and a command that is ended."""
    for more in ("--strict", "--echo"):
        said = lines(COMMAND, "--desk", file, more, "/proc/self/mem", status=2)
        if said[-1] != "sheetdesk: %s is as it was: the script wasn't read to its end" % file:
            bad("--desk %s of a script that fails in a read: %s" % (more, said))
        untouched(file, before)
        ended = subprocess.Popen([*COMMAND, "--desk", file, more], stdin=subprocess.PIPE, stdout=subprocess.PIPE, stderr=subprocess.PIPE,
                                 env=ENVIRONMENT)
        ended.stdin.write(b"evict 0 0\n")
        ended.stdin.flush()
        if b"ok 3" not in ended.stdout.readline():
            bad("--desk %s doesn't answer at once" % more)
        ended.terminate()
        if ended.wait() != 143 or b"the script wasn't read to its end" not in ended.communicate()[1]:
            bad("--desk %s that is ended: status %d" % (more, ended.returncode))
        untouched(file, before)
    put(path("long"), b"evict 0 0\n" + b"look 0 0 0\n" * 300000)
    done = run(["bash", "-c", '"$@" | head -n 1; exit ${PIPESTATUS[0]}', "bash"], *COMMAND, "--desk", file, "--echo", path("long"))
    if done.returncode != 141 or not done.stdout.startswith(b"1: evict 0 0 -> ok 3\n"):
        bad("--desk --echo to head: %d %s" % (done.returncode, done.stdout[-200:]))
    untouched(file, before)


def locks():
    """A second start waits, and says so; and fails if it has waited long enough."""
    file = saved("locked", SMALL)
    with open(file + ".lock", "w") as held:
        fcntl.flock(held, fcntl.LOCK_EX)
        said = lines(COMMAND, "--desk", file, status=2, input=b"evict 0 0\n", env=dict(ENVIRONMENT, SHEETDESK_WAIT="0"))
        if said != ["sheetdesk: %s: not locked: another process has it" % file]:
            bad("a lock that another has: %s" % said)
        waits = subprocess.Popen([*COMMAND, "--desk", file], stdin=subprocess.PIPE, stdout=subprocess.PIPE, stderr=subprocess.PIPE,
                                 env=ENVIRONMENT)
        if b"waiting for it" not in waits.stderr.readline() or waits.poll() is not None:
            bad("a second start doesn't wait")
    if waits.communicate(b"evict 0 0\n")[0] != b"ok 3\n" or waits.returncode != 0:
        bad("a second start doesn't go on when the first one has ended")
    said = lines(WRAPPERS["C"], "load", file)
    if said != ["ok 1"]:
        bad("the desk after both: %s" % said)


def eight():
    """Eight processes on one desk, by the command and all wrappers: no call lost, none done twice."""
    file, count, running = saved("many", ["new 4 3 2 8"]), 15, []
    for run_number, name in enumerate(("command", "C", "Rust", "Python", "command", "C", "Rust", "command")):
        if name == "command":
            script = "for i in $(seq %d); do printf 'open %d 0 0 0\\nstep %d 0\\nissue %d 1 1\\n' | %s desk %s | tail -n 1; done" % (
                count, run_number, run_number, run_number, HISTORY, file)
            words = ["bash", "-c", script]
        else:
            words = [*WRAPPERS[name], "adds", file, str(run_number), str(count)]
        running.append(subprocess.Popen(words, stdout=subprocess.PIPE, stderr=subprocess.DEVNULL, env=ENVIRONMENT))
    told = [int(word.split(b" ")[-1]) for process in running for word in process.communicate()[0].split(b"\n")[:-1]]
    if any(process.returncode != 0 for process in running) or sorted(told) != list(range(1, 8 * count + 1)):
        bad("eight processes: %d of %d issues, %d numbers" % (len(told), 8 * count, len(set(told))))
    if lines(WRAPPERS["C"], "load", file) != ["ok %d" % (8 * count)]:
        bad("eight processes: the desk has other issues than were answered")


def older():
    """The user page's way to carry a desk over to another layout: its log's calls make it anew."""
    log = path("tower.log")
    calls, answers = content("scripts/case-a.txt").split(b"\n"), content("scripts/case-a.out").split(b"\n")
    put(log, b"# names sheets Plan Schedule\n" + b"\n".join(line for pair in zip(calls, answers) for line in pair))
    shown = [line.strip() for line in content("docs/FORMAT.md").decode().split("\n") if "--desk" in line and line.startswith("    ")]
    if len(shown) != 1:
        bad("docs/FORMAT.md doesn't show one command to carry a desk over")
    done = run(["bash", "-c", shown[0].replace("tower", path("tower")).replace("./sheetdesk", COMMAND[0])])
    name = path("tower") + ".desk"
    if done.returncode != 0 or not os.path.exists(name) or content(name) != sealed(desk_of([line.decode() for line in calls])):
        bad("docs/FORMAT.md's command: %s" % done.stdout)


def page():
    """The user page's commands, in their order, in a folder of their own: what they answer, and that the log replays."""
    text = content("docs/USER.md").decode()
    text = text[text.index("## SAVED DESKS"):text.index("## ALL SMALL HISTORIES")]
    shown = [block for block in text.split("\n\n") if block.startswith("    ")]
    if len(shown) != 2:
        bad("the user page shows %d blocks of commands for saved desks" % len(shown))
    for block in shown:
        shutil.rmtree(path("page"), ignore_errors=True)
        os.mkdir(path("page"))
        put(path("page/calls.txt"), content("scripts/case-a.txt"))
        for link in ("sheetdesk", "scripts"):
            os.symlink(os.path.join(ROOT, link), path("page/" + link))
        said = lines(["bash", "-e", "-c", block], cwd=path("page"))
        if block is shown[0] and (said[15:17] != ["ok 3", "ok 0"] or said[-1] != "admitted" or "`ok 3` and `ok 0`" not in text):
            bad("the user page's first block: %s" % said)
    if "each answered as the log has it" not in lines(COMMAND, "--replay", path("page/tower.log"))[-1]:
        bad("the user page's log doesn't replay")


trials = [globals()[name] for name in sys.argv[1:]] or [golden, starts, checks, refused, locks, eight, older, page]
for trial in trials:
    trial()
print("saved: the command on saved desks: answers as the program's, checks, refusals, the lock, eight processes at once")
