"""The store: answers as the program's, transactions that are ended at any point, a full disk, eight processes and threads on one
desk, rows that aren't taken, the service. `store.py WHERE [TRIAL..]`: a folder for SQLite files, or postgresql:.. of an empty database."""
import glob
import signal
import threading
import time
import urllib.error
import urllib.request

from common import *
from kept import *


def golden():
    store, tried = sheetdesk_store.Store(where("golden")), 0
    for script in sorted(glob.glob("scripts/*.txt")):
        text, due = content(script).decode("latin-1"), content(script[:-4] + ".out").decode().split("\n")[:-1]
        calls = text.split("\n")
        calls = calls[:-1] if calls[-1] == "" else calls
        # The program has no room for some desks, and a store has.
        same = [call.startswith("new ") and answer == "refused 1" for call, answer in zip(calls, due)]
        end = same.index(True) if True in same else len(calls)
        if store.call(script, calls[:end]) != due[:end]:
            bad("%s in a store: other answers than the program's" % script)
        if store.content(script) is None:
            continue
        tried += 1
        Follows(store, script).check()
        if "audit" in store.log(script):
            bad("%s: an audit is logged" % script)
        before = store.content(script), store.log(script)
        store.ask(script, calls)
        if (store.content(script), store.log(script)) != before:
            bad("%s: ask changes the desk" % script)
        if tried % 10 == 1:
            replayed(store, script)
    if tried < 80:
        bad("only %d golden scripts leave a desk" % tried)
    store.close()


def kills():
    """200 transactions, each ended at a random point, and then one at each statement."""
    place, draw, done = where("killed"), random.Random(40), 0
    store = sheetdesk_store.Store(place)
    store.call("killed", SMALL)
    follows = Follows(store, "killed")
    last = follows.check()

    def calls(tell):
        mine = sheetdesk_store.Store(place)
        while True:
            tell(int(mine.call("killed", issue(0))[2].split(" ")[1]))

    for _ in range(200):
        process, told = forked(calls)
        first = told.readline() if draw.random() < 0.7 else b""
        time.sleep(draw.random() * 0.012)
        os.kill(process, signal.SIGKILL)
        os.waitpid(process, 0)
        numbers = [last] + [int(line) for line in (first + told.read()).split(b"\n")[:-1]]
        last = follows.check()
        done += len(numbers) - 1
        if not numbers[-1] <= last <= numbers[-1] + 1:
            bad("killed: issue %d is there, %d was answered" % (last, numbers[-1]))
    if done < 120:
        bad("only %d transactions in 200 kills" % done)
    each_statement(store, place, follows, last)
    replayed(store, "killed")
    store.close()


def each_statement(store, place, follows, last):
    """A process that ends itself before statement 1, 2 and so on of a call: nothing is kept of it, until it is all kept."""
    for at in range(1, 20):
        def calls(_):
            mine, left = sheetdesk_store.Store(place), [at]
            transaction = mine._transaction

            @sheetdesk_store.contextlib.contextmanager
            def ending(*given):
                with transaction(*given) as run:
                    def counted(*words):
                        left[0] -= 1
                        if left[0] == 0:
                            os.kill(os.getpid(), signal.SIGKILL)
                        return run(*words)
                    yield counted
            mine._transaction = ending
            mine.call("killed", issue(0))

        process, told = forked(calls)
        status = os.waitpid(process, 0)[1]
        now = follows.check()
        if now != last + (status == 0):
            bad("a process that ends at statement %d: issue %d, before it %d" % (at, now, last))
        if status == 0:
            break
    if at < 4:
        bad("a call has only %d statements" % (at - 1))


def eight():
    """Eight processes, then eight threads, on one desk: no call lost, none done twice."""
    place, count = where("many"), 15
    store = sheetdesk_store.Store(place)
    store.call("many", ["new 4 3 2 8"])

    def calls(run, mine, tell):
        for _ in range(count):
            tell(int(mine.call("many", issue(run))[2].split(" ")[1]))

    running = [forked(lambda tell, run=run: calls(run, sheetdesk_store.Store(place), tell)) for run in range(8)]
    told = [int(line) for _, pipe in running for line in pipe.read().split(b"\n")[:-1]]
    if any(os.waitpid(process, 0)[1] != 0 for process, _ in running):
        bad("eight processes: one failed")
    threads = [threading.Thread(target=calls, args=(run, store, told.append)) for run in range(8)]
    for thread in threads:
        thread.start()
    for thread in threads:
        thread.join()
    if sorted(told) != list(range(1, 16 * count + 1)):
        bad("eight processes and threads: %d answers of %d, %d numbers" % (len(told), 16 * count, len(set(told))))
    if Follows(store, "many").check() != 16 * count or store.log("many").count("\n") != 2 + 6 * 16 * count:
        bad("eight processes and threads: the desk has other issues than were answered")
    store.close()


def untaken():
    """A row that isn't taken raises, and stays; its log makes it anew. What raises in a call keeps nothing."""
    store = sheetdesk_store.Store(where("rows"))
    store.call("rows", EVERYDAY)
    good = store.content("rows")
    words = desk_of(EVERYDAY)
    words[4] = 1
    for kind, row in (("sum", good[:40] + b"\xff" + good[41:]), ("short", good[:-1]), ("admitted", sealed(words)),
                      ("layout", sealed(desk_of(EVERYDAY), sheetdesk.LAYOUT - 1))):
        with store._transaction() as run:
            run("UPDATE sheetdesk_desks SET content = %s WHERE name = %s", row, "rows")
        for work in (store.call, store.ask):
            try:
                work("rows", ["drop 0"])
                bad("a row that isn't taken, %s: no fault" % kind)
            except sheetdesk_file.Fault as fault:
                if fault.kind != kind or store.content("rows") != row:
                    bad("a row that isn't taken, %s: %s" % (kind, fault.kind))
        store.renew("rows")
        if store.content("rows") != good:
            bad("a row that isn't taken, %s: its log doesn't make it anew" % kind)
    before = store.log("rows")
    # A line is one line, whatever is in it: it has one answer, and is no call.
    if store.call("rows", ["drop 9\ndrop 0", "stale 9\n", "\n", "stale 09"]) != ["unread", "unread", "unread", "refused 3"]:
        bad("a line with a line feed in it is taken for calls")
    if store.content("rows") != good or store.log("rows") != before + "stale 09\nrefused 3\n":
        bad("a line with a line feed in it is kept or logged")
    before = store.log("rows")
    try:
        store.call("rows", ["drop 0", 7])
        bad("a line that is no text is taken")
    except AttributeError:
        pass
    if store.content("rows") != good or store.log("rows") != before or store.call("none", ["fetch 0 0"]) != ["refused 1"]:
        bad("a call that raised was kept")
    if "none" in store.names():
        bad("a desk that was never made is there")
    store.close()


def full_disk():
    """On a disk of 1 MiB calls go on until one fails; desk and log are those of the last that was answered."""
    script = ("import sys, sqlite3; sys.path[:0] = ['embed', 'tests/saved']; sys.argv[1] = '%(at)s'; import kept as s\n"
              "store = s.sheetdesk_store.Store('%(at)s/desks.db'); store.call('full', ['new 8 8 2 2']); last = 0\n"
              "try:\n    while True: last = int(store.call('full', s.issue(0))[2].split()[1])\n"
              "except sqlite3.OperationalError as error: print(error)\n"
              "now = s.Follows(store, 'full').check(); print('same' if now == last else [now, last])")
    at = path("full")
    command = "mkdir -p %s && mount -t tmpfs -o size=1m tmpfs %s && exec \"$@\"" % (at, at)
    if run(["unshare", "-m", "sh", "-c", command, "sh", "true"]).returncode != 0:
        print("store: nothing may be mounted here: a full disk isn't tried")
        return
    said = lines(["unshare", "-m", "sh", "-c", command, "sh", sys.executable, "-c", script % {"at": at}, at])
    if said != ["database or disk is full", "same"]:
        bad("a store on a full disk: %s" % said)


def crashes():
    """PostgreSQL itself is ended at once and started again, five times: what was answered is there, and what is there was called."""
    store = sheetdesk_store.Store(WHERE)
    store.call("crash", SMALL)

    def calls(tell):
        mine = sheetdesk_store.Store(WHERE)
        try:
            while True:
                tell(int(mine.call("crash", issue(0))[2].split(" ")[1]))
        except Exception:
            os._exit(0)

    for _ in range(5):
        process, told = forked(calls)
        time.sleep(0.4)
        lines(["sh", "-c", os.environ["RESTART"]])
        os.waitpid(process, 0)
        numbers = [int(line) for line in told.read().split(b"\n")[:-1]]
        last = Follows(store, "crash").check()
        if len(numbers) < 5 or not numbers[-1] <= last <= numbers[-1] + 1:
            bad("a server that was ended: issue %d is there, %d were answered, the last %s" % (last, len(numbers), numbers[-1:]))


def service():
    """The example service: calls, the log, the page, and what is wrong."""
    words = [sys.executable, os.path.join(ROOT, "embed", "service.py"), "0", where("service")]
    server = subprocess.Popen(words, stdout=subprocess.PIPE, stderr=subprocess.DEVNULL, env=ENVIRONMENT)
    base = server.stdout.readline().decode().strip()

    def asked(part, calls=None):
        try:
            with urllib.request.urlopen(base + part, calls) as answer:
                return answer.status, answer.read()
        except urllib.error.HTTPError as error:
            return error.code, error.read()

    try:
        text, due = content("scripts/case-a.txt"), content("scripts/case-a.out")
        if asked("tower", text) != (200, due) or asked("tower/log")[1].split(b"\n")[1::2] != due.split(b"\n")[:-1]:
            bad("the service: other answers to case A, or another log")
        if b"<title>Sheet desk" not in asked("tower")[1] or b"tower\n" not in asked("")[1]:
            bad("the service: no page, or no list of names")
        if asked("tower/file")[1] != sealed(desk_of(text.decode().split("\n"))):
            bad("the service: another desk than case A's")
        if [asked("other")[0], asked("a%20b")[0], asked("tower/x", b"drop 0")[0]] != [404, 404, 409]:
            bad("the service: what is wrong isn't told")
    finally:
        server.kill()
        server.wait()


if __name__ == "__main__":
    every = [golden, kills, eight, untaken, crashes if SHARED else full_disk, service]
    for trial in [globals()[name] for name in sys.argv[2:]] or every:
        trial()
    print("store: answers as the program's, 200 transactions killed, eight processes and threads, rows that aren't taken, the service")
