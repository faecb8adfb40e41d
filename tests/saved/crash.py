"""Saves that are ended or fail at any point: each time the old desk or the new one is there, whole. At each deed of a save (a shim
before the C library counts them), by kill -9 at random points of 200 saves, and on a disk that is full."""
import re
import signal
import time

from common import *

SHIM = os.path.join(TOOLS, "shim.so")
FOLDER = path("crash")
# What a save does with the new file, its name and its folder, in this order; some write in parts.
ORDER = re.compile(r"(open \S+/desk )?open \S+/desk\.new (flock  )(ftruncate(64)?  )(fchmod  )(write  )+(fsync  )rename \S+/desk "
                   r"open \S+/crash (fsync  )")
MESSAGE = {28: "No space left on device", 5: "Input/output error", 30: "Read-only file system"}


def shimmed(command, new, **given):
    """Saves the new desk over the old one in a fresh folder, under the shim."""
    shutil.rmtree(FOLDER, ignore_errors=True)
    os.mkdir(FOLDER)
    old = put(os.path.join(FOLDER, "desk"), sealed(desk_of(SMALL)))
    os.chmod(old, 0o640)
    names = {"SHIM_" + name.upper(): str(value) for name, value in given.items()}
    done = run(command, "save", new, old, env=dict(ENVIRONMENT, LD_PRELOAD=SHIM, SHIM_PATH=FOLDER, **names))
    return done.returncode, done.stdout.decode(), content(old)


def deeds(name, command, new):
    """The deeds of a save, in their order: the file is on the disk before it gets its name, and then the folder is."""
    trace = path("trace-" + name)
    status, said, now = shimmed(command, new, trace=trace)
    if status != 0 or now != content(new) or os.stat(os.path.join(FOLDER, "desk")).st_mode & 0o777 != 0o640:
        bad("%s: a save: %s" % (name, said))
    done = content(trace).decode()
    if not ORDER.fullmatch(done.replace("\n", " ")):
        bad("%s: a save does %s" % (name, done.split("\n")))
    if sorted(os.listdir(FOLDER)) != ["desk"]:
        bad("%s: a save leaves %s" % (name, os.listdir(FOLDER)))
    return done.split("\n")[:-1]


def each_deed():
    old, new = sealed(desk_of(SMALL)), saved("new", EVERYDAY)
    for name, command in WRAPPERS.items():
        met = set()
        done = deeds(name, command, new)
        # A new file that isn't known to be ours alone is left where it is.
        held = done.index("flock ") + 1
        for at in range(1, len(done) + 1):
            for how in ("kill", "half", 28, 5, 30):
                status, said, now = shimmed(command, new, at=at, do=how)
                due = {old: "old", content(new): "new"}.get(now)
                if due is None or "Traceback" in said or "ERROR" in said:
                    bad("%s, deed %d, %s: neither the old nor the new desk is there: %s" % (name, at, how, said))
                if isinstance(how, str) and status != -signal.SIGKILL:
                    bad("%s, deed %d: it wasn't killed" % (name, at))
                told = "not saved, the file is as it was: " if due == "old" else "saved, but it may not outlast a power cut: "
                if isinstance(how, int) and (status != 1 or told + MESSAGE[how] not in said):
                    bad("%s, deed %d fails with %d, and the %s desk is there: %s" % (name, at, how, due, said))
                if isinstance(how, int) and due == "old" and at > held and os.path.exists(os.path.join(FOLDER, "desk.new")):
                    bad("%s, deed %d fails, and a part of the new file is left" % (name, at))
                # Whatever was left beside it, the next save goes through.
                met.add((how, due))
            if run(command, "save", new, os.path.join(FOLDER, "desk")).returncode != 0 or content(os.path.join(FOLDER, "desk")) != content(new):
                bad("%s: no save goes through after deed %d was ended" % (name, at))
        if met != {(how, due) for how in ("kill", "half", 28, 5, 30) for due in ("old", "new")}:
            bad("%s: not all was met: %s" % (name, met))


def number_of(line):
    return int(line.split(" ")[1])


def kills():
    """200 saves, each ended at a random point; what was told as done is there, and nothing but what was begun."""
    draw, beside = random.Random(4040), 0
    file = saved("killed", SMALL)
    for name, command, count in (("C", WRAPPERS["C"], 85), ("Rust", WRAPPERS["Rust"], 85), ("Python", WRAPPERS["Python"], 30)):
        for _ in range(count):
            saver = subprocess.Popen([*command, "saves", file], stdout=subprocess.PIPE, env=ENVIRONMENT)
            first = saver.stdout.readline().decode()
            time.sleep(draw.random() * 0.012)
            saver.kill()
            told = (first + saver.stdout.read().decode()).split("\n")
            saver.wait()
            done = [number_of(line) for line in told if re.fullmatch(r"done \d+", line)]
            begun = [number_of(line) for line in told if re.fullmatch(r"start \d+", line)]
            said = lines(WRAPPERS["C"], "load", file)[0]
            if not said.startswith("ok "):
                bad("%s: a killed save leaves a file that isn't taken: %s" % (name, said))
            last = number_of(said)
            if not max(done + [begun[-1] - 1]) <= last <= begun[-1]:
                bad("%s: issue %d is there; begun was %d, done %s" % (name, last, begun[-1], done[-1:]))
            beside += os.path.exists(file + ".new")
    if beside < 20:
        bad("only %d of 200 kills met a save in the middle" % beside)


def full_disk():
    """On a disk of 256 KiB the largest desk doesn't fit beside the small one. Where nothing may be mounted, each_deed has ENOSPC."""
    large = saved("large", ["new 32 16 8 8"])
    mount = "mkdir -p %(at)s && mount -t tmpfs -o size=256k tmpfs %(at)s && cp %(old)s %(at)s/desk && "
    words = {"at": path("full"), "old": saved("old", SMALL)}
    if run(["unshare", "-m", "sh", "-c", mount % words + "true"]).returncode != 0:
        print("saved: nothing may be mounted here: a full disk is tried by the shim alone")
        return
    for name, command in WRAPPERS.items():
        tried = '"$@" save %s %s/desk; s=$?; cmp %s %s/desk && ls %s && exit $s' % (
            large, words["at"], words["old"], words["at"], words["at"])
        said = lines(["unshare", "-m", "sh", "-c", mount % words + tried, "sh"], *command, status=1)
        if said[1:] != ["desk"] or "not saved, the file is as it was: No space left on device" not in said[0]:
            bad("%s: a full disk: %s" % (name, said))


def refused():
    """What else a save doesn't do: over a folder, through a link to nothing, what isn't admitted; and what it does through a link."""
    new = saved("new", EVERYDAY)
    for name, command in WRAPPERS.items():
        shutil.rmtree(path("odd"), ignore_errors=True)
        os.makedirs(path("odd/folder"))
        os.symlink("nothing", path("odd/dangling"))
        os.symlink("real", path("odd/link"))
        saved("odd/real", SMALL)
        for target in ("odd/folder", "odd/dangling", "odd/none/desk", "odd/folder/"):
            said = lines(command, "save", new, path(target), status=1)
            if "not saved, the file is as it was" not in said[-1]:
                bad("%s: a save to %s: %s" % (name, target, said))
        lines(command, "save", new, path("odd/link"))
        if not os.path.islink(path("odd/link")) or content(path("odd/real")) != content(new):
            bad("%s: a save through a link" % name)
        if sorted(os.listdir(path("odd"))) != ["dangling", "folder", "link", "real"] or os.listdir(path("odd/folder")):
            bad("%s: a save leaves %s" % (name, os.listdir(path("odd"))))


def no_right():
    """A folder or a file that may not be written, and a disk that is read-only."""
    os.chmod(WORK, 0o755)
    large, old = saved("right", EVERYDAY), sealed(desk_of(SMALL))
    nobody = ["setpriv", "--reuid=65534", "--regid=65534", "--clear-groups"] if os.getuid() == 0 else []
    for name, command in WRAPPERS.items():
        if run([*nobody, *command], "load", large).stdout != b"ok 5\n":
            print("saved: nobody can't run what tries %s: permissions aren't tried" % name)
            continue
        for folder, mode, file_mode in (("closed", 0o555, 0o666), ("open", 0o777, 0o444)):
            shutil.rmtree(path(folder), ignore_errors=True)
            os.mkdir(path(folder))
            file = put(path(folder + "/desk"), old)
            os.chmod(file, file_mode)
            os.chmod(path(folder), mode)
            said = lines([*nobody, *command], "save", large, file, status=1)
            if "not saved, the file is as it was: Permission denied" not in said[-1] or content(file) != old or os.listdir(path(folder)) != ["desk"]:
                bad("%s: a %s folder with a file of mode %o: %s" % (name, folder, file_mode, said))
            os.chmod(path(folder), 0o777)
    at = path("fixed")
    mount = "mkdir -p %s && mount -t tmpfs tmpfs %s && cp %s %s/desk && mount -o remount,ro %s && " % (at, at, saved("old", SMALL), at, at)
    if run(["unshare", "-m", "sh", "-c", mount + "true"]).returncode != 0:
        return
    for name, command in WRAPPERS.items():
        said = lines(["unshare", "-m", "sh", "-c", mount + '"$@" && exit 9; cmp %s %s/desk' % (path("old"), at), "sh"], *command, "save", large, at + "/desk")
        if "not saved, the file is as it was: Read-only file system" not in said[-1]:
            bad("%s: a read-only disk: %s" % (name, said))


trials = [globals()[name] for name in sys.argv[1:]] or [each_deed, kills, full_disk, refused, no_right]
for trial in trials:
    trial()
print("saved: a save ended or failing at each of its deeds, 200 killed at random, on a full disk: the old or the new desk, whole")
