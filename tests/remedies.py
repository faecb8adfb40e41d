"""The user page's remedies for broken runs: `remedies.py PROGRAM SCRIPT..` makes the calls of each script and, at each break,
goes on with each remedy: drop, open, prepare; and drop, fetch the broken sheets for every office of the run, open, again as
long as it breaks; an office that may not hold a sheet fetches it not. Every step must then be ok, but for jobs that read a sheet that
the master doesn't hold: refused 7. If something is refused 12 or 13, so it must be once the offices of the run may hold all sheets.
Prints what is wrong and exits 1, or what was tried."""
import subprocess
import sys

# An office that carries an old sheet without reading it: a fetch for the offices that read it breaks again and again.
CARRIED = """new 3 2 2 2\nopen 1 0 0 0\nstep 1 0\nissue 1 0 1\nopen 1 0 1 0\nstep 1 0\nissue 1 0 2\nfetch 0 1\nopen 1 0 0 0
step 1 0\nissue 1 1 5\nopen 0 0 2 0 1 1 0 0 4 0\nstep 0 0\nstep 0 1\nstep 0 2\n""".split("\n")[:-1]
# The same with a job more, which reads a sheet that was never issued.
UNISSUED = [line.replace("new 3", "new 4").replace("0 0 4 0", "0 0 4 0 0 8 0") for line in CARRIED]
# Office 1 may hold the sheet no more, and a job reads it there: it needs the right. Or none does: it needs no fetch, though prepare
# would bring the sheet.
BARRED = CARRIED[:-1] + ["mayhold 1 6", "step 0 2"]
UNREAD = [line.replace("1 1 0 0 4 0", "0 1 0 1 2 0 0 4 0") for line in BARRED] + ["step 0 3"]
LACKS = {"refused 12", "refused 13"}


def answers(program, lines):
    script = "".join(line + "\n" for line in lines).encode()
    return subprocess.run([program], input=script, stdout=subprocess.PIPE, check=True).stdout.decode().split("\n")[:-1]


def bits(mask):
    return [k for k in range(32) if mask >> k & 1]


class Break:
    """A step that broke its run: the calls up to it, the run's plan, the number of sheets, and the rights of offices that have
    not all."""

    def __init__(self, program, lines, plan, mask, sheets, rights):
        self.program, self.lines, self.mask, self.sheets, self.rights = program, lines, mask, sheets, rights
        self.plan, self.run = plan, plan.split(" ")[1]
        numbers = [int(number) for number in plan.split(" ")[2:]]
        self.jobs = [numbers[place:place + 3] for place in range(0, len(numbers), 3)]

    def offices(self, readers_of=None):
        """The offices of the run, or those whose jobs read the sheet."""
        return sorted({job[0] for job in self.jobs if readers_of is None or job[1] >> readers_of & 1})

    def tried(self, calls):
        """The answers to these calls and to the plan's steps, behind the broken step."""
        steps = ["step %s %d" % (self.run, job) for job in range(len(self.jobs))]
        return answers(self.program, self.lines + calls + steps)[len(self.lines):]

    def unissued(self):
        """The plan's sheets that the master doesn't hold."""
        sheets = bits(self.reads())
        looks = answers(self.program, self.lines + ["look 0 0 %d" % k for k in sheets])[len(self.lines):]
        return {k for k, look in zip(sheets, looks) if look == "refused 8"}

    def reads(self):
        return sum({1 << k for job in self.jobs for k in bits(job[1])})

    def granted(self):
        """What lets each office of the run hold all sheets."""
        every = 2**self.sheets - 1
        return [call for o in self.offices() for call in ("allow %d %d" % (o, self.sheets), "mayhold %d %d" % (o, every))]

    def prepared(self):
        calls, found = ["drop " + self.run, self.plan, "prepare " + self.run], "mended"
        given = self.tried(calls)
        if given[2] in LACKS:
            given, found = self.tried(self.granted() + calls)[len(self.granted()):], "granted"
        if given[2] == "refused 7":
            return "unissued" if self.unissued() else "prepare is refused 7, and all its sheets are issued"
        return found if all(answer.startswith("ok") for answer in given) else " ".join(given)

    def fetches(self, mask, only_readers, rights):
        return ["fetch %d %d" % (o, k) for k in bits(mask) for o in self.offices(k if only_readers else None)
                if rights.get(o, 2**32 - 1) >> k & 1]

    def fetched(self, only_readers=False, granted=()):
        """Fetches the broken sheets, those of each further break too, behind the calls that are granted."""
        calls, mask, unissued = list(granted), self.mask, self.unissued()
        for _ in range(8):
            calls.append("drop " + self.run)
            calls += self.fetches(mask, only_readers, {} if granted else self.rights)
            given = self.tried(calls + [self.plan])
            if not granted and LACKS & set(given):
                return self.fetched(only_readers, self.granted())
            given = given[len(calls) + 1:]
            broken = [answer for answer in given if answer.startswith("broken")]
            if not broken:
                refused = {job for job, answer in enumerate(given) if not answer.startswith("ok")}
                due = {job for job, (_, reads, _) in enumerate(self.jobs) if unissued & set(bits(reads))}
                mended = "granted" if granted else "mended"
                return mended if refused == waiting(self.jobs, due) else " ".join(given)
            calls += [self.plan] + ["step %s %d" % (self.run, job) for job in range(len(self.jobs))]
            mask = int(broken[0].split(" ")[1])
        return "loops"


def waiting(jobs, refused):
    """These jobs and all that wait for them."""
    for job, (_, _, upstream) in enumerate(jobs):
        if refused & set(bits(upstream)):
            refused = refused | {job}
    return refused


def breaks(program, lines):
    """The breaks of a script, each with the calls up to it."""
    plans, sheets, rights = {}, 0, {}
    for place, (line, answer) in enumerate(zip(lines, answers(program, lines))):
        word, *numbers = line.split(" ") if answer.startswith("ok") else [""]
        if word == "new":
            plans, sheets, rights = {}, int(numbers[0]), {}
        elif word == "open":
            plans[int(numbers[0])] = line
        elif word == "mayhold":
            rights[int(numbers[0])] = int(numbers[1])
        if answer.startswith("broken"):
            plan, mask = plans[int(line.split(" ")[1])], int(answer.split(" ")[1])
            yield Break(program, lines[:place + 1], plan, mask, sheets, dict(rights))


def main():
    program, *scripts = sys.argv[1:]
    (carried,), (unissued,) = breaks(program, CARRIED), breaks(program, UNISSUED)
    (barred,), (unread,) = breaks(program, BARRED), breaks(program, UNREAD)
    counts = {"mended": 0, "granted": 0, "unissued": 0}
    if (carried.fetched(only_readers=True), carried.fetched(), carried.prepared()) != ("loops", "mended", "mended"):
        print("remedies: an office that carries an old sheet is not mended as the user page says")
        return 1
    if (unissued.fetched(), unissued.prepared()) != ("mended", "unissued"):
        print("remedies: a sheet that was never issued is not told as the user page says")
        return 1
    if (barred.fetched(), barred.prepared(), unread.fetched(), unread.prepared()) != ("granted", "granted", "mended", "granted"):
        print("remedies: an office that may not hold a sheet is not mended as the user page says")
        return 1
    for script in scripts:
        with open(script, encoding="latin-1") as file:
            lines = file.read().split("\n")
        for broken in breaks(program, [line for line in lines if line]):
            for name, found in (("prepare", broken.prepared()), ("fetch", broken.fetched())):
                if found not in counts:
                    print("remedies: %s, line %d: %s: %s" % (script, len(broken.lines), name, found))
                    return 1
                counts[found] += 1
    print("remedies: %d mended, %d with room or rights given, %d with a sheet that was never issued, of %d scripts"
          % (*counts.values(), len(scripts)))
    return 0 if counts["mended"] >= 2 * len(scripts) and counts["granted"] > 0 else 1


sys.exit(main())
