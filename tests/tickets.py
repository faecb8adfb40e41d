"""What --breaks, --set and --at tell of logs, against the program: `tickets.py PROGRAM TOOL SCRIPT..` makes a log of each script.
Every break must be told, by its line, with the page's sentences and a remedy behind which every job goes through; refusals are
counted. The bill of a run must have the card's sheets as looks show them, and each sheet's reading must be a step of a job that
reads it. The desk at a line must answer as the program does behind that line. Prints what is wrong and exits 1, or what was held."""
import json
import re
import subprocess
import sys
import tempfile

ROW = re.compile(r'<li class="row broken".*? id="line(\d+)"(.*?)</li>\n(?=<li class="row|</ol>)', re.DOTALL)
SAID = re.compile(r'<p class="sentence">(.*?)</p>')


def ran(command, text):
    made = subprocess.run(command, input=text.encode("latin-1"), stdout=subprocess.PIPE, stderr=subprocess.DEVNULL, check=False)
    return made.stdout.decode()


class Log:
    """A script with the program's answers."""

    def __init__(self, program, tool, script):
        self.program, self.tool, self.name = program, tool, script
        with open(script, encoding="latin-1") as file:
            self.calls = [line for line in file.read().split("\n") if line]
        self.answers = self.asked(self.calls)
        self.text = "".join("%s\n%s\n" % pair for pair in zip(self.calls, self.answers))

    def asked(self, calls):
        return ran([self.program], "".join(call + "\n" for call in calls)).split("\n")[:-1]

    def had(self, mode, *line):
        return ran([self.tool, mode, "x", *map(str, line)], self.text)

    def breaks(self):
        """What is wrong with what is told of the breaks."""
        told, text = json.loads(self.had("breaks-json")), self.had("breaks")
        due = [2 * place + 1 for place, answer in enumerate(self.answers) if answer.startswith("broken")]
        if [found["line"] for found in told["breaks"]] != due:
            yield "breaks at %s, due %s" % ([found["line"] for found in told["breaks"]], due)
        refused = {}
        for answer in self.answers:
            if answer.startswith("refused"):
                refused[int(answer[8:])] = refused.get(int(answer[8:]), 0) + 1
        if {found["number"]: found["calls"] for found in told["refused"]} != refused:
            yield "refusals %s, due %s" % (told["refused"], refused)
        pages = {int(line): SAID.findall(row) for line, row in ROW.findall(self.had("whole"))}
        for found in told["breaks"]:
            sentences = [sheet["sentence"] for sheet in found["sheets"]]
            if sentences != pages[found["line"]] or not all(sentence in text for sentence in sentences):
                yield "line %d: %s, the page has %s" % (found["line"], sentences, pages[found["line"]])
            yield from self.remedy(found, text)

    def remedy(self, found, text):
        before = self.calls[:(found["line"] + 1) // 2]
        if "no_remedy" in found:
            told = re.search(r"never issued|prepare is answered refused (?:12 \(.*allow more|13 \(.*mayhold gives the right)", found["no_remedy"])
            if not told:
                yield "line %d: %s" % (found["line"], found["no_remedy"])
            return
        plan = next(call for call in found["remedy"] if call.startswith("open ")).split(" ")
        steps = ["step %s %d" % (plan[1], job) for job in range((len(plan) - 2) // 3)]
        given = self.asked(before + found["remedy"] + steps * len(steps))[len(before):]
        done = {call for call, answer in zip(found["remedy"] + steps * len(steps), given) if answer.startswith("ok")}
        if done != set(found["remedy"] + steps) or not all("    %s\n" % call in text for call in found["remedy"]):
            yield "line %d: the remedy %s is answered %s" % (found["line"], found["remedy"], given)

    def bills(self):
        """What is wrong with the bills of some steps and issues."""
        places = [place for place, (call, answer) in enumerate(zip(self.calls, self.answers))
                  if call.startswith(("step", "issue")) and answer.startswith("ok")]
        second = [place for place in places if re.match(r"step \d+ \d+ 1$", self.calls[place])]
        for place in places[::max(1, len(places) // 6)] + second[:2]:
            bill, run = json.loads(self.had("set-json", 2 * place + 1)), self.calls[place].split(" ")[1]
            until = place + self.calls[place].startswith("step")
            looks = ["look 2 %s %d" % (run, k) for k in range(32)] + ["look 0 0 %d" % k for k in range(32)]
            given = self.asked(self.shown(place)[:until] + looks)[until:]
            due = [(k, given[k], given[32 + k]) for k in range(32) if given[k].startswith("ok")]
            if [item["version"]["sheet"] for item in bill["sheets"]] != [k for k, _, _ in due]:
                yield "line %d: the sheets %s, due %s" % (2 * place + 1, bill["sheets"], due)
            elif len(self.had("set", 2 * place + 1).split("\n")) != (4 + len(due) if due else 3):
                yield "line %d: no table of %d sheets" % (2 * place + 1, len(due))
            for item, (k, card, master) in zip(bill["sheets"], due):
                yield from self.item(item, k, card, master, run)

    def shown(self, place):
        """The calls, such that looks behind a step show the card of its line: until they are joined, a run's lines are alike, and
        for line 1 they are changed about from the fork on."""
        step = re.match(r"step (\d+) \d+ 1$", self.calls[place])
        if not step:
            return self.calls
        forks = [at for at in range(place) if self.calls[at] == "fork " + step[1] and self.answers[at].startswith("ok")]
        steps = re.compile(r"(step %s \d+)(?: ([01]))?$" % step[1])
        other = [steps.sub(lambda found: "%s %d" % (found[1], found[2] != "1"), call) for call in self.calls[forks[-1]:]]
        return self.calls[:forks[-1]] + other

    def item(self, item, k, card, master, run):
        for version, look in ((item["version"], card), (item["master"], master)):
            saves = version["saves"]
            lines = [self.calls[save["line"] // 2].split(" ") for save in saves]
            if (max(save["issue"] for save in saves), sum(1 << save["writer"] for save in saves)) != tuple(map(int, look.split(" ")[1:3])):
                yield "sheet %d is %s, the program has %s" % (k, saves, look)
            if any(line[0] != "issue" or int(line[2]) != save["writer"] or not int(line[3]) >> k & 1 for line, save in zip(lines, saves)):
                yield "sheet %d: another line than its save's: %s" % (k, saves)
        read = item["read_at_line"]
        if read and not self.calls[read // 2].startswith("step %s " % run) or not item["came_from"]:
            yield "sheet %d: read at line %d, from %s" % (k, read, item["came_from"])

    def desk_at(self):
        """What is wrong with the desk at a line in the middle."""
        place = len(self.calls) // 2
        asks = ["look 0 0 0", "fetch 0 0", "look 1 0 0", "stale 0", "nonsense", "pick"]
        with tempfile.NamedTemporaryFile() as log:
            log.write(self.text.encode("latin-1"))
            log.flush()
            script = 'exec "$0" at x %d 3<"$1"' % (2 * place + 1)
            given = ran(["bash", "-c", script, self.tool, log.name], "".join(ask + "\n" for ask in asks)).split("\n")[:-1]
        due = self.asked(self.calls[:place + 1] + asks)[place + 1:]
        if given != due:
            yield "the desk at line %d answers %s, due %s" % (2 * place + 1, given, due)


def main():
    program, tool, *scripts = sys.argv[1:]
    held = 0
    for script in scripts:
        log = Log(program, tool, script)
        for wrong in [*log.breaks(), *log.bills(), *log.desk_at()]:
            print("tickets: %s: %s" % (script, wrong))
            return 1
        held += sum(answer.startswith("broken") for answer in log.answers)
    print("tickets: %d breaks of %d logs with their remedies, bills of runs, desks at a line" % (held, len(scripts)))
    return 0 if held >= len(scripts) // 2 else 1


sys.exit(main())
