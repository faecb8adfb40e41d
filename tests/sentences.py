"""The sentences of breaks against the program: `sentences.py PROGRAM TOOL SCRIPT..` makes a page of each script, and asks the
program, in front of each step or join that breaks, what `explain` gives and what the places have. There must be a sentence for
each sheet that the call would move. Of a step it must name for another sheet the last save of a leading writer, as shelf or
master has it; the version that this save needs, by what the cards had in front of each issue; the version that the run had read,
as older or as a rival; and the office of each step that changed it on the card. The first sentence is about the last two sheets of
explain's path. Of a join it must name what both lines' cards have, the one that was read as the older one. What line 1 has is seen
where the lines are changed about: until they are joined, they are alike. The words of a forecast must be what the steps come to that
it foretells, and those of an audit what the program answers to its record. Prints what is wrong and exits 1, or how many were held."""
import collections
import re
import subprocess
import sys

# How many issues its writer has by then; the saves that it knows of, its own too, as pairs of sheet and issue.
Issue = collections.namedtuple("Issue", "writer count saves")

ROW = re.compile(r'<li class="row broken".*? id="line(\d+)"(.*?)</li>\n(?=<li class="row|</ol>)', re.DOTALL)
SAID = re.compile(r'<p class="sentence">(.*?)</p>')
FORECAST = re.compile(r'<li class="row (through|breaks|turned)".*?<a class="no" href="#line(\d+)"[^>]*>\d+</a>(.*?)</p>', re.DOTALL)
AUDIT = re.compile(r'<a class="no" href="#line\d+"[^>]*>(\d+)</a>([^<]*)</p><p class="call"><code>(audit[0-9 ]*)</code>')
# What the words say of a job that is turned down.
CAUSES = {7: "the master does not hold a sheet", 12: "more than its allowance", 13: "an office may not hold"}
ISSUES = r"(?:issue|the rival issues) ([\d, and]*\d)"
BROUGHT = r", brought by ((?:(?:, | and )?the shelf of office \d+ at line \d+)+)"
SENTENCE = re.compile(r"Sheet (\d+) of issue (\d+) needs sheet (\d+) of " + ISSUES + r"; (?:line [01] of )?run (\d+) had read "
                      r"(the older )?sheet (\d+) of " + ISSUES + r"(, a rival of it)?" + BROUGHT + r"\.$")
JOIN = re.compile(r"Line ([01]) of run (\d+) has sheet (\d+) of " + ISSUES + BROUGHT + r"; line ([01]) of run (\d+) had read the older "
                  r"sheet (\d+) of " + ISSUES + BROUGHT + r"\.$")


def ran(command, script):
    return subprocess.run(command, input=script, stdout=subprocess.PIPE, stderr=subprocess.DEVNULL, check=False).stdout.decode()


def told(program, lines):
    """The issues since the last new, and each run's jobs."""
    asked = []
    for line in lines:
        if line.startswith(b"issue "):
            asked += [b"look 2 %s %d" % (line.split(b" ")[1], sheet) for sheet in range(32)]
        asked.append(line)
    issues, jobs, cards = [], {}, {}
    for line, answer in zip(asked, ran([program], b"\n".join(asked)).split("\n")):
        word, *numbers = line.split(b" ") if answer.startswith("ok") else [b""]
        numbers = [int(number) for number in numbers]
        if word == b"new":
            issues, jobs = [], {}
        elif word == b"open":
            jobs[numbers[0]] = numbers[1:]
        elif word == b"issue" and numbers[2]:
            issues.append(issued(issues, numbers[1], numbers[2], [card for card in cards.values() if card[0] == numbers[0]]))
        elif word == b"look" and numbers[0] == 2:
            cards[numbers[1], numbers[2]] = numbers[1], numbers[2], row(answer)
        cards = cards if line.startswith(b"look ") else {}
    return issues, jobs


def row(look):
    return [int(number) for number in look.split(" ")[3:-1]]


def issued(issues, writer, mask, reads):
    """An issue of the sheets of the mask, by a run that had read these sheets with these counts."""
    saves = {(sheet, len(issues) + 1) for sheet in range(32) if mask >> sheet & 1}
    for number, issue in enumerate(issues, 1):
        read = any((sheet, number) in issue.saves and counts[issue.writer] >= issue.count for _, sheet, counts in reads)
        if issue.writer == writer or read:
            saves |= issue.saves
    return Issue(writer, 1 + sum(issue.writer == writer for issue in issues), saves)


def leading(issues, sheet, saves):
    """Of these saves of a sheet, by their issues, the last ones of writers that stand behind no other."""
    last = {issues[number - 1].writer: number for number in sorted(saves)}
    return {one for one in last.values() if not any((sheet, one) in issues[other - 1].saves for other in saves - {one})}


def is_last(issue, look):
    """Whether it is the last issue of a leading writer in what was looked at."""
    return look.startswith("ok") and int(look.split(" ")[2]) >> issue.writer & 1 and row(look)[issue.writer] == issue.count


def places(program, before, run):
    """The places of the run's last open, of its fork and of its join behind that, if there are."""
    found = {}
    for place, (line, answer) in enumerate(zip(before, ran([program], b"\n".join(before)).split("\n"))):
        word, *numbers = line.split(b" ")
        if answer.startswith("ok") and word in (b"open", b"fork", b"join") and int(numbers[0]) == int(run):
            found = dict(found, **{word.decode(): place}) if word != b"open" else {"open": place}
    return found["open"], found.get("fork"), found.get("join")


def changed_about(before, run, fork):
    """The same calls with the lines of the run changed about from its fork on."""
    def other(line):
        step = re.match(rb"(step 0*%s \d+)(?: 0*([01]))?$" % run, line)
        return b"%s %d" % (step[1], step[2] != b"1") if step else line
    return before[:fork] + [other(line) for line in before[fork:]]


def shown(before, run, line, fork):
    """The calls behind which a look at the run's card shows that line."""
    return changed_about(before, run, fork) if line else before


def changes(program, calls, run, sheet, jobs, start):
    """The office and the line of the log of each step behind a place that changed the sheet on the run's card, as a look has it."""
    look = b"look 2 %s %d" % (run, sheet)
    asked, steps = calls[:start + 1] + [look], []
    for place in range(start + 1, len(calls)):
        asked.append(calls[place])
        if calls[place].startswith(b"step %s " % run):
            asked.append(look)
            steps.append((place, len(asked) - 1))
    # The last number is how it stands against the master, whose sheet may have moved.
    given = [answer.rsplit(" ", 1)[0] for answer in ran([program], b"\n".join(asked)).split("\n")]
    last, found = given[start + 1], []
    for place, card in steps:
        if given[card] != last:
            found.append((jobs[3 * int(calls[place].split(b" ")[2])], 2 * place + 1))
        last = given[card]
    return found


def brought(program, before, run, sheet, jobs, line):
    """The office and the line of the log of each step since the run's open that changed the sheet on a line's card; of a run that was
    joined, on either."""
    opened, forked, joined = places(program, before, run)
    sides = [shown(before[:joined], run, side, forked) for side in range(1 if forked is None else 2)]
    found = [changes(program, side, run, sheet, jobs, opened) for side in sides]
    if joined is None:
        return found[line]
    both = sorted(set(found[0]) | set(found[1]), key=lambda step: step[1])
    return both + changes(program, before, run, sheet, jobs, joined)


def offices_of(text):
    return [(int(office), int(line)) for office, line in re.findall(r"office (\d+) at line (\d+)", text)]


def issues_of(text):
    return {int(issue) for issue in re.findall(r"\d+", text)}


def is_shown(issues, had, look):
    """Whether a look shows the version of these issues."""
    number, leaders = map(int, look.split(" ")[1:3])
    return number == max(had) and bin(leaders).count("1") == len(had) and all(is_last(issues[issue - 1], look) for issue in had)


def join_fault(program, lines, number, sentence):
    """What is wrong with a sentence of the join on the line."""
    said = JOIN.match(sentence)
    run, before = lines[number - 1].split(b" ")[1], lines[:number - 1]
    if not said or {said[2], said[7]} != {run.decode()} or said[3] != said[8] or said[1] == said[6]:
        return "not a sentence of a join of run %s: %s" % (run.decode(), sentence)
    (issues, jobs), sheet, fork = told(program, before), int(said[3]), places(program, before, run)[1]
    versions = {int(said[1]): issues_of(said[4]), int(said[6]): issues_of(said[9])}
    sources = {int(said[1]): offices_of(said[5]), int(said[6]): offices_of(said[10])}
    look = b"look 2 %s %d" % (run, sheet)
    cards = [ran([program], b"\n".join(shown(before, run, line, fork) + [look])).split("\n")[-2] for line in (0, 1)]
    good = [is_shown(issues, versions[line], cards[line]) for line in (0, 1)]
    good += [sources[line] == brought(program, before, run, sheet, jobs[int(run)], line) for line in (0, 1)]
    good.append(max(versions[int(said[6])]) < max(versions[int(said[1])]))
    return None if all(good) else "%s: %s: %s" % (sentence, cards, good)


def fault(program, lines, number, sentence, first):
    """What is wrong with a sentence of the step on the line; the first one must end as explain's path."""
    said = SENTENCE.match(sentence)
    _, run, job, *rest = lines[number - 1].decode().split(" ")
    line = int(rest[0]) if rest else 0
    if not said or said[5] != run or said[7] != said[3] or bool(said[6]) == bool(said[9]):
        return "not a sentence of run %s: %s" % (run, sentence)
    before, (one, second) = lines[:number - 1], (int(said[1]), int(said[3]))
    issues, jobs = told(program, before)
    calls = shown(before, run.encode(), line, places(program, before, run.encode())[1])
    asked = "explain %s %s\nlook 2 %s %d\n" % (run, job, run, second) + \
            "look 1 %d %d\nlook 0 0 %d\n" % (jobs[int(run)][3 * int(job)], one, one)
    path, card, shelf, master = ran([program], b"\n".join(calls + [asked.encode()])).split("\n")[-5:-1]
    source = issues[int(said[2]) - 1]
    needed, had = issues_of(said[4]), issues_of(said[8])
    known = {issue for sheet, issue in source.saves if sheet == second}
    good = [
        not first or path.endswith(" %d %d" % (one, second)),
        (one, int(said[2])) in source.saves and (is_last(source, shelf) or is_last(source, master)),
        needed == leading(issues, second, known),
        is_shown(issues, had, card),
        bool(said[6]) == (had <= known),
        offices_of(said[10]) == brought(program, before, run.encode(), second, jobs[int(run)], line),
    ]
    return None if all(good) else "%s: %s; %s; %s; %s: %s" % (sentence, path, card, shelf, master, good)


def faults(program, lines, number, sentences):
    """What is wrong with the sentences of the call on the line."""
    moved = int(ran([program], b"\n".join(lines[:number])).split("\n")[number - 1].split(" ")[1])
    is_join = lines[number - 1].startswith(b"join ")
    about = sorted(int(said[3]) for said in map((JOIN if is_join else SENTENCE).match, sentences) if said)
    if about != [sheet for sheet in range(32) if moved >> sheet & 1]:
        yield "the sheets of mask %d, told as %s" % (moved, sentences)
    for place, sentence in enumerate(sentences):
        if is_join:
            yield join_fault(program, lines, number, sentence)
        else:
            yield fault(program, lines, number, sentence, place == 0)


def sheet_list(mask):
    """The sheets of a mask as pages have them: three or more that follow each other as the first and the last."""
    runs = [(start, len(ones)) for start, ones in ((one.start(), one[0]) for one in re.finditer("1+", bin(mask)[:1:-1]))]
    items = [[str(sheet) for sheet in range(start, start + count)] if count < 3 else ["%d to %d" % (start, start + count - 1)]
             for start, count in runs]
    items = sum(items, [])
    return "sheet%s %s" % ("s" * (mask & mask - 1 != 0), " and ".join(filter(None, [", ".join(items[:-1]), items[-1]])))


def foretold(program, lines, number):
    """How a forecast on the line must be told, and how its words must end: its jobs are stepped, and what isn't ok comes first. A job
    that is done is refused with 6, and no other is."""
    run, before = int(lines[number - 1].split(b" ")[1]), lines[:number - 1]
    jobs = range(len(told(program, before)[1][run]) // 3)
    steps = ran([program], b"\n".join(before + [b"step %d %d" % (run, job) for job in jobs])).split("\n")[len(before):-1]
    for job, answer in zip(jobs, steps):
        word, *numbers = answer.split(" ")
        if word == "broken":
            return ("Job %d of run %d would break the run: " % (job, run), sheet_list(int(numbers[0])))
        if word == "refused" and numbers != ["6"]:
            return ("Job %d of run %d would be refused: " % (job, run), CAUSES[int(numbers[0])])
    return ("The jobs of run %d that aren't done would go through." % run, "")


def audited(program, call):
    """How an audit must be told: by what the program answers to it, alone."""
    answer = ran([program], call.encode() + b"\n").strip()
    told = {"unread": "No call, nothing changed: ", "refused 15": "Refused, nothing changed: the record is not readable",
            "ok 0": "Each issue of the record has read a snapshot."}
    return told.get(answer, "Issue %s of the record, " % answer[3:])


def main():
    program, tool, *scripts = sys.argv[1:]
    held, several, joins, second, kinds, audits = 0, 0, 0, 0, collections.Counter(), collections.Counter()
    for script in scripts:
        with open(script, "rb") as file:
            content = file.read()
        # As a log: a new for which the program has no room is refused to the tool too. A call's line is each second one.
        lines = content.split(b"\n")
        log = b"".join(b"%s\n%s\n" % (call, answer.encode()) for call, answer in zip(lines, ran([program], content).split("\n")[:-1]))
        page = ran([tool, "page", "x"], log)
        for line, words, call in AUDIT.findall(page):
            begins = audited(program, call)
            audits[begins[:4]] += 1
            if not words.startswith(begins):
                print("sentences: %s, line %d: %s: due %s.." % (script, (int(line) + 1) // 2, words, begins))
                return 1
        for kind, line, words in FORECAST.findall(page):
            begins, has = foretold(program, lines, (int(line) + 1) // 2)
            kinds[kind] += 1
            if not words.startswith(begins) or has not in words[len(begins):]:
                print("sentences: %s, line %d: %s: due %s.. %s" % (script, (int(line) + 1) // 2, words, begins, has))
                return 1
        for line, row_text in ROW.findall(page):
            number, sentences = (int(line) + 1) // 2, SAID.findall(row_text)
            for wrong in filter(None, faults(program, lines, number, sentences)):
                print("sentences: %s, line %d: %s" % (script, number, wrong))
                return 1
            less = dict(ROW.findall(ran([tool, "page", "x", line], log)))
            if SAID.findall(less.get(line, "")) != sentences:
                print("sentences: %s, line %d: the shrunk page has others than the log: %s" % (script, number, less.get(line)))
                return 1
            held, several = held + 1, several + (len(sentences) > 1)
            call = lines[number - 1].split(b" ")
            joins, second = joins + (call[0] == b"join"), second + (call[3:] == [b"1"])
    print("sentences: %d breaks of %d scripts, %d over several sheets, %d of joins, %d on line 1, are told as the program explains them, "
          "%d forecasts as the steps come out, and %d audits as it answers them"
          % (held, len(scripts), several, joins, second, sum(kinds.values()), sum(audits.values())))
    return 0 if held >= len(scripts) // 3 and several > 0 and joins > 0 and second > 0 and len(kinds) == 3 and {"Each", "Issu", "Refu"} <= set(audits) else 1


sys.exit(main())
