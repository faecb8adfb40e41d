"""Case A of the specification, an explained break with stale marks, rival saves, rights, two lines, a forecast and a text of calls
through the Python module; ends with 1 if an answer is not as written."""
import sys

import sheetdesk
from sheetdesk import Desk, Job, Look, Refusal, Standing, card, compare, covers, merge, shelf, words, MASTER


def case_a(desk):
    """The calls of case A and their answers, a line each."""
    return [
        (desk.new(2, 2, 2, 1), "ok 119"),
        (desk.open(0, [Job(0, 0, 0)]), "ok 1"),
        (desk.step(0, 0), "ok 0 0 0"),
        (desk.issue(0, 0, 3), "ok 1"),
        (desk.fetch(0, 0), "ok 3"),
        (desk.open(0, [Job(0, 1, 0)]), "ok 1"),
        (desk.step(0, 0), "ok 0 1 0"),
        (desk.issue(0, 1, 2), "ok 2"),
        (desk.open(0, [Job(0, 1, 0), Job(1, 2, 1)]), "ok 2"),
        (desk.step(0, 1), "refused 6"),
        (desk.step(0, 0), "ok 0 1 0"),
        (desk.step(0, 1), "ok 2 0 0"),
        (desk.look(card(0), 1), "ok 1 1 1 0 1"),
        (desk.fetch(1, 1), "ok 3"),
        (desk.evict(0, 1), "ok 3"),
        # Besides case A: the calls that it lacks.
        (desk.prepare(0), "refused 6"),
        (desk.drop(0), "ok 0"),
        (desk.look(MASTER, 1), "ok 2 2 1 1 0"),
        (desk.look(shelf(0), 1), "refused 8"),
    ]


def explained(desk):
    """A run has read sheet 0, both sheets are saved together, and its next job reads sheet 1. Then office 0 has an older
    sheet 0, and office 1 has none."""
    return [
        (desk.new(2, 2, 2, 2), "ok 173"),
        (desk.open(1, [Job(0, 0, 0)]), "ok 1"),
        (desk.step(1, 0), "ok 0 0 0"),
        (desk.issue(1, 0, 1), "ok 1"),
        (desk.open(0, [Job(0, 1, 0), Job(1, 2, 0)]), "ok 2"),
        (desk.explain(0, 0), "clear"),
        (desk.step(0, 0), "ok 0 0 1"),
        (desk.open(1, [Job(0, 0, 0)]), "ok 1"),
        (desk.step(1, 0), "ok 0 0 0"),
        (desk.issue(1, 0, 3), "ok 2"),
        (desk.explain(0, 1), "path 1 0"),
        (desk.step(0, 1), "broken 1"),
        (desk.explain(0, 1), "refused 4"),
        (desk.stale(0), "ok 1"),
        (desk.stale(1), "ok 0"),
        (desk.stale(2), "refused 3"),
        (desk.pick(), "nothing"),
        (desk.open(1, [Job(0, 0, 0)]), "ok 1"),
        (desk.pick(), "ok 1 0"),
        (desk.allow(1, 1), "ok 0"),
        (desk.fetch(1, 1), "refused 12"),
        (desk.allow(1, 2), "ok 0"),
        (desk.fetch(1, 1), "ok 3"),
    ]


def rivals(desk):
    """A writer saves a sheet without having read the other's: both lead, until one has read both."""
    return [
        (desk.new(1, 2, 1, 1), "ok 68"),
        (desk.open(0, [Job(0, 0, 0)]), "ok 1"),
        (desk.step(0, 0), "ok 0 0 0"),
        (desk.issue(0, 0, 1), "ok 1"),
        (desk.look(MASTER, 0), "ok 1 1 1 0 0"),
        (desk.open(0, [Job(0, 0, 0)]), "ok 1"),
        (desk.step(0, 0), "ok 0 0 0"),
        (desk.issue(0, 1, 1), "ok 2"),
        (desk.look(MASTER, 0), "ok 2 3 1 1 0"),
        (desk.open(0, [Job(0, 1, 0)]), "ok 1"),
        (desk.step(0, 0), "ok 0 0 1"),
        (desk.issue(0, 0, 1), "ok 3"),
        (desk.look(MASTER, 0), "ok 3 1 2 1 0"),
    ]


def rights(desk):
    """Sheets 0 and 1 are saved together, so each needs the other: office 0 loses both with the right to hold sheet 0. Then
    the writer loses the right to save sheet 1."""
    return [
        (desk.new(2, 1, 1, 1), "ok 80"),
        (desk.open(0, [Job(0, 0, 0)]), "ok 1"),
        (desk.step(0, 0), "ok 0 0 0"),
        (desk.issue(0, 0, 3), "ok 1"),
        (desk.fetch(0, 1), "ok 3"),
        (desk.mayhold(0, 2), "ok 0"),
        (desk.look(shelf(0), 1), "refused 8"),
        (desk.fetch(0, 1), "refused 13"),
        (desk.mayhold(0, 3), "ok 0"),
        (desk.fetch(0, 1), "ok 3"),
        (desk.maysave(0, 1), "ok 0"),
        (desk.open(0, [Job(0, 0, 0)]), "ok 1"),
        (desk.step(0, 0), "ok 0 0 0"),
        (desk.issue(0, 0, 2), "refused 13"),
        (desk.issue(0, 0, 1), "ok 2"),
    ]


def lines(desk):
    """Offices 0 and 1 have two versions of sheet 0. A run reads one on each line, so that they can't be joined. The next one
    reads on line 0 alone, and is joined."""
    first = [
        (desk.new(2, 1, 2, 2), "ok 137"),
        (desk.open(0, [Job(0, 0, 0)]), "ok 1"),
        (desk.step(0, 0), "ok 0 0 0"),
        (desk.issue(0, 0, 1), "ok 1"),
        (desk.fetch(0, 0), "ok 1"),
        (desk.open(0, [Job(0, 0, 0)]), "ok 1"),
        (desk.step(0, 0), "ok 0 0 0"),
        (desk.issue(0, 0, 1), "ok 2"),
        (desk.fetch(1, 0), "ok 1"),
    ]
    return first + [
        (desk.open(0, [Job(0, 1, 0), Job(1, 1, 0)]), "ok 2"),
        (desk.step_on(0, 1, 1), "refused 14"),
        (desk.fork(0), "ok 0"),
        (desk.step(0, 0), "ok 0 1 0"),
        (desk.explain_on(0, 1, 0), "clear"),
        (desk.explain_on(0, 1, 1), "clear"),
        (desk.step_on(0, 1, 1), "ok 0 1 0"),
        (desk.issue(0, 0, 2), "refused 14"),
        (desk.join(0), "broken 1"),
        (desk.drop(0), "ok 0"),
        (desk.open(0, [Job(0, 1, 0), Job(0, 0, 0)]), "ok 2"),
        (desk.fork(0), "ok 0"),
        (desk.step_on(0, 0, 0), "ok 0 1 0"),
        (desk.step_on(0, 1, 1), "ok 0 0 0"),
        (desk.join(0), "ok 0"),
        (desk.fork(0), "refused 14"),
        (desk.issue(0, 0, 2), "ok 3"),
    ]


def foretold(desk, scratch):
    """Office 0 has an older sheet 0 than the one that sheet 1 needs, so a run that reads both would break, or find no room; once
    office 0 has fetched again it goes through."""
    first = [
        (desk.new(2, 1, 2, 1), "ok 91"),
        (desk.open(0, [Job(0, 0, 0)]), "ok 1"),
        (desk.step(0, 0), "ok 0 0 0"),
        (desk.issue(0, 0, 1), "ok 1"),
        (desk.fetch(0, 0), "ok 1"),
        (desk.open(0, [Job(0, 0, 0)]), "ok 1"),
        (desk.step(0, 0), "ok 0 0 0"),
        (desk.issue(0, 0, 3), "ok 2"),
    ]
    return first + [
        (desk.forecast(0), "refused 4"),
        (desk.open(0, [Job(0, 1, 0), Job(1, 2, 0)]), "ok 2"),
        (desk.forecast_into(Desk(90), 0), "refused 1"),
        (desk.forecast(0), "breaks 1 1"),
        (desk.allow(1, 1), "ok 0"),
        (desk.forecast(0), "turned 1 12"),
        (desk.fetch(0, 0), "ok 3"),
        (desk.forecast_into(scratch, 0), "through"),
        (desk.step(0, 0), "ok 0 1 0"),
        (desk.step(0, 1), "ok 2 0 0"),
    ]


def text_of_calls(desk):
    """The first calls of case A as a text; whether they are answered as written."""
    text = "new 2 2 2 1\nopen 0 0 0 0\nstep 0 0\nissue 0 0 3\nfetch 0 0\nno call\nforecast 0\nstale 0"
    answers = desk.run(text)
    for line, answer in zip(text.split("\n"), answers):
        print("%s -> %s" % (line, answer))
    return answers == ["ok 119", "ok 1", "ok 0 0 0", "ok 1", "ok 3", "unread", "refused 4", "ok 0"]


def refuses(error, call, *arguments):
    """Whether the module refuses the arguments itself."""
    try:
        call(*arguments)
    except error:
        return True
    return False


def main():
    desk = Desk(words(2, 2, 2, 1))
    good = desk.look(MASTER, 0).refusal is Refusal.NOT_IN_FORM
    scripts = case_a(desk) + explained(Desk(words(2, 2, 2, 2))) + rivals(Desk(words(1, 2, 1, 1)))
    scripts += rights(Desk(words(2, 1, 1, 1))) + lines(Desk(words(2, 1, 2, 2)))
    stepped, scratch = Desk(words(2, 1, 2, 1)), Desk(words(2, 1, 2, 1))
    scripts += foretold(stepped, scratch)
    # The steps left what was foretold.
    good &= stepped.words() == scratch.words() and refuses(ValueError, stepped.forecast_into, stepped, 0)
    for answer, due in scripts:
        if str(answer) != due:
            print("wrong: %s for %s" % (answer, due))
            good = False
    # Words that are saved and lent again are the same desk; with a last issue number (word 4) that is behind they are none to go on with.
    good &= str(Desk(desk.words()).look(MASTER, 1)) == "ok 2 2 1 1 0" and str(Desk(desk.words()).admit()) == "ok 0"
    good &= Desk(desk.words()[:4] + [0] + desk.words()[5:]).admit().refusal is Refusal.NOT_ADMITTED
    good &= refuses(OverflowError, desk.fetch, 2**32, 0) and refuses(OverflowError, desk.fetch, 0, -1)
    good &= refuses(OverflowError, desk.open, 0, [Job(0, 2**32, 0)]) and refuses(OverflowError, Desk, [2**32])
    good &= refuses(TypeError, desk.fetch, 0.5, 0) and refuses(TypeError, desk.fetch, True, 0)
    good &= desk.look(MASTER, 1).look == Look(2, 2, (1, 1), Standing.EQUAL) and desk.look(shelf(0), 1).look is None
    good &= desk.look(MASTER, 1).standing is Standing.EQUAL and desk.look(shelf(0), 1).standing is None
    # Rows (2,0) and (1,3) are rivals, and their merge is (2,3), which is newer than (1,3).
    good &= compare([2, 0], [1, 3]) is Standing.RIVAL and compare([2, 0], [1]) is None
    good &= compare([2, 3], [1, 3]) is Standing.NEWER and compare([1, 3], [2, 3]) is Standing.OLDER
    good &= covers([2, 0], [1, 3]) is False and covers([2, 0], [1]) is None and covers([2, 3], [1, 3]) is True
    good &= merge([2, 0], [1, 3]) == [2, 3] and merge([2, 0], [1]) is None
    good &= words(32, 16, 8, 8) == sheetdesk.MOST_WORDS and words(33, 1, 1, 1) == 0
    good &= text_of_calls(Desk(words(2, 2, 2, 1)))
    print("example.py: %s" % ("case A answered as written" if good else "wrong answers"))
    return 0 if good else 1


sys.exit(main())
