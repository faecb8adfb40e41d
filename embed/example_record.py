"""A product that writes a record beside its calls, and audits it: for each issue what the run had read, as look tells it before the
issue. Then an issue of a client that had kept too old a sheet. Ends with 1 if an answer is not as written."""
import sys

from sheetdesk import Desk, Job, Refusal, audit, card, words


class History:
    """The issues of a desk of so many sheets and writers, from its new on."""

    def __init__(self, sheets, writers):
        self.sheets, self.writers, self.issues = sheets, writers, []

    def issue(self, desk, run, writer, mask, read):
        """Issues, and keeps what a record has of it; `read` is the mask of what the run's jobs have read. What is refused or saves
        nothing is no issue."""
        looks = [(sheet, desk.look(card(run), sheet).look) for sheet in range(self.sheets) if read >> sheet & 1]
        answer = desk.issue(run, writer, mask)
        if answer.outcome == "ok" and mask != 0:
            self.keep(writer, mask, [(sheet, look.clock) for sheet, look in looks])
        return answer

    def keep(self, writer, mask, reads):
        self.issues.append((writer, mask, reads))

    def record(self):
        """The words: header, issues, reads."""
        issues, reads = [], []
        for writer, mask, read in self.issues:
            issues += [writer, mask, len(reads), len(read)]
            reads += [[sheet, *clock] for sheet, clock in read]
        start = 7 + len(issues)
        total = start + len(reads) * (1 + self.writers)
        header = [self.sheets, self.writers, len(self.issues), len(reads), 7, start, total]
        return header + issues + [word for read in reads for word in read]


def work(desk, history, reads, writer, mask):
    """A run of one job at office 0."""
    desk.open(0, [Job(0, reads, 0)])
    desk.step(0, 0)
    return history.issue(desk, 0, writer, mask, reads)


def main():
    desk, history = Desk(words(2, 2, 2, 1)), History(2, 2)
    desk.new(2, 2, 2, 1)
    good = str(audit(history.record())) == "ok 0"
    # The two issues of case A.
    good &= str(work(desk, history, 0, 0, 3)) == "ok 1"
    desk.fetch(0, 0)
    good &= str(work(desk, history, 1, 1, 2)) == "ok 2"
    good &= history.record() == [2, 2, 2, 1, 7, 15, 18, 0, 3, 0, 0, 1, 2, 0, 1, 0, 1, 0]
    # Writer 0 saves sheet 0 again; writer 1 has read that save when it saves sheet 1.
    good &= str(work(desk, history, 1, 0, 1)) == "ok 3"
    desk.fetch(0, 0)
    good &= str(work(desk, history, 1, 1, 2)) == "ok 4"
    good &= str(work(desk, history, 3, 0, 0)) == "ok 0" and len(history.issues) == 4
    good &= history.issue(desk, 0, 0, 1, 1).refusal is Refusal.WRONG_STATE and len(history.issues) == 4
    good &= str(audit(history.record())) == "ok 0"
    # A client elsewhere has the newest sheet 1 with the first sheet 0.
    history.keep(0, 1, [(0, (1, 0)), (1, (1, 2))])
    good &= str(audit(history.record())) == "ok 5"
    good &= audit(history.record()[:-1]).refusal is Refusal.NOT_READABLE
    # With the sheet 0 that is needed it is a snapshot.
    history.issues[4] = (0, 1, [(0, (2, 0)), (1, (1, 2))])
    good &= str(audit(history.record())) == "ok 0"
    print("example_record.py: %s" % ("the record audited as written" if good else "wrong answers"))
    return 0 if good else 1


sys.exit(main())
