"""Why a desk isn't admitted, in words, found by looking at its words: a hint for people, outside of what is proved. The
verdict is the library's alone (Desk.admit).

It names the first condition that fails, in the order of the admission's list (form; cuts of the master, the shelves, the
lines' cards; rows; counts; issue numbers), with its office, run, line and sheet. A clock stands in brackets, a count for
each writer.
"""
import array

import sheetdesk

# Where the first line's card begins in a run. The mark and the second read mask stand behind it, then the second card.
_CARD_AT = 28
_LINES = 2


class Places:
    """Where things lie on a desk, by its header and by how many words a further run takes; `fits` if its header and total
    fit its counts. A place that holds versions is ("master",), ("shelf", office) or ("card", run, line)."""

    def __init__(self, words):
        self.words, self.fits = words, False
        total = sheetdesk.words(*words[:4]) if len(words) >= 10 else 0
        if not total or words[9] != total or len(words) < total or words[5] != 10 or sorted(set(words[5:10])) != list(words[5:10]):
            return
        self.sheets, self.writers, self.offices, self.runs = counts = words[:4]
        self.version = (words[6] - words[5]) // self.sheets
        self.shelf, self.writer = (words[7] - words[6]) // self.offices, (words[8] - words[7]) // self.writers
        self.run = sheetdesk.words(*counts[:3], 2) - sheetdesk.words(*counts[:3], 1)
        pasts, self.card = self.sheets * self.writers, self.sheets * self.version
        self.fits = self.version >= 2 + pasts and self.shelf >= self.card and self.writer > pasts
        self.fits = self.fits and words[8] + self.runs * self.run <= total and self.run == _CARD_AT + 2 + _LINES * self.card

    def all(self):
        """The master, the shelves, then the cards of each run's lines."""
        yield "master",
        yield from (("shelf", office) for office in range(self.offices))
        yield from (("card", run, line) for run in range(self.runs) for line in range(_LINES))

    def run_at(self, run):
        return self.words[8] + run * self.run

    def start(self, place):
        """Where its versions begin."""
        if place[0] == "master":
            return self.words[5]
        if place[0] == "shelf":
            return self.words[6] + place[1] * self.shelf
        return self.run_at(place[1]) + _CARD_AT + place[2] * (self.card + 2)

    def at(self, place, k):
        """The version's words there: issue number, leading writers, then the rows."""
        start = self.start(place)
        return self.words[start + k * self.version : start + (k + 1) * self.version]

    def row(self, place, k, d):
        start = self.version - (self.sheets - d) * self.writers
        return self.at(place, k)[start : start + self.writers]

    def count(self, writer):
        return self.words[self.words[7] + writer * self.writer]

    def past(self, writer, d):
        start = self.words[7] + (writer + 1) * self.writer - (self.sheets - d) * self.writers
        return self.words[start : start + self.writers]

    def mark(self, run):
        """0 never forked, 1 forked, 2 joined."""
        return self.words[self.run_at(run) + _CARD_AT + self.card]

    def second(self, run):
        """The second line's words: what was read on it, then its card."""
        return self.words[self.run_at(run) + _CARD_AT + self.card + 1 : self.run_at(run + 1)]

    def read(self, run, line):
        """The mask of the sheets that were read on a line."""
        return self.second(run)[0] if line else self.words[self.run_at(run) + 3]

    def plan(self, run):
        """The mask of the sheets that the run's jobs read."""
        mask, at = 0, self.run_at(run)
        for job in range(8):
            mask |= self.words[at + 4 + 3 * job + 1]
        return mask


def _name(place):
    if place[0] == "master":
        return "the master"
    if place[0] == "shelf":
        return "the shelf of office %d" % place[1]
    return "the card of line %d of run %d" % (place[2], place[1])


def _clock(row):
    return "(%s)" % " ".join(map(str, row))


def _covers(one, other):
    return all(mine >= theirs for mine, theirs in zip(one, other))


def _cuts(at):
    """Needs that aren't met."""
    for place in at.all():
        card = place[0] == "card"
        scope = [k for k in range(at.sheets) if not card or at.plan(place[1]) >> k & 1]
        for k in scope:
            if at.at(place, k)[0] == 0:
                continue
            for d in scope:
                need, held = at.row(place, k, d), at.at(place, d)[0] != 0
                if d == k or not any(need) or held and _covers(at.row(place, d, d), need):
                    continue
                yield "%s is no %s: sheet %d needs sheet %d at %s, which %s" % (
                    _name(place), "cut of its run's plan" if card else "causal cut", k, d, _clock(need),
                    "is at " + _clock(at.row(place, d, d)) if held else "isn't held")


def _rows(at):
    """Rows that the master's own doesn't cover."""
    sheets = range(at.sheets)
    own = [at.row(("master",), d, d) for d in sheets]
    kept = ((d, at.row(place, k, d), "%s keeps with sheet %d" % (_name(place), k))
            for place in at.all() for k in sheets for d in sheets)
    pasts = ((d, at.past(u, d), "the past of writer %d keeps" % u) for u in range(at.writers) for d in sheets)
    for found in (kept, pasts):
        for d, row, keeper in found:
            if not _covers(own[d], row):
                yield "the master's own row of sheet %d is %s, and doesn't cover %s, which %s" % (
                    d, _clock(own[d]), _clock(row), keeper)


def _counts(at):
    """Counts over the writers' own, of the master's own rows, which cover all others."""
    for d in range(at.sheets):
        for u, kept in enumerate(at.row(("master",), d, d)):
            if kept > at.count(u):
                yield "writer %d has count %d, and the master's own row of sheet %d has %d of that writer" % (
                    u, at.count(u), d, kept)


def _numbers(at):
    """Issue numbers over the last one."""
    last = at.words[4]
    for place in at.all():
        for k in range(at.sheets):
            number = at.at(place, k)[0]
            if number > last:
                yield "the last issue number is %d, and %s has sheet %d with %d" % (last, _name(place), k, number)


def _lines(at):
    """Runs whose mark and lines don't fit: a mark above 2, a second line that isn't empty though the run isn't forked, a
    sheet that was read on a line and isn't on its card."""
    for run in range(at.runs):
        mark = at.mark(run)
        if mark > 2 or mark != 1 and any(at.second(run)):
            yield "run %d has mark %d%s" % (run, mark, "" if mark > 2 else ", and its line 1 isn't empty")
        for line in range(_LINES):
            for k in range(at.sheets):
                if at.read(run, line) >> k & 1 and at.at(("card", run, line), k)[0] == 0:
                    yield "line %d of run %d has read sheet %d, which its card lacks" % (line, run, k)


def _form(at):
    """Versions that aren't in form, and runs' lines; else it is something else."""
    for place in at.all():
        for k in range(at.sheets):
            version = at.at(place, k)
            if version[0] == 0:
                stands = not any(version)
            else:
                stands = 0 < version[1] < 1 << at.writers and any(at.row(place, k, k))
            if not stands:
                yield "%s has no version of sheet %d that is in form" % (_name(place), k)
    yield from _lines(at)
    yield "a run, a shelf's mark, an allowance or a right isn't in form"


def refused(words):
    """What the library answers to admit: None if it is ok, or the number of the refusal."""
    return sheetdesk.Desk(array.array("I", words) if len(words) else []).admit().refusal


def why(words):
    """The reason; None if the desk is admitted, or if none is found."""
    number = refused(words)
    if number is None:
        return None
    at = Places(list(words))
    if not at.fits:
        return "there is no desk, or its header doesn't fit its counts"
    causes = [_form] if number == sheetdesk.Refusal.NOT_IN_FORM else [_cuts, _rows, _counts, _numbers]
    return next((said for cause in causes for said in cause(at)), None)
