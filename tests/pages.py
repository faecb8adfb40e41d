"""Pages in a real browser: `pages.py BROWSER FOLDER` loads every page of the folder in one headless browser, and holds some
of them to facts worked out by hand from their scripts: lanes, points, stale shelves, the sentence of a break, what stands
behind an issue; then the keyboard and the mouse. Prints what is wrong and exits 1, or what was tried."""
import glob
import os
import sys

from browser import Browser

LANES = "Array.from(document.querySelectorAll('.head'), (head) => head.dataset.lane)"
POINTS = "Array.from(document.querySelectorAll('.point[data-issue]'), (p) => [+p.dataset.issue, +p.dataset.writer," \
         " +p.dataset.sheets, +p.dataset.rivals])"
STALE = "Array.from(document.querySelectorAll('.stale[data-office]'), (s) => [+s.closest('.row').dataset.line," \
        " +s.dataset.office, +s.dataset.stale])"
SENTENCES = "Array.from(document.querySelectorAll('.row.broken .sentence'), (s) => s.textContent)"
ARROWS = "Array.from(document.querySelectorAll('.arrow[data-from]'), (a) => [+a.closest('.row').dataset.line," \
         " a.classList[1], a.dataset.from, a.dataset.to, +a.dataset.sheets])"
BEHIND = "Array.from(document.querySelectorAll('.row[data-issue=\"4\"] details.behind li'), (l) => l.textContent)"
SEEN = ".filter((p) => getComputedStyle(p).display !== 'none')"
RINGS = "Array.from(document.querySelectorAll('.ring'))" + SEEN + ".map((ring) => +ring.closest('.row').dataset.line)"
CAUSE = "Array.from(document.querySelectorAll('.cause a, .cause .remedy'), (p) => p.textContent)"
FOLDS = "Array.from(document.querySelectorAll('.fold summary .say'), (p) => p.textContent)"
# Of the rows that are seen if those about a sheet are asked for, those that aren't about it; and how many are.
FILTER = "(() => { const filter = document.getElementById('filter'); filter.value = '0'; filter.dispatchEvent(new Event('change'));" \
         " const rows = Array.from(document.querySelectorAll('.row:not(.off)')); filter.value = '';" \
         " filter.dispatchEvent(new Event('change')); return [rows.filter((r) => !(r.dataset.touched & 1)).length, rows.length]; })()"

# Page, what is asked, what its script has.
FACTS = [
    ("case-a", LANES, ["master", "office 0", "office 1", "run 0"]),
    ("case-a", "document.querySelectorAll('.row').length", 15),
    ("case-a", POINTS, [[1, 0, 3, 0], [2, 1, 2, 0]]),
    ("case-a", SENTENCES, []),
    # Issue 2 leaves sheet 1 of office 0 behind; line 15 evicts both sheets there.
    ("case-a", STALE, [[8, 0, 2], [15, 0, 0]]),
    ("case-a", ARROWS, [
        [4, "issue", "run 0", "master", 3], [5, "fetch", "master", "office 0", 3], [7, "read", "office 0", "run 0", 1],
        [8, "issue", "run 0", "master", 2], [11, "read", "office 0", "run 0", 3], [12, "card", "run 0", "run 0", 2],
        [14, "fetch", "master", "office 1", 3], [15, "evict", "office 0", "office 0", 3]]),
    ("explain-path", LANES, ["master", "office 0", "office 1", "run 0", "run 1"]),
    # Issue 4 saves sheets 0 and 1 with only sheet 0 read: its sheet 1 and that of issue 2 are rivals.
    ("explain-path", POINTS, [[1, 0, 1, 0], [2, 1, 2, 0], [3, 2, 4, 0], [4, 3, 3, 2]]),
    ("explain-path", SENTENCES,
     ["Sheet 1 of issue 4 needs sheet 0 of issue 4; run 0 had read the older sheet 0 of issue 1, brought by the shelf of office 0 at"
      " line 6."]),
    ("explain-path", BEHIND, ["issue 1 (writer 0, sheet 0): the run had read its sheet 0"]),
    ("explain-path", RINGS, [6, 12, 15]),
    ("explain-path", "(document.querySelector('#line17').dispatchEvent(new Event('mouseenter')), %s)" % RINGS, [6, 15]),
    ("explain-path", CAUSE, ["Line 19", "Behind drop 0, open 0 0 1 0 1 4 0 1 2 0, prepare 0 every job goes through."]),
    # A broken run's bar: red edges, white between them, hatched.
    ("explain-path", "Array.from(document.querySelectorAll('#line20 line[x1=\"' + document.querySelector('[data-lane=\"run 0\"]')"
                     ".getAttribute('x') + '\"]'), (l) => l.getAttribute('class')).slice(-3)", ["edge broken", "open", "broken"]),
    ("folded", FOLDS, ["Lines 1 to 8: 8 calls in which nothing is read or saved"]),
    ("folded", "document.querySelector('.idle').textContent", "Not drawn, for nothing touches it: offices 0 and 1."),
    ("folded", "(location.hash = '#line3', new Promise((go) => setTimeout(() => go(document.querySelector('.fold details').open), 200)))",
     True),
    ("eight", "document.querySelectorAll('.tick').length", 150),
    ("eight", FILTER, [0, 36]),
    ("carried", "document.querySelector('#line12 .words').textContent",
     "12Job 0 of run 0 reads sheet 2 of issue 3 from the master, over the shelf of office 0. The card also takes sheet 0 of issue 1 and"
     " sheet 1 of issue 2, which are needed."),
    ("explain-path", "document.querySelector('#line19 .chain').textContent",
     "Sheet 2 of issue 3 needs sheet 1 of issue 2; the shelf of office 1 has the newer sheet 1 of the rival issues 2 and 4."
     "Sheet 1 of issue 4 needs sheet 0 of issue 4."
     "Run 0 had read sheet 0 of issue 1, at line 6."),
    ("rival-breaks", LANES, ["master", "office 0", "office 1", "run 0", "run 1"]),
    ("rival-breaks", POINTS, [[1, 0, 1, 0], [2, 1, 1, 1], [3, 1, 2, 0]]),
    ("rival-breaks", SENTENCES,
     ["Sheet 1 of issue 3 needs sheet 0 of issue 2; run 0 had read sheet 0 of issue 1, a rival of it, brought by the shelf of office 0 at"
      " line 6."]),
    ("rival-breaks", STALE, [[9, 0, 1]]),
    ("merge-rivals", POINTS, [[1, 0, 1, 0], [2, 1, 1, 1], [3, 0, 1, 1], [4, 1, 1, 0]]),
    ("signs", "Array.from(document.querySelectorAll('.call code:first-child'), (c) => c.textContent)",
     ["new 1 1 1 1", "<script>throw 1</script>", '"&lt;']),
    # Issues 68 to 400 are on the page; every other one is of one writer, and stands behind that writer's next.
    ("long", "document.querySelectorAll('.row').length", 1000),
    ("long", "(document.querySelector('.row[data-issue=\"400\"]').dispatchEvent(new Event('mouseenter')),"
             " document.querySelectorAll('.over .after').length)", 166),
    # Mask 3: a sentence for each sheet.
    ("break-several", SENTENCES,
     ["Sheet 2 of issue 3 needs sheet %d of issue 3; run 0 had read the older sheet %d of issue %d, brought by the shelf of"
      " office 0 at line 9." % (sheet, sheet, sheet + 1) for sheet in (0, 1)]),
    # Issue 2 leaves sheet 0 behind at both offices. The break at line 13 undoes its fetch; that of line 16 stays.
    ("stale-break", STALE, [[10, 0, 1], [10, 1, 1], [16, 1, 0]]),
    ("stale-break", SENTENCES,
     ["Sheet 1 of issue 2 needs sheet 0 of issue 2; run 0 had read the older sheet 0 of issue 1, brought by the shelf of office 0 at"
      " line 7."]),
    # Line 13 takes the right to sheet 0, and all three sheets leave the shelf.
    ("mayhold-takes-needs", ARROWS, [
        [4, "issue", "run 0", "master", 1], [6, "fetch", "master", "office 0", 1], [6, "read", "office 0", "run 0", 1],
        [7, "issue", "run 0", "master", 2], [10, "issue", "run 0", "master", 4], [11, "fetch", "master", "office 0", 6],
        [12, "fetch", "master", "office 1", 1], [13, "evict", "office 0", "office 0", 7],
        [24, "fetch", "master", "office 0", 3]]),
    ("mayhold-takes-needs", "document.querySelector('#line13 .words').textContent",
     "13Office 0 may hold sheets 1 and 2. It evicts sheet 0 of issue 1, and with it what needs it: sheet 1 of issue 2, sheet 2 of"
     " issue 3."),
    # Two lines have read two versions: the join has no path. The red line leads over issue 2 to the step that had read issue 1.
    ("join-two-versions", SENTENCES,
     ["Line 1 of run 0 has sheet 0 of issue 2, brought by the shelf of office 1 at line 13; line 0 of run 0 had read the older sheet 0 of"
      " issue 1, brought by the shelf of office 0 at line 12."]),
    ("join-two-versions", RINGS, [8, 12]),
    ("join-two-versions", CAUSE, ["Line 14", "Behind drop 0, open 0 0 1 0 1 1 0, prepare 0 every job goes through."]),
    ("join-two-versions", "document.querySelector('#line14 .chain').textContent",
     "The other line has sheet 0 of issue 2.Run 0 had read sheet 0 of issue 1, at line 12."),
    ("fork-own-reads", "document.querySelector('#line12 .words').textContent",
     "12Job 0 of run 0, on line 1, reads sheet 0 of issue 1 from the shelf of office 0."),
]

# What is wider than its place, or is cut at the right.
WIDE = "Array.from(document.querySelectorAll('.no, .say')).filter((box) => box.scrollWidth > box.clientWidth).length +" \
       " Array.from(document.querySelectorAll('.say, .heads, .cause')).filter((box) =>" \
       " box.getBoundingClientRect().right > document.documentElement.clientWidth).length"
# Words that are too small to be read.
SMALL = "Array.from(document.querySelectorAll('p, li, code, svg text')).filter((t) => parseFloat(getComputedStyle(t).fontSize) < 13).length"
# Sheets of arrows over which a path runs.
OVER = "Array.from(document.querySelectorAll('line.path'))" + SEEN + ".filter((line) => Array.from(line.closest('svg')" \
       ".querySelectorAll('.arrow text')).some((text) => { const box = text.getBBox(), x = +line.getAttribute('x1');" \
       " return x > box.x - 2 && x < box.x + box.width + 2; })).length"

FOCUS = "document.activeElement.dataset.line"
CURVES = "document.querySelectorAll('.over .after').length"
SHOWN = "Array.from(document.querySelectorAll('.shown'), (row) => row.dataset.line)"


def keyboard(browser):
    """What the keys do on the page of explain-path, and what is due."""
    for _ in range(9):
        browser.press("Tab")
        if browser.ask("document.activeElement.classList.contains('row')"):
            break
    yield "the first row is reached by Tab", browser.ask(FOCUS), "1"
    browser.press("ArrowDown")
    browser.press("ArrowDown")
    yield "Down goes to the next row", browser.ask(FOCUS), "3"
    browser.press("ArrowUp")
    yield "Up goes to the one before", browser.ask(FOCUS), "2"
    browser.press("End")
    yield "End goes to the last row", browser.ask(FOCUS), "20"
    browser.press("Home")
    yield "Home goes to the first row", browser.ask(FOCUS), "1"
    for _ in range(14):
        browser.press("ArrowDown")
    yield "Behind issue 4 stands issue 1: one curve", browser.ask(CURVES), 1
    browser.press("Enter")
    yield "Enter opens what stands behind it", browser.ask("document.querySelector('#line15 details').open"), True


def mouse(browser):
    """A call and its drawing are linked: pointing at one marks the other."""
    wide = "getComputedStyle(document.querySelector('#line6 .fetch path')).strokeWidth"
    browser.point("#line12 .words")
    yield "an arrow elsewhere is as it was", browser.ask(wide), "2px"
    browser.point("#line6 .words")
    yield "words mark their row", browser.ask(SHOWN), ["6"]
    yield "words mark their arrow", browser.ask(wide), "4px"
    browser.point("#line15 .drawing")
    yield "a drawing marks its row", browser.ask(SHOWN), ["15"]
    yield "a drawing shows what stands behind", browser.ask(CURVES), 1


def main():
    program, folder = sys.argv[1:]
    wrong, pages = [], sorted(glob.glob(os.path.join(folder, "*.html")))
    with Browser(program) as browser:
        for page in pages:
            wrong += ["%s: %s" % (os.path.basename(page), fault) for fault in browser.load(page)]
            if not browser.ask("document.title").startswith("Sheet desk: ") or browser.ask(SMALL) != 0 or browser.ask(OVER) != 0:
                wrong.append("%s: no page, words that are too small, or a path over the sheets of an arrow" % page)
            printed = 1032 if browser.ask("document.body.innerHTML.includes('A4 landscape')") else 703
            some = os.path.basename(page).startswith(("eight", "long", "far", "generated", "explain-path", "break-several", "join-two-versions"))
            for width, media in ((800, "screen"), (printed, "print"), (1280, "screen")) if some else ((1280, "screen"),):
                browser.lie(width, media)
                if browser.ask(WIDE) != 0:
                    wrong.append("%s: words wider than their place, or cut, at %d px, %s" % (page, width, media))
        at = None
        for name, question, due in FACTS:
            if name != at:
                browser.load(os.path.join(folder, name + ".html"))
                at = name
            given = browser.ask(question)
            if given != due:
                wrong.append("%s: %s\n  is  %s\n  due %s" % (name, question, given, due))
        browser.load(os.path.join(folder, "eight.html"))
        pages_of = browser.printed().count(b"/Type /Page\n")
        browser.lie(703, "print")
        if pages_of < 5 or browser.ask("getComputedStyle(document.querySelector('.top')).display") != "table-header-group":
            wrong.append("printed, %d sheets don't each have the lanes' names" % pages_of)
        browser.lie(1280)
        for trial in (keyboard, mouse):
            browser.load(os.path.join(folder, "explain-path.html"))
            wrong += ["%s: is %s, due %s" % found for found in trial(browser) if found[1] != found[2]]
    for fault in wrong:
        print("pages: %s" % fault)
    if not wrong:
        print("pages: %d loaded without an error; %d facts, keyboard and mouse" % (len(pages), len(FACTS)))
    return 1 if wrong or len(pages) < 60 else 0


sys.exit(main())
