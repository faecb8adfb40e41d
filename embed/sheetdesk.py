"""The sheet desk for Python: the library's calls by ctypes alone, with the names of the Rust wrapper.

    desk = sheetdesk.Desk(sheetdesk.words(2, 2, 2, 1))
    print(desk.new(2, 2, 2, 1))                # ok 119
    print(desk.open(0, [sheetdesk.Job(0, 0, 0)]))

A Desk owns its words; each call gives an Answer, which prints as the program prints it. sheetdesk.h says what each
answer's numbers are. Numbers outside of 32 bits are refused here, by an OverflowError, and so is what is no int, by a
TypeError: C would cut them. Many calls go quicker as a text, a line each:

    print(desk.run("step 0 0\\nissue 0 0 3"))  # ['ok 0 0 0', 'ok 1']

The shared library is found at SHEETDESK_LIBRARY if that is set, in ../../lib from this file (where it is installed), in
../target/shared (in a checkout), or by the system.
"""
import ctypes
import enum
import os
from typing import NamedTuple

VERSION = 12
LAYOUT = 7
ANSWER_WORDS = 40
LINE_ROOM = 384
MOST_WORDS = 419699


class Refusal(enum.IntEnum):
    """Why a call is refused, by the header's names."""

    NOT_IN_FORM = 1
    BAD_COUNT = 2
    OUT_OF_RANGE = 3
    WRONG_STATE = 4
    BAD_JOBS = 5
    WRONG_TURN = 6
    NOT_ON_MASTER = 7
    NOT_HELD = 8
    ISSUES_SPENT = 9
    WRITER_SPENT = 10
    NOT_ADMITTED = 11
    OVER_ALLOWANCE = 12
    NO_RIGHT = 13
    WRONG_LINE = 14
    NOT_READABLE = 15


class Standing(enum.IntEnum):
    """How one clock stands against another."""

    EQUAL = 0
    OLDER = 1
    NEWER = 2
    RIVAL = 3


class Look(NamedTuple):
    """What a look shows of a version. Leaders is a mask of writers: those whose last save in the version no other save in
    it knew of; two or more are rivals."""

    issue: int
    leaders: int
    clock: tuple
    standing: Standing


class Answer(NamedTuple):
    """What a call gives back: outcome "ok", "broken" or "refused", of explain "clear" or "path", of pick "nothing", of forecast
    "through", "breaks" (job and mask) or "turned" (job and number); and its numbers."""

    outcome: str
    numbers: tuple

    @property
    def refusal(self):
        """The Refusal, or the bare number if this module has no name for it; of "turned", the job's. None of any other
        answer."""
        if self.outcome not in ("refused", "turned"):
            return None
        number = self.numbers[-1]
        return Refusal(number) if number in set(Refusal) else number

    @property
    def look(self):
        """Of a look: the version; None of any other answer."""
        if self.outcome != "ok" or len(self.numbers) < 4:
            return None
        issue, leaders, *clock, standing = self.numbers
        return Look(issue, leaders, tuple(clock), Standing(standing))

    @property
    def standing(self):
        """Of a look: how the version stands against the master's; None of any other answer."""
        return self.look.standing if self.look else None

    def __str__(self):
        return " ".join([self.outcome, *map(str, self.numbers)])


class Job(NamedTuple):
    """A job of a run: its office, the sheets that it reads and the jobs that go before it."""

    office: int
    reads: int
    upstream: int


MASTER = (0, 0)

# The bytes that a text's answers are put into, part by part.
_OUT = 1 << 16

# By an answer's first word.
_OUTCOMES = ("ok", "broken", "refused", "clear", "path", "nothing", "through", "breaks", "turned")


def shelf(office):
    return (1, office)


def card(run):
    return (2, run)


def words(sheets, writers, offices, runs):
    """The words of a desk of so many sheets, writers, offices and runs; 0 if new refuses the counts."""
    for count, most in ((sheets, 32), (writers, 16), (offices, 8), (runs, 8)):
        if not 1 <= _word(count) <= most:
            return 0
    version, writer = 2 + sheets * writers, 1 + sheets * writers
    tail = 1 + offices + writers
    return 10 + sheets * version * (1 + offices + 2 * runs) + 2 * offices + writers * writer + 30 * runs + tail


def _word(number):
    """The number, if it is an int of 32 bits without sign."""
    if not isinstance(number, int) or isinstance(number, bool):
        raise TypeError("not an int: %r" % (number,))
    if not 0 <= number < 2**32:
        raise OverflowError("not a number of 32 bits: %d" % number)
    return number


def _array(numbers):
    """The numbers as words of C; never a null pointer."""
    checked = [_word(number) for number in numbers]
    return (ctypes.c_uint32 * max(1, len(checked)))(*checked), ctypes.c_size_t(len(checked))


def _lent(buffer):
    """The words of a buffer of bytes or of 32-bit numbers, in their place."""
    view = memoryview(buffer)
    if view.readonly:
        raise TypeError("not to be written: array.array('I', content) has the words of a file")
    if view.format not in ("B", "b", "c", "I", "i") or view.nbytes % 4 != 0:
        raise TypeError("neither bytes, a multiple of four, nor words of 32 bits: format %s, %d bytes" % (view.format, view.nbytes))
    words = (ctypes.c_uint32 * (view.nbytes // 4)).from_buffer(view)
    if ctypes.addressof(words) % 4 != 0:
        raise ValueError("words begin at a multiple of four")
    return words, ctypes.c_size_t(len(words))


def _content(content):
    """Words of C: so many zeros, those of a buffer, or a copy of a list."""
    if isinstance(content, int):
        return _array([0] * _word(content))
    try:
        memoryview(content)
    except TypeError:
        return _array(content)
    return _lent(content)


def _record(content):
    """Words of C that are only read: those of a buffer, or of a list."""
    try:
        view = memoryview(content)
    except TypeError:
        return _array(content)
    return _lent(bytearray(view) if view.readonly else view)


def _text(text):
    """The lines' bytes, a line feed behind the last too. What UTF-8 has no bytes for is in no call."""
    content = text.encode(errors="replace") if isinstance(text, str) else bytes(memoryview(text))
    return content if content.endswith(b"\n") or not content else content + b"\n"


def _is_kept(line, answer):
    """Whether a line of a text with this answer is recorded."""
    if answer == "unread" or line.startswith("audit"):
        return False
    return not (line.startswith("forecast") and answer == "refused 1")


class Unrecorded(Exception):
    """`record` has raised, and the call had been made: `answer` is what it answered; of a text the list of answers of the lines that
    were made, and the lines behind them weren't."""

    def __init__(self, answer):
        made = "%d lines were made" % len(answer) if isinstance(answer, list) else "made and answered %s" % (answer,)
        super().__init__(made + ", but not recorded")
        self.answer = answer


def _line(name, arguments):
    """A call as the program's line. An open of more than 27 numbers is recorded with so many: over 8 jobs, it is refused
    whatever the others are, for the same cause. A name's first word is the line's."""
    numbers = [a for a in arguments if isinstance(a, int)]
    if name == "open":
        numbers += arguments[1][: min(arguments[2].value, 27)]
    return " ".join([name.split("_")[0], *("%d" % number for number in numbers)])


def _library():
    here = os.path.dirname(os.path.abspath(__file__))
    name = "libsheetdesk_c.so.%d" % VERSION
    places = [os.path.join(here, "..", "..", "lib", name), os.path.join(here, "..", "target", "shared", name)]
    path = os.environ.get("SHEETDESK_LIBRARY") or next(filter(os.path.exists, places), name)
    # PyDLL keeps Python's lock during a call: two threads never work on one desk's words at once.
    library = ctypes.PyDLL(path)
    calls = "new open fetch evict prepare step explain issue drop look stale admit allow pick mayhold maysave"
    calls += " fork join step_on explain_on forecast script audit compare covers merge version layout"
    for call in calls.split():
        getattr(library, "sheetdesk_" + call).restype = ctypes.c_uint32
    if (library.sheetdesk_version(), library.sheetdesk_layout()) != (VERSION, LAYOUT):
        raise ImportError("%s has other calls or another layout than this module" % path)
    return library


_calls = _library()


def _answered(name, *arguments):
    """What the export answers."""
    answer = (ctypes.c_uint32 * ANSWER_WORDS)()
    count = getattr(_calls, "sheetdesk_" + name)(*arguments, answer, ctypes.c_size_t(ANSWER_WORDS))
    return Answer(_OUTCOMES[answer[0]], tuple(answer[1:count]))


class Desk:
    """A desk over its own words: so many, all zero, or a list of words saved from another. Or over a buffer that can be written
    (a bytearray, an mmap, shared memory, an array of 32-bit words): then it lies there, and words() is a copy.

    Each call is handed to `record`, if that is set, with its answer, as the program's own two lines of text
    ("fetch 0 1\\nok 3\\n"), so that what is written down replays: ./sheetdesk --replay. One log is for one desk, from its new on:
    the words of a desk that was read back aren't in it. If `record` raises, the call raises Unrecorded, which has its answer.
    A forecast that is refused with 1 isn't handed over: a replay's scratch has room.

    Threads may share a Desk: each call is made whole before the next one. What several calls do together, a text's too, is theirs
    to guard.
    """

    def __init__(self, content, record=None):
        self._words, self._len = _content(content)
        self.record = record

    def words(self):
        """The words as a list, to be saved."""
        return list(self._words[: self._len.value])

    def _call(self, name, *arguments):
        checked = [a if isinstance(a, (ctypes.Array, ctypes.c_size_t)) else ctypes.c_uint32(_word(a)) for a in arguments]
        made = _answered(name, self._words, self._len, *checked)
        if self.record is not None and not (name == "forecast" and made.refusal is Refusal.NOT_IN_FORM):
            try:
                self.record("%s\n%s\n" % (_line(name, arguments), made))
            except Exception as error:
                raise Unrecorded(made) from error
        return made

    def run(self, text):
        """Makes the calls of a text, str or bytes, a line each, and gives the answers, a list of str, as the program prints them:
        "unread" for a line that is no call. The last line may lack its line feed. The desk is tested for form once for some
        hundred lines, and not in each call. Forecasts have a scratch of their own. Each line is handed to `record` as it stands;
        one that is no call isn't, nor is an audit."""
        content, answers, record = _text(text), [], self.record
        lines = iter(content.decode("latin-1").split("\n")) if record is not None else ()
        for part in self._parts(content):
            answers += part
            try:
                for answer, line in zip(part, lines):
                    if _is_kept(line, answer):
                        record("%s\n%s\n" % (line, answer))
            except Exception as error:
                raise Unrecorded(answers) from error
        return answers

    def _parts(self, content):
        """Makes the calls of a text's bytes; gives their answers part by part."""
        text = (ctypes.c_uint8 * len(content)).from_buffer_copy(content)
        # A new in the text may make the desk as large as its words.
        words = self._len.value if b"forecast" in content else 0
        scratch, room = (ctypes.c_uint32 * max(1, words))(), ctypes.c_size_t(words)
        out, counts, taken = (ctypes.c_char * _OUT)(), (ctypes.c_size_t * 2)(1), 0
        while counts[0] > 0 and taken < len(content):
            left = ctypes.byref(text, taken), ctypes.c_size_t(len(content) - taken)
            _calls.sheetdesk_script(
                self._words, self._len, *left, out, ctypes.c_size_t(_OUT), scratch, room, counts, ctypes.c_size_t(2))
            taken += counts[0]
            yield out[: counts[1]].decode().split("\n")[:-1]

    def new(self, sheets, writers, offices, runs):
        return self._call("new", sheets, writers, offices, runs)

    def open(self, run, jobs):
        return self._call("open", run, *_array(number for job in jobs for number in job))

    def fetch(self, office, sheet):
        return self._call("fetch", office, sheet)

    def evict(self, office, sheet):
        return self._call("evict", office, sheet)

    def prepare(self, run):
        return self._call("prepare", run)

    def step(self, run, job):
        """On line 0."""
        return self._call("step", run, job)

    def step_on(self, run, job, line):
        """On line 0 or 1 of a forked run."""
        return self._call("step_on", run, job, line)

    def explain(self, run, job):
        """What a step of the job would come to: clear, or the path behind the break. On line 0."""
        return self._call("explain", run, job)

    def explain_on(self, run, job, line):
        """The same on line 0 or 1 of a forked run."""
        return self._call("explain_on", run, job, line)

    def issue(self, run, writer, mask):
        return self._call("issue", run, writer, mask)

    def drop(self, run):
        return self._call("drop", run)

    def look(self, place, sheet):
        """At MASTER, shelf(office) or card(run): the issue number, the leading writers, the own clock, the standing against
        the master's."""
        kind, number = place
        return self._call("look", kind, number, sheet)

    def stale(self, office):
        """The mask of the sheets on the office's shelf that are behind the master's."""
        return self._call("stale", office)

    def admit(self):
        """Takes the words back that were saved to a file; the header says what it asks of them."""
        return self._call("admit")

    def allow(self, office, number):
        """Sets how many sheets the office's shelf may hold."""
        return self._call("allow", office, number)

    def pick(self):
        """Which job to step next: run and job, or nothing."""
        return self._call("pick")

    def mayhold(self, office, mask):
        """Sets which sheets the office may hold; what it holds of the others is evicted there."""
        return self._call("mayhold", office, mask)

    def maysave(self, writer, mask):
        """Sets which sheets the writer may save."""
        return self._call("maysave", writer, mask)

    def fork(self, run):
        """Gives the run a second line: its card and what was read are copied."""
        return self._call("fork", run)

    def join(self, run):
        """Makes the run's two lines one, or breaks it, with the sheets that were read and would become another version."""
        return self._call("join", run)

    def forecast(self, run):
        """What stepping the run's jobs that aren't done would come to, lowest first: through, or the first job that breaks the
        run or is refused. On a scratch of its own."""
        total = self._words[9] if self._len.value > 9 else 0
        return self._call("forecast", *_array([0] * min(total, self._len.value)), run)

    def forecast_into(self, scratch, run):
        """The same on a scratch, another Desk, which becomes this one as those steps would leave it; its words past this one's
        total stay, and all of them if it is refused. A ValueError if the two have words in common."""
        first, last = sorted((ctypes.addressof(d._words), 4 * d._len.value) for d in (self, scratch))
        if first[0] + first[1] > last[0]:
            raise ValueError("a desk and its scratch have words in common")
        return self._call("forecast", scratch._words, scratch._len, run)


def audit(record):
    """Audits a record of issues, a list of words or a buffer of them: ok 0 if each read a snapshot, otherwise the number of the first
    that didn't, from 1; or refused with 15. It is no call on a desk, and isn't recorded."""
    return _answered("audit", *_record(record))


def compare(p, q):
    """How clock p stands against clock q; None if the lengths differ or exceed 16."""
    number = _calls.sheetdesk_compare(*_array(p), *_array(q))
    return Standing(number) if number in set(Standing) else None


def covers(p, q):
    """Whether clock p covers clock q; None if the lengths differ or exceed 16."""
    return {0: False, 1: True}.get(_calls.sheetdesk_covers(*_array(p), *_array(q)))


def merge(target, source):
    """The larger of the two counts at each place, as a list; None if the lengths differ or exceed 16."""
    into, length = _array(target)
    if _calls.sheetdesk_merge(into, length, *_array(source)) != 1:
        return None
    return list(into[: length.value])
