"""What a Desk of the Python module takes and gives: contents that are no words, buffers that it lies in, standings, a record
that raises, a forecast's scratch, an audit's record, texts of calls, and four threads on one desk, the largest. Prints what is wrong and
exits 1."""
import array
import mmap
import sys
import threading

import sheetdesk
from sheetdesk import Desk, Job

wrong = []


def raises(error, content):
    try:
        Desk(content)
    except error:
        return
    wrong.append("Desk(%r) doesn't raise %s" % (content, error.__name__))


raises(OverflowError, -5)
raises(TypeError, True)
raises(TypeError, bytes(8))
raises(TypeError, bytearray(7))
raises(TypeError, array.array("d", [0.0] * 400))
raises(ValueError, memoryview(bytearray(801))[1:])


def full(_):
    raise OSError("no space left")


size = sheetdesk.words(2, 2, 2, 1)
for buffer in (bytearray(4 * size), mmap.mmap(-1, 4 * size), memoryview(bytearray(4 * size)), array.array("I", [0] * size)):
    lent = Desk(buffer)
    if lent.new(2, 2, 2, 1).outcome != "ok" or array.array("I", bytes(buffer)).tolist() != lent.words() or lent.words()[0] != 2:
        wrong.append("a desk doesn't lie in its %s" % type(buffer).__name__)
try:
    Desk(size, record=full).new(2, 2, 2, 1)
    wrong.append("a record that raises isn't told")
except sheetdesk.Unrecorded as error:
    if error.answer.outcome != "ok" or not isinstance(error.__cause__, OSError):
        wrong.append("a record that raises loses the answer, or its cause")


def foretold():
    """A forecast turned down, on a scratch of the module's and on another desk; one that is too short, or has words in common."""
    told, buffer = [], bytearray(4 * size)
    first, scratch = Desk(memoryview(buffer)), Desk([7] * (size + 1))
    given = [first.forecast(0), first.new(2, 2, 2, 1), first.open(0, [Job(0, 0, 0), Job(0, 1, 0)])]
    first.record = told.append
    given += [first.forecast_into(Desk(size - 1), 0), first.forecast(0), first.forecast_into(scratch, 0)]
    first.record = None
    first.step(0, 0)
    if [str(answer) for answer in given] != ["refused 1", "ok 119", "ok 2", "refused 1", "turned 1 7", "turned 1 7"]:
        wrong.append("forecasts: %s" % ", ".join(map(str, given)))
    if given[-1].refusal is not sheetdesk.Refusal.NOT_ON_MASTER or given[0].refusal is not sheetdesk.Refusal.NOT_IN_FORM:
        wrong.append("a job that is turned down has no refusal")
    if told != ["forecast 0\nturned 1 7\n"] * 2:
        wrong.append("forecasts are recorded as %r" % told)
    if scratch.words() != first.words() + [7]:
        wrong.append("a forecast's scratch isn't what the steps leave")
    for other in (first, Desk(memoryview(buffer)), Desk(memoryview(buffer)[400:])):
        try:
            first.forecast_into(other, 0)
            wrong.append("a scratch that has words of the desk is taken")
        except ValueError:
            pass
    if str(first.forecast_into(Desk(0), 0)) != "refused 1":
        wrong.append("a scratch of no words is taken")


def audited():
    """A record as a list and as buffers, which stay as they are; numbers that are no words."""
    lacks = array.array("I", [1, 2, 3, 2, 7, 19, 25, 0, 1, 0, 0, 1, 1, 0, 1, 0, 1, 1, 1, 0, 1, 0, 0, 0, 1])
    for record in (lacks, lacks.tolist(), lacks.tobytes(), bytearray(lacks.tobytes()), memoryview(lacks)):
        if str(sheetdesk.audit(record)) != "ok 3":
            wrong.append("the record as %s: %s" % (type(record).__name__, sheetdesk.audit(record)))
    for record in ([], b"", lacks[:-1]):
        if sheetdesk.audit(record).refusal is not sheetdesk.Refusal.NOT_READABLE:
            wrong.append("%r is readable" % (record,))
    for error, record in ((OverflowError, [-1]), (TypeError, [0.5]), (TypeError, bytes(7)), (TypeError, array.array("d", [0.0]))):
        try:
            sheetdesk.audit(record)
            wrong.append("audit takes %r" % (record,))
        except error:
            pass


def texts():
    """Texts of several kinds; a forecast behind a new that makes the desk larger; one whose answers don't fit in at once."""
    for text in ("pick\nstale 0", "pick\nstale 0\n", b"pick\nstale 0", bytearray(b"pick\nstale 0\n"), memoryview(b"pick\nstale 0")):
        if Desk(size).run(text) != ["refused 1", "refused 1"]:
            wrong.append("the text %r" % (text,))
    kinds = [Desk(size).run(text) for text in ("", b"", "\n", "pick\n\n", "pick\r\n", "\u00e9\udc00 pick", "pick\u2028pick")]
    if kinds != [[], [], ["unread"], ["refused 1", "unread"], ["unread"], ["unread"], ["unread"]]:
        wrong.append("texts are answered %s" % kinds)
    for text in (7, None, ["pick"], size):
        try:
            Desk(size).run(text)
            wrong.append("run takes %r" % (text,))
        except TypeError:
            pass
    first = Desk(size)
    first.new(1, 1, 1, 1)
    answers = first.run("open 0 0 0 0\nforecast 0\nnew 2 2 2 1\nopen 0 0 0 0 0 1 0\nforecast 0")
    if answers != ["ok 1", "through", "ok 119", "ok 2", "turned 1 7"] or first.words()[9] != size:
        wrong.append("a forecast behind a new: %s" % answers)
    if first.run("forecast 0\n" * 20000) != ["turned 1 7"] * 20000:
        wrong.append("a text of 20,000 lines isn't answered line by line")


def unrecorded():
    """A record that raises at the third call: what was made, and what wasn't."""
    told = []

    def third(text):
        if len(told) == 2:
            full(text)
        told.append(text)

    desk, text = Desk(size, record=third), "new 2 2 2 1\nno call\npick\nstale 0\n" + "pick\n" * 20000
    try:
        desk.run(text)
        wrong.append("a record that raises in a text isn't told")
    except sheetdesk.Unrecorded as error:
        made = error.answer
        if made[:4] != ["ok 119", "unread", "nothing", "ok 0"] or not 4 < len(made) < 20000 or not isinstance(error.__cause__, OSError):
            wrong.append("a record that raises in a text: %d answers, %s" % (len(made), made[:4]))
    if told != ["new 2 2 2 1\nok 119\n", "pick\nnothing\n"]:
        wrong.append("of a text is recorded: %s" % told)


foretold()
audited()
texts()
unrecorded()
desk = Desk(sheetdesk.MOST_WORDS)
if desk.new(32, 16, 8, 8).standing is not None:
    wrong.append("new has a standing")
desk.open(0, [Job(0, 0, 0)])
desk.step(0, 0)
desk.issue(0, 0, 2**32 - 1)
desk.open(0, [Job(0, 0, 0)])
if desk.drop(0).standing is not None or desk.look(sheetdesk.MASTER, 0).standing != sheetdesk.Standing.EQUAL:
    wrong.append("drop has a standing, or a look has none")


def work(run):
    for _ in range(250):
        given = [desk.open(run, [Job(run, 2**32 - 1, 0)]), desk.prepare(run), desk.step(run, 0), desk.drop(run)]
        if [answer.outcome for answer in given] != ["ok"] * 4:
            wrong.append("run %d of four threads: %s" % (run, ", ".join(map(str, given))))
            return


threads = [threading.Thread(target=work, args=(run,)) for run in range(4)]
for thread in threads:
    thread.start()
for thread in threads:
    thread.join()
if desk.admit().outcome != "ok":
    wrong.append("four threads spoil the desk")
for fault in wrong:
    print("desk: " + fault)
sys.exit(1 if wrong else 0)
