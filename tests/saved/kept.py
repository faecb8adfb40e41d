"""What the trials of the store share: where the database is, a process of their own, and a desk held against its log."""
from common import *
import sheetdesk_store

WHERE = sys.argv[1]
SHARED = WHERE.startswith("postgresql:")
ISSUE = ["open %d 0 0 0", "step %d 0", "issue %d 0 1"]


def where(name):
    """Of a trial: one database for all in PostgreSQL, a file each in SQLite."""
    return WHERE if SHARED else os.path.join(WHERE, name + ".db")


def issue(run):
    return [line % run for line in ISSUE]


def forked(work):
    """A process that does some work, with what it writes to a pipe."""
    reads, writes = os.pipe()
    process = os.fork()
    if process == 0:
        try:
            os.close(reads)
            work(lambda number: os.write(writes, b"%d\n" % number))
            os._exit(0)
        except BaseException as error:
            os.write(2, ("%s\n" % error).encode())
            os._exit(1)
    os.close(writes)
    return process, os.fdopen(reads, "rb")


class Follows:
    """A desk that is held against its log, from the last time on."""

    def __init__(self, store, name):
        self._store, self._name, self._log = store, name, ""
        self._room = sheetdesk_store._Room()

    def check(self):
        """The log goes on from what it was, and replays to the desk. Gives the last issue number. What a process that was killed has
        sent to a server may still be under way: it has the row."""
        with self._store._locked(self._name):
            pass
        log, now = self._store.log(self._name), self._store.content(self._name)
        if not log.startswith(self._log):
            bad("the log has lost calls")
        more = log[len(self._log):].split("\n")[:-1]
        if self._room.answers(more[::2]) != more[1::2]:
            bad("the log doesn't replay")
        if self._room.content() != now:
            bad("the log doesn't replay to the desk: it ends with %s" % more[-6:])
        self._room._desk.record, self._log = self._room.log.append, log
        return sheetdesk_file.unpack(now)[4]


def replayed(store, name):
    """The log by the command's own tool."""
    said = lines([HISTORY, "replay", name], input=store.log(name).encode())
    if "each answered as the log has it" not in said[-1]:
        bad("--replay of the log of %s: %s" % (name, said))
