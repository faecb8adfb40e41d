"""Named desks in a database, for groups of offices: calls as the program's lines of text, and a log of them.

    store = sheetdesk_store.Store("desks.db")                  # SQLite, one file
    store = sheetdesk_store.Store("postgresql://host/base")    # PostgreSQL, by psycopg or psycopg2
    store.call("tower", ["new 2 2 2 1", "open 0 0 0 0"])       # ["ok 119", "ok 1"]
    store.log("tower")                                         # replays: ./sheetdesk --replay

The calls of one `call` are one transaction, in which desk and log change together: after a crash both are there, or
neither is, so the log always replays to the desk. Calls on one desk take turns, whatever process or machine they come
from. A desk is kept as the bytes of its file (docs/FORMAT.md), and admitted each time before calls are made on it; one that
isn't raises sheetdesk_file.Fault. Threads may share a Store; a process that forks makes its own.
"""
import contextlib
import queue
import sqlite3

import sheetdesk
import sheetdesk_file

_TABLES = (
    "CREATE TABLE IF NOT EXISTS sheetdesk_desks (name TEXT PRIMARY KEY, content BYTEA NOT NULL, calls BIGINT NOT NULL)",
    "CREATE TABLE IF NOT EXISTS sheetdesk_log (name TEXT NOT NULL, first BIGINT NOT NULL, lines TEXT NOT NULL, "
    "PRIMARY KEY (name, first))",
)
_LOG = "SELECT lines FROM sheetdesk_log WHERE name = %s ORDER BY first"
# Any number: who makes the tables takes turns by it.
_TURN = 4403


class _Nothing(LookupError):
    """There is no desk, and none was made."""


class _Room:
    """A desk from its file's bytes, or none, with room for any other; `log` takes its calls."""

    def __init__(self, content=b""):
        room = bytearray(4 * sheetdesk.MOST_WORDS)
        words = bytes(sheetdesk_file.unpack(content)) if content else b""
        room[: len(words)] = words
        self._words, self.log = memoryview(room).cast("I"), []
        self._desk = sheetdesk.Desk(room, self.log.append)

    def answers(self, lines):
        """One for each line; one that has a line feed in it is none of the calls' forms."""
        return self._desk.run("".join(line.replace("\n", "\r") + "\n" for line in lines))

    def content(self):
        """Its file's bytes."""
        self._desk.record = None
        if self._desk.admit().refusal == sheetdesk.Refusal.NOT_IN_FORM:
            raise _Nothing("there is no such desk")
        return sheetdesk_file.pack(self._words[: self._words[9]])


class Store:
    """Desks in an SQLite file, or in PostgreSQL if `where` begins with "postgresql:". Another who has a desk is waited for,
    so many seconds at most."""

    def __init__(self, where, seconds=60):
        self._where, self._seconds, self._idle = where, seconds, queue.LifoQueue()
        self._shared = where.startswith("postgresql:")
        with self._transaction() as run:
            if self._shared:
                run("SELECT pg_advisory_xact_lock(%s)", _TURN)
            for table in _TABLES:
                run(table)

    def _connect(self):
        if not self._shared:
            made = sqlite3.connect(self._where, timeout=self._seconds, isolation_level=None, check_same_thread=False)
            made.execute("PRAGMA journal_mode=WAL")
            made.execute("PRAGMA synchronous=FULL")
            return made
        try:
            import psycopg as driver
        except ImportError:
            import psycopg2 as driver
        made = driver.connect(self._where)
        made.cursor().execute("SET lock_timeout = '%ds'" % self._seconds)
        made.commit()
        return made

    def _taken(self):
        """An idle connection whose server is still there, or a new one."""
        while not self._idle.empty():
            with contextlib.suppress(queue.Empty):
                connection = self._idle.get_nowait()
                try:
                    if self._shared:
                        connection.cursor().execute("SELECT 1")
                    return connection
                except Exception:
                    connection.close()
        return self._connect()

    @contextlib.contextmanager
    def _transaction(self, writes=True):
        """Gives what runs a statement and fetches its rows; all of it is kept at the end, or nothing if it raises."""
        connection = self._taken()
        cursor = connection.cursor()

        def run(statement, *values):
            cursor.execute(statement if self._shared else statement.replace("%s", "?"), values)
            return cursor.fetchall() if cursor.description else []

        try:
            if writes and not self._shared:
                cursor.execute("BEGIN IMMEDIATE")
            yield run
            connection.commit()
        except BaseException:
            with contextlib.suppress(Exception):
                connection.rollback()
            connection.close()
            raise
        self._idle.put(connection)

    @contextlib.contextmanager
    def _locked(self, name):
        """A transaction that has the desk's row for itself; one is made where there is none. Gives what runs statements, the
        row's bytes and the number of its calls."""
        with self._transaction() as run:
            run("INSERT INTO sheetdesk_desks VALUES (%s, %s, 0) ON CONFLICT DO NOTHING", name, b"")
            row = run("SELECT content, calls FROM sheetdesk_desks WHERE name = %s" + " FOR UPDATE" * self._shared, name)[0]
            yield run, bytes(row[0]), row[1]

    def call(self, name, lines):
        """Makes the calls, all in one transaction, and gives their answers. Each is logged, but for lines that are no call.
        Where there is no desk and none is made, nothing is kept."""
        with contextlib.suppress(_Nothing), self._locked(name) as (run, content, calls):
            room = _Room(content)
            answers = room.answers(lines)
            self._keep(run, name, room, calls)
        return answers

    def _keep(self, run, name, room, calls):
        content, log = room.content(), room.log
        if log:
            run("UPDATE sheetdesk_desks SET content = %s, calls = %s WHERE name = %s", content, calls + len(log), name)
            run("INSERT INTO sheetdesk_log VALUES (%s, %s, %s)", name, calls + 1, "".join(log))

    def _read(self, statement, *values):
        with self._transaction(writes=False) as run:
            return run(statement, *values)

    def ask(self, name, lines):
        """The answers to calls on a copy of the desk: nothing is kept or logged, and nobody waits."""
        return _Room(self.content(name) or b"").answers(lines)

    def content(self, name):
        """The desk as its file has it, bytes to be written to one; None if there is no such desk."""
        rows = self._read("SELECT content FROM sheetdesk_desks WHERE name = %s", name)
        return bytes(rows[0][0]) if rows else None

    def log(self, name):
        """The log: each call with its answer, two lines, from the desk's new on."""
        return "".join(row[0] for row in self._read(_LOG, name))

    def names(self):
        return [row[0] for row in self._read("SELECT name FROM sheetdesk_desks ORDER BY name")]

    def renew(self, name):
        """Makes a desk anew from its log: one of another layout, or one that isn't admitted. Its log then has the answers of
        now; if one has another first word than before, a ValueError says which, and nothing is kept."""
        with self._locked(name) as (run, _, _):
            lines = "".join(row[0] for row in run(_LOG, name)).split("\n")
            room = _Room()
            for call, before, now in zip(lines[::2], lines[1::2], room.answers(lines[:-1:2])):
                if now.split(" ")[0] != before.split(" ")[0]:
                    raise ValueError("%s: %s -> %s, the log has %s" % (name, call, now, before))
            run("DELETE FROM sheetdesk_log WHERE name = %s", name)
            self._keep(run, name, room, 0)

    def close(self):
        with contextlib.suppress(queue.Empty):
            while True:
                self._idle.get_nowait().close()
