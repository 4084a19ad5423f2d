"""A store that the hubs of a hall group share: one row in PostgreSQL (docs/GROUP.md).

A changing call is one transaction: the row is locked, the proved library is called on its bytes, and they are written
back with the next version. So each call gets the store as the last one left it, on whatever machine that ran. Look-ups
go by one snapshot. It needs psycopg2 besides raspteal.py; connections are made by the PG* variables, or by a dsn.

    store = GroupStore("north")
    store.save({"a": 0x10131}, buttons, axes, "Seat 7", pad)        # as raspteal.Store has them
    store.get(pad)

A refusal raises Refused, as there. Trouble says that the database could not do it, and nothing was done; Unknown, that
the connection broke while the change was committed: `done(unknown.call)` says what became of it. A GroupStore has one
connection, and is for one thread."""
import select
import uuid
from collections import namedtuple
from pathlib import Path

import psycopg2
import psycopg2.errors
from raspteal import SMALL_MAX, Refused, Store

SCHEMA = Path(__file__).with_name("group.sql")

# How long a change waits for the one before it, as the script hub does, and how long the server leaves the lock with a
# hub that has gone silent in the middle of a change.
WAIT, SILENT = 5, 30

# The last one: a server that is set to answer a COMMIT before its disk has it is overruled.
SESSION = """SET lock_timeout = '{}s'; SET idle_in_transaction_session_timeout = '{}s';
    SELECT set_config('synchronous_commit', 'on', false) WHERE current_setting('synchronous_commit') = 'off'"""

# A connection that carries nothing is tried after 10 seconds, and given up after 25.
ALIVE = dict(keepalives_idle=10, keepalives_interval=5, keepalives_count=3, tcp_user_timeout=25000)


class Trouble(Exception):
    """The database can't be reached or turned the call away; nothing was done."""


class Unknown(Trouble):
    """The connection broke while the change was committed, so it may be done or not; `GroupStore.done` says it."""

    def __init__(self, call, version):
        super().__init__(f"the connection broke while version {version} was committed: it may be done or not")
        self.call, self.version = call, version


# What a changing call came to: its name, the version that it made, or found where it changed no byte.
Change = namedtuple("Change", "call version written")

Kept = namedtuple("Kept", "call version store")


def in_words(error):
    """Why the database did not do it."""
    if isinstance(error, psycopg2.errors.LockNotAvailable):
        return f"another hub was at work on this store for {WAIT} seconds; try again"
    if isinstance(error, (psycopg2.errors.UndefinedTable, psycopg2.errors.InvalidSchemaName)):
        return "this database has no stores of a group yet: hub-group init makes one"
    return (error.diag.message_primary if error.diag else None) or str(error).strip()


def broken(error):
    """Whether the connection broke, or may have: the server has not said what was wrong, or that it shuts down. Whether
    psycopg2 holds the connection for closed is not asked, as it may learn that one call later."""
    return error.pgcode is None or error.pgcode[:2] in ("08", "57")


class Link:
    """One connection. Each statement is a transaction of its own, but for those between BEGIN and COMMIT. Where one
    fails the connection is closed, which ends its transaction on the server, and the next one makes another."""

    def __init__(self, dsn=""):
        self.dsn, self.connection, self.listening = dsn, None, False

    @property
    def open(self):
        return self.connection is not None and not self.connection.closed

    def close(self):
        if self.connection is not None:
            self.connection.close()
        self.connection, self.listening = None, False

    def connect(self):
        self.connection = psycopg2.connect(self.dsn, **ALIVE)
        self.connection.autocommit = True
        self.connection.cursor().execute(SESSION.format(WAIT, SILENT))

    def ask(self, statement, arguments=None):
        """The last statement's first row, or None."""
        cursor = self.connection.cursor()
        cursor.execute(statement, arguments)
        return cursor.fetchone() if cursor.description else None

    def begin(self, statement, arguments=None):
        """The same for a statement that changes nothing: where the connection broke since it was last used, it is asked
        once more on another."""
        kept = self.open
        try:
            if not kept:
                self.connect()
            return self.ask(statement, arguments)
        except psycopg2.Error as error:
            self.close()
            if kept and broken(error):
                return self.begin(statement, arguments)
            raise Trouble(in_words(error)) from None

    def go_on(self, statement, arguments=None):
        """The same within a transaction that has begun."""
        try:
            return self.ask(statement, arguments)
        except psycopg2.Error as error:
            self.close()
            raise Trouble(in_words(error)) from None

    def commit(self, call, version):
        """Where the server's answer to COMMIT does not arrive, nobody here knows whether it was done."""
        cursor = self.connection.cursor()
        try:
            cursor.execute("COMMIT")
        except psycopg2.Error as error:
            self.close()
            raise (Unknown(call, version) if broken(error) else Trouble(in_words(error))) from None
        if cursor.statusmessage != "COMMIT":
            raise Trouble("the database rolled the change back")

    def listen(self):
        """From now on the server tells this connection which stores were changed."""
        self.begin("LISTEN raspteal")
        self.listening = True

    def heard(self):
        """The stores that were changed since; None where it is not known, since the connection broke."""
        try:
            # as long as there is something to read; a connection that has ended is readable, and fails
            while select.select([self.connection], [], [], 0)[0]:
                self.connection.poll()
        except psycopg2.Error:
            self.close()
            return None
        names = {told.payload for told in self.connection.notifies}
        self.connection.notifies.clear()
        return names


READ = """SELECT version, call, CASE WHEN call IS DISTINCT FROM %(known)s::uuid THEN index END,
    CASE WHEN call IS DISTINCT FROM %(known)s::uuid THEN text END FROM raspteal.store WHERE name = %(name)s"""

# READ COMMITTED: who has waited for the lock reads the row as it stands then, not as it stood when he began to wait.
LOCK = """BEGIN ISOLATION LEVEL READ COMMITTED;
    SELECT version, index, text FROM raspteal.store WHERE name = %(name)s FOR UPDATE"""

LINES = """SELECT array_agg(owner ORDER BY n) FILTER (WHERE n > 0), array_agg(line ORDER BY n) FILTER (WHERE n > 0)
    FROM raspteal.store LEFT JOIN LATERAL raspteal.lines(index, text) WITH ORDINALITY AS l(owner, uuid, line, n) ON true
    WHERE name = %(name)s GROUP BY name"""

WRITE = "UPDATE raspteal.store SET version = version + 1, call = %s, index = %s, text = %s WHERE name = %s"


class GroupStore:
    """A store of the group, by its name. Its calls are those of raspteal.Store. `keep`: look-ups go by a copy in memory
    until the server says that the store was changed; else each look-up asks for the version, and for the bytes where
    it has moved."""

    def __init__(self, name, dsn="", keep=False):
        self.name, self.link, self.keep = name, Link(dsn), keep
        self.kept = self.last = None

    def close(self):
        self.link.close()
        self.kept = None

    def missing(self):
        self.link.close()
        return Trouble(f"there is no store {self.name}: hub-group init {self.name} makes it")

    # ---- Changing calls

    def change(self, run, call=None):
        """Runs a changing call, `run(store)`, in one transaction, and hands its answer back, or raises its refusal;
        `last` says which version it made or found. The bytes are written where they differ: a refusal leaves them as
        they were, but for an insert that stops at a line."""
        call, self.last = call or uuid.uuid4(), None
        row = self.link.begin(LOCK, {"name": self.name})
        if row is None:
            raise self.missing()
        version, store, refused, answer = row[0], Store.over(*row[1:]), None, None
        before = store.halves
        try:
            answer = run(store)
        except Refused as told:
            refused = told
        except BaseException:
            self.link.close()
            raise
        after = store.halves
        if after == before:
            self.link.go_on("ROLLBACK")
        else:
            version += 1
            self.link.go_on(WRITE, (str(call), *map(psycopg2.Binary, after), self.name))
            self.link.commit(call, version)
        self.last = Change(call, version, after != before)
        if refused:
            raise refused
        return answer

    def insert(self, lines, party=None):
        return self.change(lambda store: store.insert(lines, party))

    def save(self, bound, buttons, axes, name, pad, party=None):
        return self.change(lambda store: store.save(bound, buttons, axes, name, pad, party))

    def clear(self):
        return self.change(Store.clear)

    def set_share(self, party, size):
        return self.change(lambda store: store.set_share(party, size))

    def done(self, call):
        """The version that a call made, or None where it was not done. The lock is taken first: whoever was at work has
        ended then, one way or the other."""
        row = self.link.begin(LOCK, {"name": self.name})
        if row is None:
            raise self.missing()
        made = self.link.go_on("SELECT version FROM raspteal.call WHERE call = %s", (str(call),))
        self.link.go_on("ROLLBACK")
        return made and made[0]

    # ---- Look-ups

    def unmoved(self):
        """Whether the copy in memory is the store, as far as the server has told."""
        if not (self.kept and self.keep and self.link.listening):
            return False
        names = self.link.heard()
        return names is not None and self.name not in names

    def read(self):
        """The store as it stands: index and text of one snapshot."""
        if self.unmoved():
            return self.kept.store
        if self.keep and not (self.link.open and self.link.listening):
            self.link.listen()
        row = self.link.begin(READ, {"name": self.name, "known": self.kept and self.kept.call})
        if row is None:
            raise self.missing()
        version, call, index, text = row
        self.kept = Kept(call, version, self.kept.store if index is None else Store.over(index, text))
        return self.kept.store

    @property
    def version(self):
        """How often the store has been changed."""
        self.read()
        return self.kept.version

    def found(self, pad, party=None):
        return self.read().found(pad, party)

    def get(self, pad, party=None):
        return self.read().get(pad, party)

    def get_near(self, pad, party=None):
        return self.read().get_near(pad, party)

    def mapping(self, pad, buttons=(), axes=(), party=None):
        return self.read().mapping(pad, buttons, axes, party)

    def share(self, party=None):
        return self.read().share(party)

    def lines(self):
        """The lines held, in their order, as (owner, line); owner 0 is the hall. The database takes the row apart."""
        row = self.link.begin(LINES, {"name": self.name})
        if row is None:
            raise self.missing()
        return list(zip(row[0] or [], map(bytes, row[1] or [])))


def create(name, index_len=SMALL_MAX, text_len=SMALL_MAX, dsn=""):
    """Makes a fresh store, of the smaller size if nothing is said; first the schema where it is not there. Whether it is
    new."""
    if not name:
        raise Trouble("the name of the store is empty")
    link = Link(dsn)
    link.begin("BEGIN; SELECT pg_advisory_xact_lock(hashtext('raspteal'))")
    link.go_on(SCHEMA.read_text())
    made = link.go_on("""INSERT INTO raspteal.store (name, call, index, text) VALUES (%s, %s, %s, %s)
        ON CONFLICT DO NOTHING RETURNING name""",
        (name, str(uuid.uuid4()), psycopg2.Binary(bytes(index_len)), psycopg2.Binary(bytes(text_len))))
    link.go_on("COMMIT")
    link.close()
    return made is not None
