"""An engine as profile_table.py asks it: one connection or several, and statements whose parameters are written as its module wants."""
import contextlib
import importlib
import json
import os
import queue
import threading
import urllib.parse
from concurrent.futures import ThreadPoolExecutor

from table_cells import Refused, encoded, one_line
from table_dialects import dialect_of

MARK = "\0"  # stands in a statement where a parameter goes
FETCHED = 5000  # rows at a time


class Place:
    """What connects to a database, as often as asked."""

    def __init__(self, args):
        self.args = args
        self.name = args.module or "sqlite3"
        try:
            self.module = importlib.import_module(self.name)
        except ImportError as error:
            raise Refused(f"no module {self.name}: {one_line(error)}")
        self.said = args.sqlite or self.name  # who speaks in messages

    def connection(self):
        if self.args.sqlite is not None:
            return self.to_file(self.args.sqlite)
        try:
            words = json.loads(self.args.connect)
        except ValueError:
            words = self.args.connect
        try:
            if isinstance(words, dict):
                return self.module.connect(**words)
            return self.module.connect(*words) if isinstance(words, list) else self.module.connect(self.args.connect)
        except Exception as error:  # each module has errors of its own
            raise Refused(f"{self.name} can't connect: {one_line(error)}")

    def to_file(self, name):
        if not os.path.isfile(name):
            raise Refused(f"{name}: no such file")
        place = urllib.parse.quote(os.path.abspath(name))
        connection = self.module.connect(f"file:{place}?mode=ro", uri=True, isolation_level=None, check_same_thread=False)
        connection.text_factory = lambda text: text.decode("utf-8", "surrogateescape")
        return connection


class Engine:
    """Connections that run statements, and how their engine writes them. The first one runs what is asked one by one."""

    def __init__(self, args):
        self.place, self.scans = Place(args), 0
        self.module = self.place.module
        self.is_sqlite = self.module.__name__ == "sqlite3"
        dialect = self.dialect = dialect_of(self.module.__name__)
        dialect.quote, dialect.random = args.quote or dialect.quote, args.random or dialect.random
        dialect.text_type = args.text_type or dialect.text_type
        self.connections, self.lock = [self.opened()], threading.Lock()
        self.before, self.many = args.before, args.connections

    def opened(self):
        """A new connection."""
        connection = self.place.connection()
        for statement in self.dialect.session:
            with contextlib.suppress(Exception):  # it only makes things faster
                connection.cursor().execute(statement)
                connection.commit()
        return connection

    def begin(self):
        """Has all statements from here on see one state of the database, where the engine can; and opens the other connections."""
        self.end_transaction()
        for statement in self.before or ([self.dialect.begin] if self.dialect.begin else []):
            self.do(statement)
        if self.is_sqlite:
            self.run("SELECT COUNT(*) FROM sqlite_master")  # begins the transaction in fact
        shared = self.run(self.dialect.share)[0][0] if self.dialect.share and self.many > 1 and not self.before else None
        state = self.file_state()
        for _ in range(1, self.many):
            connection = self.opened()
            self.connections.append(connection)
            with contextlib.suppress(Exception):
                connection.rollback()
            for statement in self.before or ([self.dialect.begin] if self.dialect.begin else []):
                self.do(statement, connection)
            if shared is not None:
                self.do(self.dialect.join.format(shared), connection)
            if self.is_sqlite:
                self.run("SELECT COUNT(*) FROM sqlite_master", (), connection)
        if self.file_state() != state:
            raise Refused(f"{self.place.said} changed while its connections were opened")
        self.sees_one_state = bool(self.is_sqlite or self.before and self.many == 1 or self.dialect.begin and (self.many == 1 or shared is not None))

    def file_state(self):
        """What tells one state of a file of sqlite from another."""
        if not self.is_sqlite:
            return None
        names = [self.place.args.sqlite, self.place.args.sqlite + "-wal"]
        return [(s.st_size, s.st_mtime_ns) for s in (os.stat(name) for name in names if os.path.exists(name))]

    # ------------------------------------------------------------ how statements are written

    def quoted(self, name):
        mark = self.dialect.quote
        if MARK in name:
            raise Refused("a name with a zero byte")
        return mark + name.replace(mark, mark + mark) + mark

    def rendered(self, statement, values):
        """The statement with the marks for parameters that the module knows, and the parameters."""
        parts, style = statement.split(MARK), self.module.paramstyle
        if style in ("format", "pyformat"):
            if not values:
                return statement, ()
            parts = [part.replace("%", "%%") for part in parts]
            if not self.dialect.by_name:
                return "%s".join(parts), values
            return parts[0] + "".join(f"%(p{k})s{p}" for k, p in enumerate(parts[1:], 1)), named(values)
        if style == "qmark":
            return "?".join(parts), values
        text = parts[0] + "".join(f":{'p' if style == 'named' else ''}{k}{p}" for k, p in enumerate(parts[1:], 1))
        return text, named(values) if style == "named" else values

    def parameter(self, value):
        """How a statement names a parameter, and its value."""
        if self.is_sqlite and isinstance(value, str) and any("\ud800" <= c <= "\udfff" for c in value):
            return f"CAST({MARK} AS TEXT)", encoded(value)  # a text of bytes that are no UTF-8
        return MARK, value

    # ------------------------------------------------------------ statements

    def run(self, statement, values=(), connection=None):
        """All rows of a statement."""
        return list(self.each(statement, values, connection))

    def each(self, statement, values=(), connection=None, streaming=False):
        """The rows of a statement, some thousands at a time."""
        cursor = self.cursor_of(statement, values, connection, streaming)
        try:
            while rows := cursor.fetchmany(FETCHED):
                yield from rows
        except Exception as error:  # each module has errors of its own
            raise self.refusal(error)
        finally:
            with contextlib.suppress(Exception):
                cursor.close()

    def together(self, asked):
        """The rows of several statements, given as (statement, parameters), each as a list: at the same time where there are several
        connections."""
        if len(self.connections) == 1 or len(asked) < 2:
            return [self.run(*each) for each in asked]
        free = queue.SimpleQueue()
        for connection in self.connections:
            free.put(connection)

        def one(each):
            connection = free.get()
            try:
                return self.run(*each, connection)
            finally:
                free.put(connection)

        with ThreadPoolExecutor(len(self.connections)) as pool:
            return list(pool.map(one, asked))

    def names_of(self, statement):
        """The names of a statement's columns."""
        cursor = self.cursor_of(statement, ())
        names = [column[0] for column in cursor.description]
        cursor.fetchall()
        cursor.close()
        return names

    def do(self, statement, connection=None):
        """Runs a statement that gives no rows."""
        self.cursor_of(statement, (), connection).close()

    def cursor_of(self, statement, values, connection=None, streaming=False):
        text, values = self.rendered(statement, tuple(values))
        connection = connection or self.connections[0]
        try:
            cursor = self.dialect.streaming(connection, self.module) if streaming else connection.cursor()
            cursor.execute(text, values) if values else cursor.execute(text)
        except Exception as error:
            raise self.refusal(error)
        return cursor

    def refusal(self, error):
        return Refused(f"{self.place.said}: {one_line(error)}")

    def takes(self, statement, values=()):
        """Whether the engine takes a statement."""
        try:
            self.run(statement, values)
            return True
        except Refused:
            self.end_transaction()
            return False

    def end_transaction(self):
        """After an error some engines take no statement before this; others know no transaction."""
        if not self.is_sqlite:
            with contextlib.suppress(Exception):
                self.connections[0].rollback()

    def close(self):
        for connection in self.connections:
            with contextlib.suppress(Exception):
                connection.close()


def named(values):
    return {f"p{k}": v for k, v in enumerate(values, 1)}
