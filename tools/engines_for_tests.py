"""Engines that tests load scripts into, each by its own shell: sqlite3, psql and mariadb (or mysql).

A server is started where its programs are there: in a folder of its own, reached by a socket in that folder alone, and it is ended with
the tests. As root it runs as another user, since servers refuse root.
"""
import atexit
import contextlib
import glob
import os
import pwd
import shutil
import subprocess
import tempfile
import time

SOME_USERS = ("postgres", "mysql", "nobody")


def program(*names):
    """The path of the first of these programs that is there, also where servers are kept."""
    for name in names:
        places = [shutil.which(name), *sorted(glob.glob(f"/usr/lib/postgresql/*/bin/{name}"), reverse=True), f"/usr/sbin/{name}",
                  f"/usr/libexec/{name}"]
        for place in places:
            if place and os.access(place, os.X_OK):
                return place
    return None


def other_user():
    """Words for subprocess that run a program as another user, where this one is root; and a function that gives that user a folder."""
    if os.geteuid() != 0:
        return {}, lambda folder: None
    for name in SOME_USERS:
        with contextlib.suppress(KeyError):
            user = pwd.getpwnam(name)
            return ({"user": user.pw_uid, "group": user.pw_gid, "extra_groups": []}, lambda folder: os.chown(folder, user.pw_uid, user.pw_gid))
    return {}, lambda folder: None


class Engine:
    """A shell and what it runs in."""
    dialect = ""

    @classmethod
    def start(cls):
        """The engine, ready to load, or None and why not."""
        raise NotImplementedError

    def fresh(self, folder):
        """Forgets all tables. What files there are to be are in this folder."""
        raise NotImplementedError

    def load(self, script):
        """Runs a script: the shell's status and what it wrote to standard error."""
        done = self.shell(script)
        return done.returncode, done.stderr.decode("utf-8", "replace")

    def ask(self, statement):
        """The rows of a statement, as texts; NULL is None."""
        raise NotImplementedError

    def end(self):
        pass


class Sqlite(Engine):
    dialect = "sqlite"

    @classmethod
    def start(cls):
        if not shutil.which("sqlite3"):
            return None, "no sqlite3"
        version = subprocess.run(["sqlite3", "-version"], capture_output=True).stdout.split()[:1] or [b"0.0"]
        if tuple(map(int, version[0].split(b".")[:2])) < (3, 32):
            return None, "the sqlite3 shell is older than 3.32"
        return cls(), None

    def fresh(self, folder):
        self.folder = folder
        with contextlib.suppress(FileNotFoundError):
            os.remove(os.path.join(folder, "x.db"))

    def shell(self, script, *words):
        return subprocess.run(["sqlite3", "-bail", *words, "x.db"], cwd=self.folder, input=script, capture_output=True)

    def ask(self, statement):
        done = self.shell(statement.encode("utf-8"), "-quote", "-newline", "\x02\n", "-separator", "\x01")
        if done.returncode:
            raise AssertionError(done.stderr)
        rows = done.stdout.decode("utf-8", "surrogateescape").split("\x02\n")[:-1]
        return [[value_of(field) for field in row.split("\x01")] for row in rows]


def value_of(field):
    """The value of a literal that the shell writes."""
    if field == "NULL":
        return None
    return field[1:-1].replace("''", "'") if field.startswith("'") else field


class Server(Engine):
    """An engine that is a server of its own."""

    def __init__(self):
        self.home = tempfile.mkdtemp(prefix="depprof_")  # short, since the path of a socket is
        self.process = None
        os.chmod(self.home, 0o755)
        self.words, own = other_user()
        self.data = os.path.join(self.home, "d")
        os.mkdir(self.data)
        own(self.data)

    def fresh(self, folder):
        self.folder = folder
        status, error = self.load(self.forget)
        if status:
            raise AssertionError(error)

    def run(self, words):
        """Runs a program to its end, and says what it said where it fails."""
        done = subprocess.run(words, cwd="/", stdin=subprocess.DEVNULL, stdout=subprocess.PIPE, stderr=subprocess.STDOUT, **self.words)
        if done.returncode:
            raise OSError(" ".join(done.stdout.decode("utf-8", "replace").split())[-200:])

    def begin(self, words):
        """Starts the server and waits until it answers."""
        with open(os.path.join(self.home, "log"), "wb") as log:
            self.process = subprocess.Popen(words, cwd="/", stdin=subprocess.DEVNULL, stdout=log, stderr=log, **self.words)
        for _ in range(300):
            if self.process.poll() is None and self.shell(b"SELECT 1;").returncode == 0:
                return
            if self.process.poll() is not None:
                break
            time.sleep(0.2)
        raise OSError("the server does not answer")

    @classmethod
    def started(cls, prepare):
        engine = cls()
        atexit.register(engine.end)  # where the tests are interrupted
        try:
            prepare(engine)
            return engine, None
        except (OSError, subprocess.SubprocessError) as error:
            engine.end()
            return None, f"{cls.dialect}: {error}"

    def end(self):
        if self.process and self.process.poll() is None:
            self.process.terminate()
            try:
                self.process.wait(30)
            except subprocess.TimeoutExpired:
                self.process.kill()
                self.process.wait()
        shutil.rmtree(self.home, ignore_errors=True)


class Postgres(Server):
    dialect = "postgres"
    forget = b"DROP SCHEMA public CASCADE; CREATE SCHEMA public;"

    @classmethod
    def start(cls):
        if not (shutil.which("psql") and program("initdb") and program("postgres")):
            return None, "no PostgreSQL (psql, initdb, postgres)"
        return cls.started(cls.prepare)

    def prepare(self):
        self.run([program("initdb"), "-D", self.data, "-U", "tests", "-A", "trust", "-E", "UTF8", "--locale=C", "--no-sync"])
        self.begin([program("postgres"), "-D", self.data, "-k", self.data, "-c", "listen_addresses=", "-c", "fsync=off"])

    def shell(self, script, *words):
        words = ["psql", "-X", "-q", "-v", "ON_ERROR_STOP=1", "-h", self.data, "-U", "tests", *words, "postgres"]
        surroundings = {name: value for name, value in os.environ.items() if not name.startswith("PG")}
        return subprocess.run(words, cwd=getattr(self, "folder", "/"), input=script, capture_output=True,
                              env={**surroundings, "PGOPTIONS": "-c client_min_messages=warning"})

    def ask(self, statement):
        done = self.shell(statement.encode("utf-8"), "-A", "-t", "-F", "\x01", "-R", "\x02", "-P", "null=\x03")
        if done.returncode:
            raise AssertionError(done.stderr)
        text = done.stdout.decode("utf-8").rstrip("\n")
        return [[None if field == "\x03" else field for field in row.split("\x01")] for row in text.split("\x02")] if done.stdout else []


class Mysql(Server):
    dialect = "mysql"
    forget = b"DROP DATABASE IF EXISTS tests; CREATE DATABASE tests;"

    @classmethod
    def start(cls):
        if not (program("mariadb", "mysql") and program("mariadbd", "mysqld")):
            return None, "no MariaDB or MySQL"
        return cls.started(cls.prepare)

    def prepare(self):
        self.socket = os.path.join(self.data, "s")
        installer = program("mariadb-install-db", "mysql_install_db")
        if installer:
            self.run([installer, "--no-defaults", f"--datadir={self.data}", "--auth-root-authentication-method=normal", "--skip-test-db"])
        else:
            self.run([program("mysqld"), "--no-defaults", "--initialize-insecure", f"--datadir={self.data}"])
        self.begin([program("mariadbd", "mysqld"), "--no-defaults", f"--datadir={self.data}", f"--socket={self.socket}", "--skip-networking",
                    f"--pid-file={self.data}/pid", "--innodb-flush-log-at-trx-commit=0", "--skip-log-bin"])
        status, error = self.load(self.forget)
        if status:
            raise OSError(error)

    def shell(self, script, *words, database=()):
        words = [program("mariadb", "mysql"), "--no-defaults", f"--socket={self.socket}", "--user=root", "--default-character-set=utf8mb4", *words,
                 *database]
        return subprocess.run(words, cwd=getattr(self, "folder", "/"), input=script, capture_output=True)

    def load(self, script):
        done = self.shell(script, database=() if script is self.forget else ["tests"])
        return done.returncode, done.stderr.decode("utf-8", "replace")

    def ask(self, statement):
        done = self.shell(statement.encode("utf-8"), "-N", "-B", database=["tests"])
        if done.returncode:
            raise AssertionError(done.stderr)
        return [[unescaped(field) for field in line.split("\t")] for line in done.stdout.decode("utf-8", "surrogateescape").split("\n")[:-1]]


def unescaped(field):
    """A field of a line of the client's, which writes tabs, ends of lines and zero bytes by a backslash."""
    if field == "NULL":
        return None
    for mark, text in (("\\\\", "\0B"), ("\\n", "\n"), ("\\t", "\t"), ("\\0", "\0"), ("\0B", "\\")):
        field = field.replace(mark, text)
    return field


def started():
    """The engines that are there, and a line for each that is not."""
    engines, missing = [], []
    for kind in (Sqlite, Postgres, Mysql):
        engine, why = kind.start()
        engines += [engine] if engine else []
        missing += [why] if why else []
    return engines, missing
