"""Engines that tests of profile_table.py fill and ask through their modules: sqlite, PostgreSQL, PostgreSQL over two servers more, MariaDB
and ClickHouse. Each is started where its programs and a module for it are there, in a folder of its own, and ends with the tests."""
import contextlib
import importlib
import importlib.util
import os
import socket
import sqlite3
import tempfile
import uuid

import engines_for_tests as engines

# How each engine names the kinds of columns that the relations of the tests have.
KINDS = {
    "sqlite": {"integer": "INTEGER", "text": "TEXT", "bytes": "BLOB"},
    "postgres": {"integer": "integer", "text": "text", "decimal": "numeric(8, 2)", "date": "date", "timestamp": "timestamp", "boolean": "boolean",
                 "real": "double precision", "uuid": "uuid"},
    "mysql": {"integer": "INT", "text": "VARCHAR(200) CHARACTER SET utf8mb4", "decimal": "DECIMAL(8, 2)", "date": "DATE", "timestamp": "DATETIME",
              "real": "DOUBLE", "bytes": "BLOB"},
    "clickhouse": {"integer": "Int32", "text": "String", "date": "Date", "timestamp": "DateTime", "real": "Float64"},
}


def has(*modules):
    """The first of these modules that is there."""
    for module in modules:
        with contextlib.suppress(ModuleNotFoundError):
            if importlib.util.find_spec(module):
                return module
    return None


def given(value):
    """A value as each module takes it."""
    return str(value) if isinstance(value, uuid.UUID) else value


class Filled:
    """An engine under test: the words that reach it, and how it gets tables."""
    name, kinds, quote = "", {}, '"'
    schema = "public"
    has_index = True  # unique ones of any table

    def quoted(self, name):
        return self.quote + name.replace(self.quote, 2 * self.quote) + self.quote

    def typed(self, kind, has_null):
        return self.kinds[kind]

    def made(self, name, columns, rest=""):
        """The statement that makes a table of these columns, given as (name, kind, whether it has NULL)."""
        return f"CREATE TABLE {self.quoted(name)} ({', '.join(f'{self.quoted(n)} {self.typed(k, null)}' for n, k, null in columns)}){rest}"

    def fill(self, name, columns, rows):
        with contextlib.closing(self.connected()) as connection:
            cursor = connection.cursor()
            cursor.execute(self.made(name, columns))
            for at in range(0, len(rows), 500):
                some = rows[at:at + 500]
                marks = ", ".join("(" + ", ".join(["%s"] * len(columns)) + ")" for _ in some)
                cursor.execute(f"INSERT INTO {self.quoted(name)} VALUES {marks}", [given(v) for row in some for v in row])
            connection.commit()

    def run(self, *statements):
        with contextlib.closing(self.connected()) as connection:
            for statement in statements:
                connection.cursor().execute(statement)
            connection.commit()

    def unsuitable(self):
        """Makes tables that can't be profiled, and answers their names."""
        if "bytes" not in self.kinds:
            return []
        self.fill("A Bin", [("b", "bytes", False)], [(b"\x00\xff",), (b"\x01",)])
        return ["A Bin"]

    def end(self):
        pass


class Sqlite(Filled):
    name, kinds, schema = "sqlite", KINDS["sqlite"], "main"

    @classmethod
    def start(cls):
        engine = cls()
        engine.folder = tempfile.TemporaryDirectory(prefix="depprof_")
        engine.file = os.path.join(engine.folder.name, "x.db")
        return engine, None

    def reached(self):
        return ["--sqlite", self.file]

    def connected(self):
        return sqlite3.connect(self.file)

    def fill(self, name, columns, rows):
        with contextlib.closing(self.connected()) as connection:
            connection.execute(self.made(name, columns))
            connection.executemany(f"INSERT INTO {self.quoted(name)} VALUES ({', '.join('?' * len(columns))})", rows)
            connection.commit()

    def end(self):
        self.folder.cleanup()


class Postgres(Filled):
    """PostgreSQL through one of its modules."""
    kinds = KINDS["postgres"]

    def __init__(self, module, server):
        self.name, self.module, self.server = f"PostgreSQL through {module}", module, server

    def reached(self):
        return ["--module", self.module, "--connect", f"host={self.server.data} user=tests dbname=postgres"]

    def connected(self):
        return importlib.import_module(self.module).connect(f"host={self.server.data} user=tests dbname=postgres")

    def unsuitable(self):
        self.run('CREATE MATERIALIZED VIEW "A refused" AS SELECT 1 AS a WITH NO DATA', 'CREATE TABLE "A list" AS SELECT ARRAY[1, 2] AS a')
        return ["A list", "A refused"]


class Shards(Postgres):
    """PostgreSQL that keeps the parts of each table on two servers more."""
    has_index = False

    def __init__(self, module, server, others):
        super().__init__(module, server)
        self.name, self.others = f"PostgreSQL over two servers through {module}", others
        statements = ["CREATE EXTENSION postgres_fdw"]
        for k, other in enumerate(others):
            statements += [f"CREATE SERVER s{k} FOREIGN DATA WRAPPER postgres_fdw OPTIONS (host '{other.data}', dbname 'postgres', fetch_size '10000')",
                           f"CREATE USER MAPPING FOR tests SERVER s{k} OPTIONS (user 'tests', password_required 'false')"]
        self.run(*statements)

    def fill(self, name, columns, rows):
        self.run(self.made(name, columns, f" PARTITION BY HASH ({self.quoted(columns[0][0])})"))
        for k, other in enumerate(self.others):
            part = Postgres(self.module, other)
            part.run(part.made(name, columns))
            self.run(f"CREATE FOREIGN TABLE {self.quoted(f'{name} {k}')} PARTITION OF {self.quoted(name)} FOR VALUES "
                     f"WITH (MODULUS {len(self.others)}, REMAINDER {k}) SERVER s{k} OPTIONS (table_name '{name}')")
        with contextlib.closing(self.connected()) as connection:
            marks = ", ".join(["%s"] * len(columns))
            connection.cursor().executemany(f"INSERT INTO {self.quoted(name)} VALUES ({marks})", [list(map(given, row)) for row in rows])
            connection.commit()

    def end(self):
        for server in [self.server, *self.others]:
            server.end()


class MariaDB(Filled):
    name, kinds, quote, schema = "MariaDB through pymysql", KINDS["mysql"], "`", "tests"

    def __init__(self, server):
        self.server = server

    def reached(self):
        return ["--module", "pymysql", "--connect", f'{{"unix_socket": "{self.server.socket}", "user": "root", "database": "tests", "charset": "utf8mb4"}}']

    def connected(self):
        import pymysql
        return pymysql.connect(unix_socket=self.server.socket, user="root", database="tests", charset="utf8mb4")

    def end(self):
        self.server.end()


CONFIG = """<yandex><logger><level>error</level><log>{home}/log1</log><errorlog>{home}/log2</errorlog></logger>
<tcp_port>{port}</tcp_port><listen_host>127.0.0.1</listen_host><path>{home}/d/</path><tmp_path>{home}/d/tmp/</tmp_path>
<user_files_path>{home}/d/files/</user_files_path><format_schema_path>{home}/d/schemas/</format_schema_path>
<mark_cache_size>67108864</mark_cache_size><users_config>{home}/users.xml</users_config><default_profile>default</default_profile>
<default_database>default</default_database></yandex>"""
USERS = """<yandex><profiles><default><max_memory_usage>2000000000</max_memory_usage></default></profiles><users><default><password></password>
<networks><ip>127.0.0.1</ip></networks><profile>default</profile><quota>default</quota></default></users>
<quotas><default></default></quotas></yandex>"""


class ClickHouse(Filled, engines.Server):
    name, kinds, quote, schema, dialect = "ClickHouse through clickhouse_driver", KINDS["clickhouse"], "`", "default", "clickhouse"
    has_index = False

    def prepare(self):
        with socket.socket() as free:
            free.bind(("127.0.0.1", 0))
            self.port = free.getsockname()[1]
        for file, text in (("config.xml", CONFIG), ("users.xml", USERS)):
            with open(os.path.join(self.home, file), "w") as out:
                out.write(text.format(home=self.data[:-2], port=self.port))
        os.chmod(self.home, 0o777)  # for its log
        self.begin([engines.program("clickhouse-server"), f"--config-file={self.home}/config.xml"])

    def shell(self, script, *words):
        """Whether it answers."""
        done = type("Done", (), {"returncode": 1})
        with contextlib.suppress(Exception), contextlib.closing(self.connected()) as connection:
            connection.cursor().execute("SELECT 1")
            done.returncode = 0
        return done

    def reached(self):
        return ["--module", "clickhouse_driver.dbapi", "--connect", f"clickhouse://default@127.0.0.1:{self.port}/default"]

    def connected(self):
        from clickhouse_driver import dbapi
        return dbapi.connect(f"clickhouse://default@127.0.0.1:{self.port}/default")

    def typed(self, kind, has_null):
        return f"Nullable({self.kinds[kind]})" if has_null else self.kinds[kind]

    def made(self, name, columns, rest=""):
        return super().made(name, columns, " ENGINE = Log")

    def fill(self, name, columns, rows):
        with contextlib.closing(self.connected()) as connection:
            connection.cursor().execute(self.made(name, columns))
            connection.cursor().executemany(f"INSERT INTO {self.quoted(name)} VALUES", rows)

    def run(self, *statements):
        with contextlib.closing(self.connected()) as connection:
            for statement in statements:
                connection.cursor().execute(statement)

    def end(self):
        engines.Server.end(self)


def started():
    """The engines that are there, one after another, and for each that is not a text that says so: it ends when the next one is asked for."""
    yield Sqlite.start()
    modules = [module for module in ("psycopg2", "psycopg") if has(module)]
    servers = []
    if modules:
        server, why = engines.Postgres.start()
        servers += [server] if server else []
        if server:
            for module in modules:
                yield Postgres(module, server), None
                server.fresh("/")
            others = [engines.Postgres.start()[0] for _ in range(2)]
            servers += [other for other in others if other]
            if all(others):
                try:
                    shards = Shards(modules[0], server, others)
                except Exception as error:  # as where postgres_fdw is not installed
                    yield None, f"no PostgreSQL over several servers: {error}"
                else:
                    yield shards, None
        else:
            yield None, why
    else:
        yield None, "no psycopg2 and no psycopg"
    for server in servers:
        server.end()
    yield of_mariadb()
    yield of_clickhouse()


def of_mariadb():
    if not has("pymysql"):
        return None, "no pymysql"
    server, why = engines.Mysql.start()
    return (MariaDB(server), None) if server else (None, why)


def of_clickhouse():
    if not has("clickhouse_driver"):
        return None, "no clickhouse_driver"
    if not engines.program("clickhouse-server"):
        return None, "no clickhouse-server"
    return ClickHouse.started(ClickHouse.prepare)
